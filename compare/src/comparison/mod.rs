//! All implementations on the same cases, up to the first difference.

mod agreement;
mod files;
mod open_calls;

pub use agreement::{agreed_comparison, agreed_join, agreed_work};
pub use open_calls::{agreed_reply, all_replied_often};

use crate::generator::Random;
use std::collections::BTreeMap;

/// How often each answer occurred, or whatever else is said of a case.
pub type Totals = BTreeMap<String, u64>;

/// From so many cases on, every answer has to occur.
const ENOUGH: u64 = 100_000;

/// Compares `cases` cases of each open call, `files` pairs of files, and a sweep over some small pairs.
pub fn run_all(cases: u64, files: u64, seed: u64) -> Result<(), String> {
    run("join", cases, seed, open_calls::one_join)?;
    let totals = run("compare", cases, seed, open_calls::one_comparison)?;
    if cases >= ENOUGH {
        all_replied_often(&totals)?;
    }
    let totals = run("files", files, seed, files::one_pair)?;
    if files >= ENOUGH {
        files::all_occurred(&totals, files)?;
    }
    files::sweep(seed)?;
    println!("no difference");
    Ok(())
}

/// Runs the cases of one call and prints how often each thing was said of one.
fn run(
    call: &str,
    cases: u64,
    seed: u64,
    one: fn(&mut Random) -> Result<Vec<String>, String>,
) -> Result<Totals, String> {
    let mut totals = Totals::new();
    for i in 0..cases {
        let said = one(&mut Random::new(seed, i));
        let said = said.map_err(|what| format!("{call}: DIFFERENCE at case {i} of seed {seed}\n{what}"))?;
        said.into_iter().for_each(|thing| *totals.entry(thing).or_default() += 1);
    }
    println!("{call}: {cases} cases, seed {seed}");
    print_totals(&totals);
    Ok(totals)
}

pub fn print_totals(totals: &Totals) {
    for (answer, count) in totals {
        println!("  {answer}: {count}");
    }
}
