//! Works files of one chosen shape through one implementation, to be run under a profiler.

use rathunxa_compare::files::{FileCase, OUTPUT};
use rathunxa_compare::implementations::{Implementation, ALL};
use rathunxa_compare::timing::{worked_files, Kind, EVENTS, NODES};
use std::hint::black_box;
use std::process::ExitCode;

const USAGE: &str = "usage: profile EVENTS NODES KIND REPEATS [library|reference|tuned]
       KIND: sparse, typical, every, aperiodic, accumulated, absence or mixed";

struct Wanted {
    cases: Vec<FileCase>,
    repeats: usize,
    of: Implementation,
}

fn main() -> ExitCode {
    let arguments: Vec<String> = std::env::args().skip(1).collect();
    let Some(wanted) = wanted(&arguments) else {
        eprintln!("{USAGE}");
        return ExitCode::from(2);
    };
    let mut output = [0; OUTPUT];
    for _ in 0..wanted.repeats {
        for case in &wanted.cases {
            black_box((wanted.of.work)(&case.plan, &case.passage, &mut output));
        }
    }
    println!("{} pairs of files worked {} times by {}", wanted.cases.len(), wanted.repeats, wanted.of.name);
    ExitCode::SUCCESS
}

fn wanted(arguments: &[String]) -> Option<Wanted> {
    let (shape, name) = match arguments {
        [shape @ .., name] if shape.len() == 4 => (shape, name.as_str()),
        _ => (arguments, "library"),
    };
    let [events, nodes, kind, repeats] = shape else {
        return None;
    };
    let events = events.parse().ok().filter(|events| *events <= EVENTS)?;
    let nodes = nodes.parse().ok().filter(|nodes| (1..=NODES).contains(nodes))?;
    let kind = Kind::ALL.into_iter().find(|of| of.name() == kind)?;
    let of = ALL.into_iter().find(|of| of.name == name)?;
    let cases = worked_files(kind).iter().map(|files| files.part(events, nodes)).collect();
    Some(Wanted { cases, repeats: repeats.parse().ok()?, of })
}
