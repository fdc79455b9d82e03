//! File working: the answer's four numbers and every byte of the output, with a guard past its end.

use super::agreement::agreed_work;
use super::{print_totals, Totals};
use crate::files::{FileCase, NodeEntry};
use crate::generator::{file_case, swept_cases, Random};
use crate::reference::detections;
use std::collections::BTreeSet;

const SWEPT_PAIRS: u64 = 25;
/// Each operator has to make findings in each context at least once in so many pairs.
const OFTEN: u64 = 200;

/// The number answered, and which operators made findings in which contexts.
pub fn one_pair(random: &mut Random) -> Result<Vec<String>, String> {
    let case = file_case(random);
    let pattern = random.number();
    let (answer, memory) = agreed_work(&case, pattern)?;
    let mut labels = vec![label(answer.number)];
    labels.extend(found_by(&case, &memory[..answer.bytes as usize]).iter().map(found_label));
    Ok(labels)
}

/// The operators and contexts of the nodes that made the findings written.
fn found_by(case: &FileCase, written: &[u8]) -> BTreeSet<(u8, u8)> {
    let makers: BTreeSet<u64> = detections(written).iter().map(|detection| detection.node).collect();
    if makers.is_empty() {
        return BTreeSet::new();
    }
    let nodes = NodeEntry::all_of(&case.plan);
    makers.iter().map(|place| nodes[*place as usize]).map(|node| (node.operator, node.context)).collect()
}

fn label(number: u64) -> String {
    format!("number {number:>2}")
}

fn found_label((operator, context): &(u8, u8)) -> String {
    format!("findings by operator {operator} in context {context}")
}

/// Each number of file working must be among the answers, and findings of each operator in each context often.
pub fn all_occurred(totals: &Totals, pairs: u64) -> Result<(), String> {
    let mut numbers = (0..=12).chain(21..=26).chain(31..=33).chain([41]);
    if let Some(number) = numbers.find(|number| !totals.contains_key(&label(*number))) {
        return Err(format!("files: FAILED: no case answered {number}"));
    }
    let mut forms = (1..=6).flat_map(|operator| (1..=4).map(move |context| found_label(&(operator, context))));
    let times = |form: &String| totals.get(form).copied().unwrap_or(0);
    match forms.find(|form| times(form) * OFTEN < pairs) {
        Some(form) => Err(format!("files: FAILED: only {} of {pairs} pairs have {form}", times(&form))),
        None => Ok(()),
    }
}

/// All swept forms of some small pairs of files.
pub fn sweep(seed: u64) -> Result<(), String> {
    let mut totals = Totals::new();
    for i in 0..SWEPT_PAIRS {
        let random = &mut Random::new(seed, i);
        for case in swept_cases(random) {
            let outcome = agreed_work(&case, random.number());
            let (answer, _) =
                outcome.map_err(|what| format!("sweep: DIFFERENCE in pair {i} of seed {seed}\n{what}"))?;
            *totals.entry(label(answer.number)).or_default() += 1;
        }
    }
    println!("sweep: {} cases of {SWEPT_PAIRS} pairs, seed {seed}", totals.values().sum::<u64>());
    print_totals(&totals);
    Ok(())
}
