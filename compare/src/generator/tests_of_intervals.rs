//! The generated files reach what the operators with a third input have of their own: number 41 in both ways, both
//! lists at their limit, and the limits of findings.

use super::tests_of_files::{all_worked, counts, two_bytes, worked, Worked, LEAST, RARE};
use crate::files::{FileCase, NodeEntry, ABSENCE, ACCUMULATED, APERIODIC, SEQ};
use std::collections::BTreeMap;
use std::ops::RangeInclusive;

const FORMS: usize = 6 * 4;

/// The node that made each finding.
fn makers(of: &Worked) -> Vec<NodeEntry> {
    if of.found.is_empty() {
        return Vec::new();
    }
    let nodes = NodeEntry::all_of(&of.case.plan);
    of.found.iter().map(|detection| nodes[detection.node as usize]).collect()
}

#[test]
fn each_operator_makes_findings_in_each_context() {
    let mut made = BTreeMap::new();
    for maker in all_worked().flat_map(makers) {
        *made.entry((maker.operator, maker.context)).or_insert(0) += 1;
    }
    assert!(made.len() == FORMS && made.values().all(|n| *n >= LEAST), "{made:?}");
}

#[test]
fn a_third_input_is_refused_with_and_without_need_of_one() {
    let refused = |w: &Worked| w.answer.number == 41;
    let operator = |w: &Worked| w.case.plan[w.answer.place as usize];
    let third = |w: &Worked| two_bytes(&w.case.plan, w.answer.place as usize + 6);
    let not_wanted = |w: &Worked| refused(w) && operator(w) <= SEQ;
    let missing = |w: &Worked| refused(w) && operator(w) > SEQ && third(w) == 65_535;
    let no_kind = |w: &Worked| refused(w) && operator(w) > SEQ && third(w) < 32_768;
    let no_node = |w: &Worked| refused(w) && operator(w) > SEQ && (32_768..65_535).contains(&third(w));
    let seen = counts([&not_wanted, &missing, &no_kind, &no_node]);
    assert!(seen.iter().all(|n| *n >= RARE), "{seen:?}");
}

/// Where the plan has one node of the operator: how many of a kind arrive before anything else does.
fn first_waiting(case: &FileCase, operator: u8, kind: usize) -> usize {
    let of_kind = |event: &&[u8]| two_bytes(event, 0) == kind;
    if case.plan.len() == 30 && case.plan[22] == operator && case.passage.len() > 2 {
        case.passage[2..].chunks_exact(12).take_while(of_kind).count()
    } else {
        0
    }
}

/// The lists that are filled first: the operator of the one node, and the kind that waits.
const LISTS: [(u8, usize); 5] = [(APERIODIC, 7), (ACCUMULATED, 7), (ACCUMULATED, 9), (ABSENCE, 7), (ABSENCE, 9)];

#[test]
fn fifteen_sixteen_and_seventeen_wait_in_either_list() {
    let mut seen = BTreeMap::new();
    for w in all_worked() {
        for (operator, kind) in LISTS {
            let waiting = first_waiting(&w.case, operator, kind);
            let is_met = matches!((waiting, w.answer.number, w.answer.place), (15 | 16, 0, _) | (17.., 31, 16));
            *seen.entry((operator, kind, waiting.min(17))).or_insert(0) += u64::from(is_met);
        }
    }
    let of = |(operator, kind): (u8, usize)| [15, 16, 17].map(|waiting| seen[&(operator, kind, waiting)]);
    assert!(LISTS.map(of).as_flattened().iter().all(|n| *n >= RARE / 4), "{:?}", LISTS.map(of));
}

/// The most findings that one node of the operator made from one event.
fn most_of(of: &Worked, operator: u8) -> usize {
    let mut made = BTreeMap::new();
    for (detection, _) in of.found.iter().zip(makers(of)).filter(|(_, maker)| maker.operator == operator) {
        *made.entry((detection.node, detection.events.last())).or_insert(0) += 1;
    }
    made.into_values().max().unwrap_or(0)
}

#[test]
fn a_third_makes_eight_findings_and_a_ninth_gives_32() {
    let ends = |number: u64, operator: u8| move |w: &Worked| w.answer.number == number && most_of(w, operator) == 8;
    let seen = counts([&ends(0, ACCUMULATED), &ends(32, ACCUMULATED), &ends(0, ABSENCE), &ends(32, ABSENCE)]);
    assert!(seen.iter().all(|n| *n >= RARE / 2), "{seen:?}");
}

/// The operator whose finding did not fit.
fn stopped_by_33(of: &Worked) -> Option<u8> {
    let more = || worked(FileCase { output: 1 << 20, ..of.case.clone() });
    (of.answer.number == 33).then(|| makers(&more())[of.found.len()].operator)
}

#[test]
fn a_finding_of_each_operator_does_not_fit() {
    let mut stopped = BTreeMap::new();
    all_worked().filter_map(stopped_by_33).for_each(|operator| *stopped.entry(operator).or_insert(0) += 1);
    assert!(stopped.len() == 6 && stopped.values().all(|n| *n >= RARE), "{stopped:?}");
}

#[test]
fn findings_have_many_middles_and_none() {
    let has = |w: &Worked, events: RangeInclusive<usize>| {
        let mut found = w.found.iter().zip(makers(w));
        found.any(|(finding, maker)| maker.operator == ACCUMULATED && events.contains(&finding.events.len()))
    };
    let seen = counts([&|w| has(w, 2..=2), &|w| has(w, 3..=8), &|w| has(w, 18..=63), &|w| has(w, 100..=128)]);
    assert!(seen.iter().all(|n| *n >= RARE), "{seen:?}");
}
