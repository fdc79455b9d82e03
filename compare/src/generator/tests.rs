//! The generated cases of the open calls reach every answer often enough.

use super::{compare_case, join_case, Random};
use crate::reference;
use std::collections::BTreeMap;

const CASES: u64 = 20_000;
const LEAST: u64 = CASES / 100;

#[test]
fn joins_reach_every_number() {
    let mut seen = BTreeMap::new();
    for i in 0..CASES {
        let case = join_case(&mut Random::new(7, i));
        *seen.entry(reference::join(case.ratio, &case.list).number).or_insert(0) += 1;
    }
    assert_eq!(seen.keys().copied().collect::<Vec<u64>>(), [0, 34, 35, 36]);
    assert!(seen.values().all(|n| *n >= LEAST), "{seen:?}");
}

#[test]
fn comparisons_reach_every_number_and_reply() {
    let (mut numbers, mut replies) = (BTreeMap::new(), BTreeMap::new());
    for i in 0..CASES {
        let case = compare_case(&mut Random::new(7, i));
        let answer = reference::compare(case.ratio, &case.first, &case.second);
        *numbers.entry(answer.number).or_insert(0) += 1;
        if answer.number == 0 {
            *replies.entry((answer.order, answer.weakly_before)).or_insert(0) += 1;
        }
    }
    assert_eq!(numbers.keys().copied().collect::<Vec<u64>>(), [0, 34, 35, 36, 37]);
    // Incomparable with both; before, after and concurrent each with one.
    assert_eq!(replies.keys().copied().collect::<Vec<_>>(), [(0, false), (0, true), (1, true), (2, false), (3, true)]);
    assert!(numbers.values().chain(replies.values()).all(|n| *n >= LEAST), "{numbers:?} {replies:?}");
}
