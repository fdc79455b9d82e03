//! The passages, the lists and the entries are all different, the plans are allowed, and a second join of one set is
//! told.

use super::comparisons::lists;
use super::entries::{entries, work_all};
use super::joins::Joins;
use super::passages::{how_many, LOGGERS, THREE_KINDS, TICKS, TWO_KINDS};
use super::plans::{interval_plans, pair_plans};
use crate::files::{passage_bytes, EventEntry};
use crate::interface::Timestamp;
use crate::reference::{work, Detection};
use std::collections::BTreeSet;

#[test]
fn passages_are_all_different() {
    assert_eq!((0..=4).map(how_many).collect::<Vec<u64>>(), [1, 36, 1296, 46_656, 1_679_616]);
    for range in [TWO_KINDS, THREE_KINDS] {
        let passage = |number| passage_bytes(&range.scattered(3, number));
        assert_eq!((0..how_many(3)).map(passage).collect::<BTreeSet<Vec<u8>>>().len(), 46_656);
    }
}

#[test]
fn a_36th_part_begins_in_every_way() {
    let part = 0..how_many(4) / 36;
    let begun: BTreeSet<Vec<u8>> = part.map(|number| passage_bytes(&TWO_KINDS.scattered(4, number)[..3])).collect();
    assert_eq!(begun.len(), 46_656);
}

#[test]
fn entries_are_all_different_and_reach_their_numbers() {
    let all: BTreeSet<String> = entries().map(|entry| format!("{entry:?}")).collect();
    assert_eq!(all.len(), 8 * 6 * 8 * 8 * 8);
    assert!(work_all().is_ok());
}

#[test]
fn lists_are_all_different() {
    assert_eq!(lists().len(), 7 * 7 * 7 - 1);
    assert_eq!(lists().into_iter().collect::<BTreeSet<Vec<Timestamp>>>().len(), lists().len());
}

#[test]
fn plans_are_allowed_and_have_every_nesting() {
    for plan in pair_plans().iter().chain(&interval_plans()) {
        assert_eq!(work(&plan.bytes(), &[0, 0], &mut []).number, 0);
    }
    let nested: BTreeSet<(u8, u8, u8, u8)> = pair_plans()
        .iter()
        .filter(|plan| plan.nodes.len() == 10)
        .flat_map(|plan| plan.nodes[1..].iter().map(|outer| (plan.nodes[0], *outer)).collect::<Vec<_>>())
        .map(|(inner, outer)| (inner.operator, inner.context, outer.operator, outer.context))
        .collect();
    assert_eq!(nested.len(), 81);
}

fn found(passage: &[EventEntry], joins: &mut Joins, latest: &[(u64, u64)]) -> Result<(), String> {
    let events = (0..passage.len() as u64).collect();
    joins.note(passage, &Detection { node: 0, timestamps: latest.to_vec(), events })
}

#[test]
fn a_second_join_of_one_set_is_told() {
    let at = |logger, tick| EventEntry { kind: 7, logger, tick };
    let (one, other) = ([at(LOGGERS[0], TICKS[0]), at(LOGGERS[1], TICKS[3])], [at(2, 20), at(1, 9), at(2, 20)]);
    let joins = &mut Joins::default();
    assert!(found(&one, joins, &[(2, 20)]).is_ok());
    assert!(found(&other, joins, &[(2, 20)]).is_ok());
    assert!(found(&other, joins, &[(1, 9), (2, 20)]).is_err());
    assert!(found(&other, joins, &[(2, 21)]).is_err());
    assert_eq!((joins.sets(), joins.findings), (1, 3));
}
