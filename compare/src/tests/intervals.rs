//! The operators with a third input: aperiodic, accumulated, absence. Ratio 10; one node, and the kinds 1, 2 and 3 are
//! its left, its middle and its third input.

use super::files::{answer, worked};
use crate::files::{passage_bytes, EventEntry, NodeEntry, PlanFile, ABSENCE, ACCUMULATED, AND, APERIODIC, NODE_INPUT};
use crate::files::{CHRONICLE, CONTINUOUS, CUMULATIVE, RECENT};

const CONTEXTS: [u8; 4] = [RECENT, CHRONICLE, CONTINUOUS, CUMULATIVE];
/// Where the node's entry stands.
const NODE_AT: u64 = 26;

fn plan(nodes: &[NodeEntry]) -> PlanFile {
    PlanFile { ratios: vec![10], loggers: vec![1, 2, 3, 4], kinds: vec![1, 2, 3], nodes: nodes.to_vec() }
}

fn plan_of(operator: u8, context: u8) -> PlanFile {
    plan(&[NodeEntry::new(operator, context, &[0, 1, 2])])
}

/// Its middle is kind 2 and kind 4 together.
fn plan_of_pairs(operator: u8) -> PlanFile {
    let nodes = [NodeEntry::new(AND, CHRONICLE, &[1, 3]), NodeEntry::new(operator, RECENT, &[0, NODE_INPUT, 2])];
    PlanFile { kinds: vec![1, 2, 3, 4], ..plan(&nodes) }
}

/// Events are a kind, a logger and a tick.
fn events(entries: &[(u16, u16, u64)]) -> Vec<u8> {
    let event = |(kind, logger, tick): &(u16, u16, u64)| EventEntry { kind: *kind, logger: *logger, tick: *tick };
    passage_bytes(&entries.iter().map(event).collect::<Vec<EventEntry>>())
}

/// The events of each finding of a passage worked to its end.
fn found(plan: &PlanFile, entries: &[(u16, u16, u64)]) -> Vec<Vec<u64>> {
    let (answer, found) = worked(&plan.bytes(), &events(entries));
    assert_eq!(answer.number, 0);
    found.into_iter().map(|detection| detection.events).collect()
}

/// The same in every context, in the order of CONTEXTS.
fn found_in_each(operator: u8, entries: &[(u16, u16, u64)]) -> [Vec<Vec<u64>>; 4] {
    CONTEXTS.map(|context| found(&plan_of(operator, context), entries))
}

/// So many of a kind at logger 1, from a tick on.
fn many(kind: u16, count: u64, tick: u64) -> Vec<(u16, u16, u64)> {
    (0..count).map(|i| (kind, 1, tick + i)).collect()
}

#[test]
fn aperiodic_takes_with_the_middle_as_seq_does() {
    let found = found_in_each(APERIODIC, &[(1, 1, 80), (1, 1, 95), (2, 2, 110), (2, 2, 300)]);
    let of_recent = vec![vec![1, 2], vec![1, 3]];
    let of_chronicle = vec![vec![0, 2], vec![1, 3]];
    assert_eq!(found, [of_recent, of_chronicle, vec![vec![0, 2], vec![1, 2]], vec![vec![0, 1, 2]]]);
}

#[test]
fn a_third_of_aperiodic_removes_the_lefts_before_it_in_every_context() {
    // 1:80 is before 2:110; 1:105 is concurrent with it, 1:300 after it.
    let lefts = [(1, 1, 80), (1, 1, 105), (1, 1, 300)];
    let found = found_in_each(APERIODIC, &[&lefts[..], &[(3, 2, 110), (2, 2, 400)]].concat());
    assert_eq!(found, [vec![vec![2, 4]], vec![vec![1, 4]], vec![vec![1, 4], vec![2, 4]], vec![vec![1, 2, 4]]]);
}

#[test]
fn a_late_third_of_aperiodic_takes_no_finding_back() {
    let found = found_in_each(APERIODIC, &[(1, 1, 80), (2, 1, 100), (3, 1, 90), (2, 1, 110)]);
    assert_eq!(found, [(); 4].map(|()| vec![vec![0, 1]]));
}

#[test]
fn inputs_are_taken_left_middle_third() {
    // The middle finds before the third removes.
    let middle_and_third = plan(&[NodeEntry::new(APERIODIC, RECENT, &[0, 1, 1])]);
    assert_eq!(found(&middle_and_third, &[(1, 1, 80), (2, 1, 90), (2, 1, 95)]), [[0, 1]]);
    // The new left waits when the third removes those before it.
    let left_and_third = plan(&[NodeEntry::new(APERIODIC, CONTINUOUS, &[0, 1, 0])]);
    assert_eq!(found(&left_and_third, &[(1, 1, 80), (1, 1, 90), (2, 1, 95)]), [[1, 2]]);
    // The middle of the same event waits when the third comes, and blocks.
    let absent = plan(&[NodeEntry::new(ABSENCE, RECENT, &[0, 1, 1])]);
    assert_eq!(found(&absent, &[(1, 1, 80), (2, 1, 90)]), [[0u64; 0]; 0]);
    // It is not before itself, so the finding has no middle; the next one has it, since it was not removed.
    let accumulated = plan(&[NodeEntry::new(ACCUMULATED, RECENT, &[0, 1, 1])]);
    assert_eq!(found(&accumulated, &[(1, 1, 80), (2, 1, 90), (1, 1, 85), (2, 1, 99)]), [vec![0, 1], vec![1, 2, 3]]);
}

#[test]
fn accumulated_takes_by_context_and_has_the_middles_of_its_lefts() {
    let entries = [(1, 1, 80), (1, 1, 90), (2, 1, 85), (2, 1, 95), (3, 1, 110)];
    let (of_first, of_second) = (vec![0, 2, 3, 4], vec![1, 3, 4]);
    let both = vec![of_first.clone(), of_second.clone()];
    let wanted = [vec![of_second], vec![of_first], both, vec![vec![0, 1, 2, 3, 4]]];
    assert_eq!(found_in_each(ACCUMULATED, &entries), wanted);
}

#[test]
fn accumulated_has_only_middles_after_a_left_and_before_the_third() {
    // Concurrent with the left, between, concurrent with the third, after it. The first is before the left 1:110.
    let middles = [(2, 2, 95), (2, 2, 120), (2, 2, 155), (2, 2, 190)];
    let alone = [&[(1, 1, 90)], &middles[..], &[(3, 1, 160)]].concat();
    assert_eq!(found_in_each(ACCUMULATED, &alone), [(); 4].map(|()| vec![vec![0, 2, 5]]));
    // Together the lefts share their middles: 2:95 is after 1:70 alone.
    let two = [&[(1, 1, 70), (1, 1, 90)], &middles[..], &[(3, 1, 160)]].concat();
    let of_each = vec![vec![0, 2, 3, 6], vec![1, 3, 6]];
    assert_eq!(found(&plan_of(ACCUMULATED, CONTINUOUS), &two), of_each);
    assert_eq!(found(&plan_of(ACCUMULATED, CUMULATIVE), &two), [[0, 1, 2, 3, 6]]);
}

#[test]
fn accumulated_removes_all_before_the_third_in_every_context() {
    // Left and middle after the first third stay, all others go.
    let entries = [(1, 1, 80), (1, 1, 81), (2, 1, 85), (1, 1, 120), (2, 1, 130), (3, 1, 110), (3, 1, 140)];
    let last = |found: Vec<Vec<u64>>| found.last().cloned();
    let found = found_in_each(ACCUMULATED, &entries);
    assert_eq!(found.each_ref().map(Vec::len), [2, 2, 3, 2]);
    assert_eq!(found.map(last), [(); 4].map(|()| Some(vec![3, 4, 6])));
}

#[test]
fn accumulated_removes_middles_without_candidates_too() {
    // 1:85 goes with the third 1:90, 1:95 stays for the late left.
    let entries = [(2, 1, 85), (2, 1, 95), (3, 1, 90), (1, 1, 70), (3, 1, 120)];
    assert_eq!(found_in_each(ACCUMULATED, &entries), [(); 4].map(|()| vec![vec![1, 3, 4]]));
}

#[test]
fn accumulated_without_a_middle_is_a_finding() {
    assert_eq!(found_in_each(ACCUMULATED, &[(1, 1, 80), (3, 1, 90)]), [(); 4].map(|()| vec![vec![0, 1]]));
}

#[test]
fn the_latest_timestamps_have_those_of_the_middles() {
    // The middle is {1:100, 2:115}: before 1:101, of which 2:115 is not.
    let plan = plan_of_pairs(ACCUMULATED);
    let entries = [(1, 1, 80), (2, 1, 100), (4, 2, 115), (3, 1, 101)];
    let (_, found) = worked(&plan.bytes(), &events(&entries));
    let latest: Vec<&[(u64, u64)]> = found.iter().map(|detection| &detection.timestamps[..]).collect();
    assert_eq!(latest, [&[(1, 100), (2, 115)], &[(1, 101), (2, 115)]]);
    assert_eq!(found[1].events, [0, 1, 2, 3]);
}

#[test]
fn absence_finds_where_nothing_came_between() {
    let found = found_in_each(ABSENCE, &[(1, 1, 80), (1, 1, 95), (3, 1, 110), (3, 1, 120)]);
    let of_recent = vec![vec![1, 2], vec![1, 3]];
    let of_chronicle = vec![vec![0, 2], vec![1, 3]];
    assert_eq!(found, [of_recent, of_chronicle, vec![vec![0, 2], vec![1, 2]], vec![vec![0, 1, 2]]]);
}

#[test]
fn a_middle_blocks_where_it_is_weakly_between() {
    let is_blocked = |middle: (u16, u16, u64)| {
        let found = found_in_each(ABSENCE, &[(1, 1, 100), middle, (3, 1, 200)]);
        let blocked = found.each_ref().map(|found| found.is_empty());
        assert!(blocked.iter().all(|other| *other == blocked[0]));
        blocked[0]
    };
    // Of the same logger: only strictly outside it lets pass.
    assert!([100, 101, 199, 200].iter().all(|tick| is_blocked((2, 1, *tick))));
    assert!([99, 201].iter().all(|tick| !is_blocked((2, 1, *tick))));
    // Of another: concurrent ones block too.
    assert!([90, 110, 219].iter().all(|tick| is_blocked((2, 2, *tick))));
    assert!([89, 220].iter().all(|tick| !is_blocked((2, 2, *tick))));
}

#[test]
fn a_middle_that_is_incomparable_and_weakly_before_blocks() {
    // The middle is {2:90, 3:100}: 1:80 is weakly before it, though neither before it nor concurrent with it (J5).
    let plan = plan_of_pairs(ABSENCE);
    assert_eq!(found(&plan, &[(1, 1, 80), (2, 2, 90), (4, 3, 100), (3, 4, 150)]), [[1, 2]]);
    assert_eq!(found(&plan, &[(1, 1, 112), (2, 2, 90), (4, 3, 100), (3, 4, 150)]), [[1, 2], [0, 3]]);
}

#[test]
fn a_blocked_left_stays_and_a_middle_stays_to_the_end() {
    // 1:80 is blocked by 1:90; 1:95 is not. Only 1:95 is a candidate, so recent and the others leave 1:80 alone.
    let entries = [(1, 1, 80), (2, 1, 90), (1, 1, 95), (3, 1, 110), (3, 1, 85), (3, 1, 120)];
    let again = vec![vec![2, 3], vec![0, 4], vec![2, 5]];
    let once = vec![vec![2, 3], vec![0, 4]];
    assert_eq!(found_in_each(ABSENCE, &entries), [again, once.clone(), once.clone(), once]);
}

#[test]
fn a_late_middle_takes_no_finding_back() {
    let found = found_in_each(ABSENCE, &[(1, 1, 80), (3, 1, 110), (2, 1, 90), (3, 1, 120)]);
    assert_eq!(found, [(); 4].map(|()| vec![vec![0, 1]]));
}

#[test]
fn sixteen_wait_in_either_list_and_the_seventeenth_gives_31() {
    for (operator, kind) in [(APERIODIC, 1), (ACCUMULATED, 1), (ACCUMULATED, 2), (ABSENCE, 1), (ABSENCE, 2)] {
        for plan in CONTEXTS.map(|context| plan_of(operator, context).bytes()) {
            let other = (3 - kind, 1, 70);
            let sixteen = [many(kind, 16, 80), vec![other]].concat();
            assert_eq!(worked(&plan, &events(&sixteen)).0.number, 0);
            let more = [many(kind, 16, 80), vec![(kind, 1, 99)]].concat();
            assert_eq!(worked(&plan, &events(&more)).0, answer(31, 16, 0, 0));
        }
    }
}

#[test]
fn a_third_frees_places_of_accumulated_and_no_middle_of_absence() {
    let passage = events(&[many(2, 16, 80), vec![(3, 1, 100), (2, 1, 101)]].concat());
    for context in CONTEXTS {
        assert_eq!(worked(&plan_of(ACCUMULATED, context).bytes(), &passage).0, answer(0, 0, 0, 0));
        assert_eq!(worked(&plan_of(ABSENCE, context).bytes(), &passage).0, answer(31, 17, 0, 0));
    }
}

#[test]
fn eight_findings_of_a_third_pass_and_a_ninth_gives_32() {
    for operator in [ACCUMULATED, ABSENCE] {
        let plan = plan_of(operator, CONTINUOUS).bytes();
        let passage = |lefts| events(&[many(1, lefts, 80), vec![(3, 1, 100)]].concat());
        assert_eq!(worked(&plan, &passage(8)).0, answer(0, 0, 8, 160));
        assert_eq!(worked(&plan, &passage(9)).0, answer(32, 9, 8, 160));
    }
}

#[test]
fn the_third_input_is_checked_last() {
    let entry = |bytes: [u8; 8]| [&plan(&[]).bytes()[..24], &[0, 1], &bytes].concat();
    let gives = |bytes: [u8; 8], number: u64| {
        let place = if number == 0 { 0 } else { NODE_AT };
        assert_eq!(worked(&entry(bytes), &[0, 0]).0, answer(number, place, 0, 0), "{bytes:?}");
    };
    for operator in [1, 2, 3] {
        gives([operator, 1, 0, 0, 0, 1, 255, 255], 0);
        // An input, or nothing that is one.
        for third in [[0, 0], [0, 2], [0, 3], [128, 0], [255, 254]] {
            gives([operator, 1, 0, 0, 0, 1, third[0], third[1]], 41);
        }
    }
    for operator in [4, 5, 6] {
        gives([operator, 1, 0, 0, 0, 1, 0, 2], 0);
        gives([operator, 1, 0, 0, 0, 0, 0, 0], 0);
        for third in [[0, 3], [127, 255], [128, 0], [128, 1], [255, 255]] {
            gives([operator, 1, 0, 0, 0, 1, third[0], third[1]], 41);
        }
        gives([operator, 1, 0, 0, 0, 3, 0, 3], 11);
        gives([operator, 5, 0, 3, 0, 3, 0, 3], 10);
    }
    gives([0, 5, 0, 3, 0, 3, 0, 3], 9);
    gives([7, 5, 0, 3, 0, 3, 0, 3], 9);
}

#[test]
fn a_third_input_may_be_an_earlier_node_and_no_later_one() {
    let or = NodeEntry::new(1, 1, &[2, 2]);
    let with_third = |third| plan(&[or, NodeEntry::new(ACCUMULATED, RECENT, &[0, 1, third]), or]).bytes();
    assert_eq!(worked(&with_third(NODE_INPUT), &[0, 0]).0, answer(0, 0, 0, 0));
    for third in [NODE_INPUT + 1, NODE_INPUT + 2, NODE_INPUT + 15] {
        assert_eq!(worked(&with_third(third), &[0, 0]).0, answer(41, NODE_AT + 8, 0, 0));
    }
}
