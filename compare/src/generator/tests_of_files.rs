//! The generated files reach every number, both sides of each limit, deep nesting and many ties.

use super::{file_case, swept_cases, Random};
use crate::files::{FileCase, NodeEntry, NODE_INPUT, OUTPUT};
use crate::interface::Answer;
use crate::reference::{self, Detection};
use std::collections::BTreeMap;
use std::sync::LazyLock;

const CASES: u64 = 20_000;
pub const LEAST: u64 = CASES / 100;
pub const RARE: u64 = CASES / 1000;

pub struct Worked {
    pub case: FileCase,
    pub answer: Answer,
    pub found: Vec<Detection>,
}

pub fn worked(case: FileCase) -> Worked {
    let mut output = vec![0; case.output];
    let answer = reference::work(&case.plan, &case.passage, &mut output);
    let found = reference::detections(&output[..answer.bytes as usize]);
    Worked { case, answer, found }
}

/// Every test looks at the same cases, so they are worked once.
static ALL: LazyLock<Vec<Worked>> =
    LazyLock::new(|| (0..CASES).map(|i| worked(file_case(&mut Random::new(7, i)))).collect());

pub fn all_worked() -> impl Iterator<Item = &'static Worked> {
    ALL.iter()
}

/// In how many cases each of some things holds.
pub fn counts<const N: usize>(things: [&dyn Fn(&Worked) -> bool; N]) -> [u64; N] {
    let mut counts = [0; N];
    for worked in all_worked() {
        things.iter().zip(&mut counts).for_each(|(holds, count)| *count += u64::from(holds(worked)));
    }
    counts
}

pub fn two_bytes(file: &[u8], at: usize) -> usize {
    usize::from(u16::from_be_bytes([file[at], file[at + 1]]))
}

#[test]
fn files_reach_every_number() {
    let mut numbers = BTreeMap::new();
    all_worked().for_each(|worked| *numbers.entry(worked.answer.number).or_insert(0) += 1);
    let wanted: Vec<u64> = (0..=12).chain(21..=26).chain(31..=33).chain([41]).collect();
    assert_eq!(numbers.keys().copied().collect::<Vec<u64>>(), wanted);
    assert!(numbers.values().all(|n| *n >= LEAST), "{numbers:?}");
}

#[test]
fn detections_reach_every_node_all_loggers_and_all_events() {
    let (mut nodes, mut timestamps, mut events) = ([0; 16], [0; 9], [0; 129]);
    for detection in all_worked().flat_map(|worked| &worked.found) {
        nodes[detection.node as usize] += 1;
        timestamps[detection.timestamps.len()] += 1;
        events[detection.events.len()] += 1;
    }
    assert!(nodes.iter().all(|n| *n >= RARE), "{nodes:?}");
    assert!(timestamps[1..].iter().all(|n| *n >= RARE), "{timestamps:?}");
    assert!(events[64..].iter().sum::<u64>() >= RARE && events[128] > 0, "{events:?}");
}

/// For each node of an accepted plan, how many nodes stand above one another up to it.
fn depths(plan: &[u8]) -> Vec<usize> {
    let mut depths: Vec<usize> = Vec::new();
    for node in NodeEntry::all_of(plan) {
        let nodes = node.inputs().into_iter().filter_map(|input| input.checked_sub(NODE_INPUT));
        let below = nodes.map(|place| depths[usize::from(place)]).max().unwrap_or(0);
        depths.push(1 + below);
    }
    depths
}

#[test]
fn detections_reach_every_depth() {
    let mut reached = [0; 17];
    for worked in all_worked().filter(|worked| !worked.found.is_empty()) {
        let depths = depths(&worked.case.plan);
        let deepest = worked.found.iter().map(|detection| depths[detection.node as usize]).max();
        reached[deepest.unwrap_or(0)] += 1;
    }
    assert!(reached[1..].iter().all(|n| *n >= RARE), "{reached:?}");
    assert!(reached[16] >= LEAST, "{reached:?}");
}

/// The most findings that one node made from one event, which is the last of a finding's events.
fn most_from_one_event(found: &[Detection]) -> usize {
    let mut made = BTreeMap::new();
    found.iter().for_each(|detection| *made.entry((detection.node, detection.events.last())).or_insert(0) += 1);
    made.into_values().max().unwrap_or(0)
}

#[test]
fn a_node_makes_seven_eight_and_nine_findings_from_an_event() {
    let most =
        |number: u64, most: usize| move |w: &Worked| w.answer.number == number && most_from_one_event(&w.found) == most;
    let seen = counts([&most(0, 7), &most(0, 8), &most(32, 8)]);
    assert!(seen.iter().all(|n| *n >= RARE), "{seen:?}");
}

/// Where the plan has one node that lets kind 7 wait: how many of it arrive before anything else does.
fn first_waiting(case: &FileCase) -> usize {
    let one_node = case.plan.len() == 30 && case.plan[22] > 1;
    let of_kind_7 = |event: &&[u8]| two_bytes(event, 0) == 7;
    if one_node && case.passage.len() > 2 {
        case.passage[2..].chunks_exact(12).take_while(of_kind_7).count()
    } else {
        0
    }
}

#[test]
fn fifteen_sixteen_and_seventeen_wait() {
    let fit = |count: usize| move |w: &Worked| w.answer.number == 0 && first_waiting(&w.case) == count;
    let past = |w: &Worked| w.answer.number == 31 && w.answer.place == 16 && first_waiting(&w.case) > 16;
    let seen = counts([&fit(15), &fit(16), &past]);
    assert!(seen.iter().all(|n| *n >= RARE), "{seen:?}");
}

/// One byte more would have held another finding.
fn misses_one_byte(of: &Worked) -> bool {
    let more = FileCase { output: of.case.output + 1, ..of.case.clone() };
    of.answer.number == 33 && worked(more).answer.findings > of.answer.findings
}

#[test]
fn the_output_ends_at_before_and_past_a_finding() {
    let left = |number: u64, bytes: u64| {
        move |w: &Worked| {
            w.answer.number == number && w.answer.bytes > 0 && w.answer.bytes + bytes == w.case.output as u64
        }
    };
    let whole_used = |w: &Worked| w.answer.number == 33 && w.case.output == OUTPUT;
    let seen = counts([&left(0, 0), &left(0, 1), &left(33, 0), &misses_one_byte, &whole_used]);
    assert!(seen.iter().all(|n| *n >= RARE), "{seen:?}");
}

/// Of neighbours in a passage that is accepted: how many have one timestamp, and how many are on two loggers at most
/// one global tick apart.
fn ties(case: &FileCase) -> (usize, usize) {
    let ratio = u64::from(u32::from_be_bytes([case.plan[2], case.plan[3], case.plan[4], case.plan[5]]));
    let tick = |event: &[u8]| event[4..].iter().fold(0, |value, byte| value << 8 | u64::from(*byte));
    let events: Vec<&[u8]> = case.passage[2..].chunks(12).collect();
    let same = |pair: &&[&[u8]]| pair[0][2..] == pair[1][2..];
    let near = |pair: &&[&[u8]]| {
        let apart = (tick(pair[0]) / ratio).abs_diff(tick(pair[1]) / ratio);
        pair[0][2..4] != pair[1][2..4] && apart <= 1
    };
    (events.windows(2).filter(same).count(), events.windows(2).filter(near).count())
}

#[test]
fn passages_are_dense_in_ties() {
    let half = |case: &FileCase| case.passage.len() / 24;
    let accepted = |w: &Worked| matches!(w.answer.number, 0 | 31..=33) && half(&w.case) > 1;
    let same = |w: &Worked| accepted(w) && ties(&w.case).0 > 0;
    let near = |w: &Worked| accepted(w) && ties(&w.case).1 >= half(&w.case);
    let seen = counts([&same, &near]);
    assert!(seen.iter().all(|n| *n >= CASES / 10), "{seen:?}");
}

#[test]
fn a_sweep_has_cuts_garbled_bytes_and_output_lengths() {
    let cases = swept_cases(&mut Random::new(7, 0));
    let whole = &cases[0];
    for end in 0..whole.plan.len() {
        assert!(cases.iter().any(|case| case.plan == whole.plan[..end]), "plan cut at {end}");
    }
    for end in 0..whole.passage.len() {
        assert!(cases.iter().any(|case| case.passage == whole.passage[..end]), "passage cut at {end}");
    }
    let needed = worked(whole.clone()).answer.bytes as usize;
    assert!(needed > 0 && (0..=needed).all(|length| cases.iter().any(|case| case.output == length)));
}
