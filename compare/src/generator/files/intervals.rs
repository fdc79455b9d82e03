//! Valid files for the operators with a third input. Kinds 7, 9 and 11 are left, middle and third.

use super::valid::{burst, small_plan, Files};
use crate::files::{EventEntry, NodeEntry, PlanFile, ABSENCE, ACCUMULATED, AND, APERIODIC, NODE_INPUT, OR};
use crate::files::{CHRONICLE, CONTINUOUS, CUMULATIVE, RECENT};
use crate::generator::random::Random;

const INTERVALS: [u8; 3] = [APERIODIC, ACCUMULATED, ABSENCE];

pub fn interval_files(random: &mut Random) -> Files {
    match random.below(10) {
        0 | 1 => waiting_limit(random),
        2 | 3 => detection_limit(random),
        4 => gathering(random),
        5 | 6 => pairs(random),
        _ => crossing(random),
    }
}

/// One of the two lists filled to 14, 15, 16 or 17, emptied in part by thirds, and filled again.
fn waiting_limit(random: &mut Random) -> Files {
    let plan = small_plan(random, &INTERVALS);
    let (filled, other) = random.pick(&[(7, 9), (9, 7)]);
    let spread = random.pick(&[1, 30]);
    let mut events = Vec::new();
    for round in 0..random.pick(&[1, 1, 2, 3]) {
        let count = if round == 0 { random.between(14, 17) } else { random.between(1, 17) };
        let from = round * 100;
        events.extend(burst(random, filled, count, (from, spread)));
        let (others, thirds) = (random.below(3), random.below(3));
        events.extend(burst(random, other, others, (from, spread)));
        events.extend(burst(random, 11, thirds, (from, 60)));
    }
    (plan, events)
}

/// Around eight lefts, mostly taken all at once by a third, with middles that block none, some or all of them.
fn detection_limit(random: &mut Random) -> Files {
    let mut plan = small_plan(random, &[ACCUMULATED, ABSENCE]);
    plan.nodes[0].context = random.pick(&[RECENT, CHRONICLE, CONTINUOUS, CONTINUOUS, CONTINUOUS, CUMULATIVE]);
    if random.one_in(2) {
        plan.nodes.push(NodeEntry::new(OR, RECENT, &[NODE_INPUT, random.pick(&[2, NODE_INPUT])]));
    }
    let (lefts, middles) = (random.pick(&[4, 6, 7, 8, 8, 8, 9, 9, 10]), random.pick(&[0, 0, 1, 2]));
    let thirds = random.between(1, 3);
    let (spread, middle) = (random.pick(&[1, 10, 20]), random.pick(&[50, 70, 100, 135]));
    let mut events = burst(random, 7, lefts, (80, spread));
    events.extend(burst(random, 9, middles, (middle, 20)));
    events.extend(burst(random, 11, thirds, (110, 20)));
    (plan, events)
}

/// Lefts, middles and thirds near each other, so that many are concurrent. Node 0 makes pairs with kind 13; each
/// further node takes what the one before makes now and then.
fn crossing(random: &mut Random) -> Files {
    let mut nodes = vec![pairing(random, 2)];
    for before in 0..random.between(1, 3) as u16 {
        let mut inputs = [0, 1, 2];
        if random.one_in(2) {
            inputs[random.below(3) as usize] = NODE_INPUT + before;
        }
        nodes.push(interval_node(random, inputs));
    }
    let (few, many) = (&[7, 7, 7, 7, 7, 9, 11, 11, 11, 13][..], &[7, 7, 7, 9, 9, 9, 11, 13][..]);
    near_files(random, nodes, &[few, few, many, &[7, 9, 11, 13]])
}

/// Lefts and middles that are pairs, and so often incomparable to what they meet.
fn pairs(random: &mut Random) -> Files {
    let mut nodes = vec![pairing(random, 0), pairing(random, 1)];
    let inputs = [NODE_INPUT, random.pick(&[1, NODE_INPUT + 1]), 2];
    nodes.push(interval_node(random, inputs));
    let inputs = [random.pick(&[0, NODE_INPUT]), NODE_INPUT + 1, random.pick(&[2, 2, NODE_INPUT + 2])];
    nodes.push(interval_node(random, inputs));
    near_files(random, nodes, &[&[7, 9, 11, 13, 13], &[7, 7, 7, 9, 11, 11, 13, 13, 13]])
}

/// A node that puts kind 13 together with one of the kinds up to a place.
fn pairing(random: &mut Random, most: u64) -> NodeEntry {
    let context = random.pick(&[RECENT, CHRONICLE, CONTINUOUS]);
    NodeEntry::new(AND, context, &[random.below(most + 1) as u16, 3])
}

fn interval_node(random: &mut Random, inputs: [u16; 3]) -> NodeEntry {
    let operator = random.pick(&[APERIODIC, ACCUMULATED, ABSENCE, ABSENCE]);
    NodeEntry::new(operator, random.between(1, 4) as u8, &inputs)
}

/// Events of kinds from one of the lists, with many ties.
fn near_files(random: &mut Random, nodes: Vec<NodeEntry>, kinds: &[&[u16]]) -> Files {
    let plan = PlanFile { ratios: vec![10], loggers: vec![1, 2, 3, 4], kinds: vec![7, 9, 11, 13], nodes };
    let (kinds, loggers, count) = (random.pick(kinds), random.between(1, 4), random.between(10, 60));
    let (pace, spread) = (random.pick(&[1, 4, 10]), random.pick(&[10, 25, 40]));
    let event = |i: u64| EventEntry {
        kind: random.pick(kinds),
        logger: 1 + random.below(loggers) as u16,
        tick: 80 + i * pace + random.below(spread),
    };
    let events = (0..count).map(event).collect();
    (plan, events)
}

/// Findings with up to 16 middles and nearly all 128 events: node 0 gathers kinds 7 and 9, node 1 what it gathered
/// between kinds 11 and 13.
fn gathering(random: &mut Random) -> Files {
    let gathered = NodeEntry::new(AND, CUMULATIVE, &[0, 1]);
    let between = NodeEntry::new(ACCUMULATED, random.between(1, 4) as u8, &[2, NODE_INPUT, 3]);
    let nodes = vec![gathered, between];
    let plan = PlanFile { ratios: vec![10], loggers: vec![1, 2], kinds: vec![7, 9, 11, 13], nodes };
    let (lefts, pace) = (random.between(1, 3), random.pick(&[0, 3, 12]));
    let mut events = burst(random, 11, lefts, (10, 60));
    for round in 0..random.between(1, 17) {
        let count = random.between(1, 12);
        events.extend(burst(random, 7, count, (80 + round * pace, 20)));
        events.extend(burst(random, 9, 1, (80 + round * pace, 20)));
    }
    events.truncate(126);
    let thirds = random.between(1, 2);
    events.extend(burst(random, 13, thirds, (80 + 17 * pace, 60)));
    (plan, events)
}
