//! Valid plans and passages, many of them at a limit.

use super::intervals::interval_files;
use crate::files::{EventEntry, NodeEntry, PlanFile, ABSENCE, ACCUMULATED, AND, APERIODIC, NODE_INPUT, OR, SEQ};
use crate::files::{CHRONICLE, CONTINUOUS, CUMULATIVE, RECENT};
use crate::generator::random::Random;
use crate::generator::MAX_TICK;

pub type Files = (PlanFile, Vec<EventEntry>);

pub fn valid_files(random: &mut Random) -> Files {
    match random.below(18) {
        0 => waiting_limit(random),
        1 => detection_limit(random),
        2 => doubling(random),
        3 => gathering(random),
        4 | 5 => nesting(random),
        6..=10 => interval_files(random),
        _ => {
            let nodes = random.pick(&[1, 2, 3, 4, 8, 16]);
            let events = random.pick(&[3, 10, 20, 40, 128]);
            let plan = any_plan(random, nodes);
            let events = any_events(random, &plan, events);
            (plan, events)
        }
    }
}

/// Strictly rising numbers, from 0 or up to 65,535 now and then.
fn rising(random: &mut Random, count: usize) -> Vec<u16> {
    let mut numbers = Vec::new();
    let mut next = random.pick(&[0, 1, 7, 65_535 - 5 * count as u64]);
    for _ in 0..count {
        numbers.push(next as u16);
        next += random.between(1, 5);
    }
    numbers
}

fn few(random: &mut Random, usual: u64, most: u64) -> usize {
    let usual = random.between(1, usual);
    let any = random.between(1, most);
    random.pick(&[usual, usual, usual, usual, any, most]) as usize
}

fn any_ratio(random: &mut Random) -> u32 {
    let any = random.between(1, 1_000_000) as u32;
    random.pick(&[1, 2, 10, 10, 10, 1000, 1_000_000, any])
}

pub fn any_plan(random: &mut Random, most_nodes: u64) -> PlanFile {
    let ratios = vec![any_ratio(random)];
    let loggers = few(random, 4, 8);
    let loggers = rising(random, loggers);
    let kinds = few(random, 3, 32);
    let kinds = rising(random, kinds);
    let chained = random.pick(&[1, 2, 6]);
    let mut plan = PlanFile { ratios, loggers, kinds, nodes: Vec::new() };
    for place in 0..random.between(most_nodes.div_ceil(2), most_nodes) as u16 {
        let node = any_node(random, place, plan.kinds.len() as u64, chained);
        plan.nodes.push(node);
    }
    plan
}

/// A node; where `chained` is small, its inputs are often earlier nodes, mostly the one before.
fn any_node(random: &mut Random, place: u16, kinds: u64, chained: u64) -> NodeEntry {
    let mut input = || {
        let kind = random.below(kinds) as u16;
        if place == 0 || !random.one_in(chained + 1) {
            return kind;
        }
        let any = random.below(u64::from(place)) as u16;
        NODE_INPUT + random.pick(&[place - 1, place - 1, any])
    };
    let mut inputs = [input(), input(), input()];
    if random.one_in(8) {
        inputs[random.between(1, 2) as usize] = inputs[random.below(2) as usize];
    }
    let operator = random.pick(&[OR, OR, AND, AND, SEQ, SEQ, SEQ, APERIODIC, ACCUMULATED, ABSENCE]);
    NodeEntry::of_three(operator, random.between(1, 4) as u8, inputs)
}

/// Events whose global ticks advance slowly, arriving somewhat out of order, with many ties.
pub fn any_events(random: &mut Random, plan: &PlanFile, most: u64) -> Vec<EventEntry> {
    let ratio = u64::from(plan.ratios[0]);
    let last = MAX_TICK / ratio;
    let count = random.between(most / 2, most);
    let kinds = random.pick(&[2, 3, 32]);
    let (pace, spread) = (random.pick(&[0, 1, 2]), random.pick(&[1, 2, 4, 12]));
    let anywhere = random.below(last + 1);
    let low = random.pick(&[0, 5, last.saturating_sub(count * pace), last, anywhere]);
    let mut events = Vec::new();
    for i in 0..count {
        let kind = random.pick(&plan.kinds[..kinds.min(plan.kinds.len())]);
        let logger = random.pick(&plan.loggers);
        let global = low.saturating_add(i * pace + random.below(spread)).min(last);
        let inside = random.below(ratio);
        let offset = random.pick(&[0, ratio - 1, inside]);
        events.push(EventEntry { kind, logger, tick: (global * ratio + offset).min(MAX_TICK) });
    }
    events
}

/// One node on kinds 7, 9 and, where it has a third input, 11, and two loggers.
pub fn small_plan(random: &mut Random, operators: &[u8]) -> PlanFile {
    let node = NodeEntry::of_three(random.pick(operators), random.between(1, 4) as u8, [0, 1, 2]);
    PlanFile { ratios: vec![10], loggers: vec![1, 2], kinds: vec![7, 9, 11], nodes: vec![node] }
}

/// Some reports of a kind by two loggers. Their ticks are below `spread` from the first on.
pub fn burst(random: &mut Random, kind: u16, count: u64, (first, spread): (u64, u64)) -> Vec<EventEntry> {
    let event = |_| EventEntry { kind, logger: random.pick(&[1, 1, 2]), tick: first + random.below(spread) };
    (0..count).map(event).collect()
}

/// Lists filled to 15, 16 or 17, emptied in part, and filled again.
fn waiting_limit(random: &mut Random) -> Files {
    let plan = small_plan(random, &[AND, SEQ, APERIODIC]);
    let mut events = Vec::new();
    let spread = random.pick(&[1, 30]);
    for round in 0..random.between(1, 4) {
        let lefts = if round == 0 { random.between(14, 17) } else { random.between(1, 17) };
        events.extend(burst(random, 7, lefts, (round * 100, spread)));
        let middles = random.below(3);
        events.extend(burst(random, 9, middles, (round * 100, 60)));
    }
    (plan, events)
}

/// Around eight that wait, mostly taken all at once.
fn detection_limit(random: &mut Random) -> Files {
    let mut plan = small_plan(random, &[AND, SEQ, APERIODIC]);
    plan.nodes[0].context = random.pick(&[RECENT, CHRONICLE, CONTINUOUS, CONTINUOUS, CUMULATIVE]);
    if random.one_in(2) {
        plan.nodes.push(NodeEntry::new(OR, RECENT, &[NODE_INPUT, random.pick(&[1, NODE_INPUT])]));
    }
    let lefts = random.between(4, 10);
    let spread = random.pick(&[1, 10, 20]);
    let mut events = burst(random, 7, lefts, (80, spread));
    for _ in 0..random.between(1, 3) {
        events.push(EventEntry { kind: 9, logger: 2, tick: random.pick(&[85, 110, 120]) });
    }
    (plan, events)
}

/// OR nodes that pass on what the one before made, twice.
fn doubling(random: &mut Random) -> Files {
    let mut plan = small_plan(random, &[AND, SEQ, OR]);
    for place in 0..random.between(1, 15) as u16 {
        let before = NODE_INPUT + place;
        let (middle, third) = (random.pick(&[0, 1, before]), random.pick(&[0, 2, before]));
        let operator = random.pick(&[OR, OR, OR, AND, SEQ, APERIODIC, ACCUMULATED, ABSENCE]);
        plan.nodes.push(NodeEntry::of_three(operator, random.between(1, 4) as u8, [before, middle, third]));
    }
    let events = any_events(random, &plan, 30);
    (plan, events)
}

/// Cumulative nodes that gather up to all 128 events, of up to all loggers, in one detection.
fn gathering(random: &mut Random) -> Files {
    let cumulative = |left, middle| NodeEntry::new(AND, CUMULATIVE, &[left, middle]);
    let nodes = vec![cumulative(0, 1), cumulative(NODE_INPUT, 2), cumulative(NODE_INPUT + 1, NODE_INPUT)];
    let plan = PlanFile { ratios: vec![10], loggers: (1..9).collect(), kinds: vec![7, 9, 11], nodes };
    let loggers = few(random, 8, 8) as u64;
    let (pace, spread) = (random.pick(&[0, 0, 3]), random.pick(&[1, 11, 20]));
    let mut kinds = Vec::new();
    for _ in 0..random.between(1, 15) {
        kinds.resize(kinds.len() + random.between(1, 16) as usize, 7);
        kinds.push(9);
    }
    kinds.truncate(126);
    kinds.extend([9, 11]);
    let mut events = Vec::new();
    for (i, kind) in (0..).zip(kinds) {
        let logger = 1 + random.below(loggers) as u16;
        events.push(EventEntry { kind, logger, tick: 80 + i * pace + random.below(spread) });
    }
    (plan, events)
}

/// Sixteen nodes, each fed by the one before, and events that come through to the last now and then.
fn nesting(random: &mut Random) -> Files {
    let mut nodes = Vec::new();
    for place in 0..16 {
        let context = random.pick(&[RECENT, CHRONICLE, CONTINUOUS, CUMULATIVE, CUMULATIVE]);
        let left = if place == 0 { 0 } else { NODE_INPUT + place - 1 };
        let middle = if place > 1 && random.one_in(6) { left - 1 } else { random.pick(&[0, 1]) };
        let operator = random.pick(&[OR, AND, SEQ, SEQ, SEQ, SEQ, APERIODIC, ACCUMULATED]);
        nodes.push(NodeEntry::of_three(operator, context, [left, middle, random.pick(&[0, 1])]));
    }
    let plan = PlanFile { ratios: vec![10], loggers: (1..9).collect(), kinds: vec![7, 9], nodes };
    let pace = random.pick(&[5, 20, 30]);
    let event = |i: u64| EventEntry {
        kind: random.pick(&[7, 9]),
        logger: random.pick(&[1, 2, 5, 8]),
        tick: 80 + i * pace + random.below(15),
    };
    let events = (0..128).map(event).collect();
    (plan, events)
}
