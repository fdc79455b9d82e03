//! What makes files be turned back.

use crate::files::{EventEntry, FileCase, NodeEntry, PlanFile, NODE_INPUT, NO_INPUT, OR, RECENT, SEQ};
use crate::generator::random::Random;

pub fn spoil_plan(random: &mut Random, plan: &mut PlanFile) {
    match random.below(7) {
        0 => plan.ratios = random.pick(&[&[][..], &[10, 10], &[0], &[1_000_001], &[u32::MAX]]).to_vec(),
        1 => spoil_numbers(random, &mut plan.loggers, 9),
        2 => spoil_numbers(random, &mut plan.kinds, 33),
        3 => {
            let count = random.pick(&[0, 17, 40]);
            plan.nodes.resize(count, NodeEntry::new(OR, RECENT, &[0, 0]));
        }
        _ => spoil_node(random, plan),
    }
}

/// Too many, none, or two that do not rise.
fn spoil_numbers(random: &mut Random, numbers: &mut Vec<u16>, past: usize) {
    match random.below(4) {
        0 => numbers.clear(),
        1 => *numbers = (1..=past as u16).collect(),
        _ if numbers.len() > 1 => {
            let i = random.between(1, numbers.len() as u64 - 1) as usize;
            numbers[i] = numbers[i - 1] - random.below(2).min(u64::from(numbers[i - 1])) as u16;
        }
        _ => numbers.extend(numbers.clone()),
    }
}

fn spoil_node(random: &mut Random, plan: &mut PlanFile) {
    if plan.nodes.is_empty() {
        return;
    }
    let place = random.below(plan.nodes.len() as u64) as usize;
    let itself = NODE_INPUT + place as u16;
    let input = random.pick(&[plan.kinds.len() as u16, NODE_INPUT - 1, itself, itself + 1, NO_INPUT]);
    let node = &mut plan.nodes[place];
    match random.below(6) {
        0 => node.operator = random.pick(&[0, 7, 255]),
        1 => node.context = random.pick(&[0, 5, 255]),
        2 => node.left = input,
        3 => node.middle = input,
        4 if node.operator <= SEQ => node.third = random.pick(&[0, input, itself - 1, NO_INPUT - 1]),
        4 => node.third = input,
        // As many inputs as before, and an operator of more or fewer.
        _ => node.operator = node.operator.wrapping_add(2) % 6 + 1,
    }
}

pub fn spoil_events(random: &mut Random, events: &mut Vec<EventEntry>) {
    if events.is_empty() || random.one_in(4) {
        let count = random.pick(&[0, 128, 129, 300]);
        let event = EventEntry { kind: 7, logger: 1, tick: 80 };
        let event = *events.first().unwrap_or(&event);
        events.resize(count, event);
        return;
    }
    let i = random.below(events.len() as u64) as usize;
    let large = random.number() | 1 << 63;
    match random.below(3) {
        0 => events[i].kind = random.pick(&[6, 8, 10, 40_000]),
        1 => events[i].logger = random.pick(&[3, 9, 50, 40_000]),
        _ => events[i].tick = random.pick(&[1 << 63, u64::MAX, large]),
    }
}

/// Cuts a file, garbles one of its bytes, or leaves bytes over.
pub fn spoil_bytes(random: &mut Random, case: &mut FileCase) {
    let file = if random.one_in(2) { &mut case.plan } else { &mut case.passage };
    let at = random.below(file.len() as u64) as usize;
    match random.below(3) {
        0 => file.truncate(at),
        1 => file[at] = random.number() as u8,
        _ => {
            for _ in 0..random.between(1, 14) {
                file.push(random.number() as u8);
            }
        }
    }
}
