//! Occurrences: what they are made of, how they stand to each other and how they are written.

use super::plans::Plan;
use super::timestamps::{latest, order, weakly_before};
use crate::interface::{Order, Timestamp};
use std::collections::BTreeSet;

#[derive(Clone)]
pub struct Occurrence {
    pub timestamps: Vec<Timestamp>,
    pub events: BTreeSet<u64>,
}

pub fn is_before(ratio: u64, a: &Occurrence, b: &Occurrence) -> bool {
    order(ratio, &a.timestamps, &b.timestamps) == Order::Before
}

pub fn is_weakly_before(ratio: u64, a: &Occurrence, b: &Occurrence) -> bool {
    weakly_before(ratio, &a.timestamps, &b.timestamps)
}

/// The join of the parts' timestamps and the union of their events.
pub fn combined(ratio: u64, parts: &[&Occurrence]) -> Occurrence {
    let union: Vec<Timestamp> = parts.iter().flat_map(|part| part.timestamps.clone()).collect();
    let events = parts.iter().flat_map(|part| part.events.clone()).collect();
    Occurrence { timestamps: latest(ratio, &union), events }
}

/// Node place; timestamps by rising logger; event numbers, rising.
pub fn detection_bytes(plan: &Plan, place: usize, occurrence: &Occurrence) -> Vec<u8> {
    let two = |value: u64| (value as u16).to_be_bytes();
    let mut bytes = two(place as u64).to_vec();
    bytes.extend(two(occurrence.timestamps.len() as u64));
    for timestamp in &occurrence.timestamps {
        bytes.extend(two(plan.loggers[timestamp.logger as usize]));
        bytes.extend(timestamp.tick.to_be_bytes());
    }
    bytes.extend(two(occurrence.events.len() as u64));
    bytes.extend(occurrence.events.iter().flat_map(|event| two(*event)));
    bytes
}
