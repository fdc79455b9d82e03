//! The order of timestamps and of composite timestamps, and the join.

use crate::interface::{Order, Timestamp};

/// The local tick divided by the ratio, rounded down.
fn global_tick(ratio: u64, s: &Timestamp) -> u64 {
    s.tick / ratio
}

pub fn before(ratio: u64, s: &Timestamp, t: &Timestamp) -> bool {
    if s.logger == t.logger {
        s.tick < t.tick
    } else {
        global_tick(ratio, s) + 1 < global_tick(ratio, t)
    }
}

pub fn concurrent(ratio: u64, s: &Timestamp, t: &Timestamp) -> bool {
    !before(ratio, s, t) && !before(ratio, t, s)
}

/// The word for two composite timestamps.
pub fn order(ratio: u64, a: &[Timestamp], b: &[Timestamp]) -> Order {
    if composite_before(ratio, a, b) {
        Order::Before
    } else if composite_before(ratio, b, a) {
        Order::After
    } else if composite_concurrent(ratio, a, b) {
        Order::Concurrent
    } else {
        Order::Incomparable
    }
}

/// Each timestamp of b has some timestamp of a before it.
fn composite_before(ratio: u64, a: &[Timestamp], b: &[Timestamp]) -> bool {
    b.iter().all(|t| a.iter().any(|s| before(ratio, s, t)))
}

/// All pairs are concurrent.
fn composite_concurrent(ratio: u64, a: &[Timestamp], b: &[Timestamp]) -> bool {
    a.iter().all(|s| b.iter().all(|t| concurrent(ratio, s, t)))
}

/// No timestamp of b is before a timestamp of a.
pub fn weakly_before(ratio: u64, a: &[Timestamp], b: &[Timestamp]) -> bool {
    !b.iter().any(|t| a.iter().any(|s| before(ratio, t, s)))
}

/// The join of a union of collections: those in it that are before no other in it.
pub fn latest(ratio: u64, union: &[Timestamp]) -> Vec<Timestamp> {
    let mut kept: Vec<Timestamp> =
        union.iter().filter(|s| !union.iter().any(|t| before(ratio, s, t))).copied().collect();
    kept.sort();
    kept.dedup();
    kept
}
