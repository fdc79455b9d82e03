//! The most that the library may take, in times of tuned.

use super::Kind;

/// Typical files of eight events and more, whatever their operators.
const TYPICAL: f64 = 1.05;
/// A passage of one event.
const ONE_EVENT: f64 = 1.7;
/// The join of a list of 128.
const LONGEST_JOIN: f64 = 2.0;
/// All else.
pub const ANY: f64 = 1.5;

pub fn of_files(kind: Kind, events: usize) -> f64 {
    match (kind, events) {
        (_, 1) => ONE_EVENT,
        (Kind::Sparse | Kind::Every, _) => ANY,
        _ => TYPICAL,
    }
}

pub fn of_join(count: usize) -> f64 {
    if count == 128 {
        LONGEST_JOIN
    } else {
        ANY
    }
}
