//! Seeded cases. The same seed and case number always give the same case.

mod files;
mod open_calls;
mod random;
#[cfg(test)]
mod tests;
#[cfg(test)]
mod tests_of_files;
#[cfg(test)]
mod tests_of_intervals;

pub use files::{file_case, swept_cases};
pub use open_calls::{compare_case, composite, entries, join_case, CompareCase, JoinCase};
pub use random::Random;

/// The largest local tick.
const MAX_TICK: u64 = (1 << 63) - 1;
