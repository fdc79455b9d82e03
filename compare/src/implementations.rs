//! The three implementations of the same calls.

use crate::interface::{Answer, Comparison, JoinAnswer, Timestamp};
use crate::{library, reference, tuned};

#[derive(Clone, Copy)]
pub struct Implementation {
    pub name: &'static str,
    pub work: fn(&[u8], &[u8], &mut [u8]) -> Answer,
    pub join: fn(u64, &[Timestamp]) -> JoinAnswer,
    pub compare: fn(u64, &[Timestamp], &[Timestamp]) -> Comparison,
}

pub const LIBRARY: Implementation =
    Implementation { name: "library", work: library::work, join: library::join, compare: library::compare };

pub const REFERENCE: Implementation =
    Implementation { name: "reference", work: reference::work, join: reference::join, compare: reference::compare };

pub const TUNED: Implementation =
    Implementation { name: "tuned", work: tuned::work, join: tuned::join, compare: tuned::compare };

pub const ALL: [Implementation; 3] = [LIBRARY, REFERENCE, TUNED];
