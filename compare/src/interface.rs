//! The values that go in and out of the library, laid out as in include/rathunxa.h.

use std::fmt;

/// A logger place and a local tick.
#[repr(C)]
#[derive(Clone, Copy, PartialEq, Eq, PartialOrd, Ord)]
pub struct Timestamp {
    pub logger: u8,
    pub tick: u64,
}

/// As the scope document writes it: 1:80 is logger 1, tick 80.
impl fmt::Debug for Timestamp {
    fn fmt(&self, f: &mut fmt::Formatter<'_>) -> fmt::Result {
        write!(f, "{}:{}", self.logger, self.tick)
    }
}

#[repr(C)]
#[derive(Debug, Clone, Copy, PartialEq, Eq)]
pub struct JoinAnswer {
    pub number: u64,
    pub place: u64,
    pub timestamps: [Timestamp; 8],
}

/// The word for two composite timestamps, with its number.
#[repr(u8)]
#[derive(Debug, Clone, Copy, PartialEq, Eq)]
pub enum Order {
    Incomparable = 0,
    Before = 1,
    After = 2,
    Concurrent = 3,
}

#[repr(C)]
#[derive(Debug, Clone, Copy, PartialEq, Eq)]
pub struct Comparison {
    pub number: u64,
    pub place: u64,
    /// The number of an `Order`. Not an `Order` itself, since the library could give a number that none has.
    pub order: u8,
    pub weakly_before: bool,
}

/// The answer for two files.
#[repr(C)]
#[derive(Debug, Clone, Copy, PartialEq, Eq)]
pub struct Answer {
    pub number: u64,
    pub place: u64,
    pub findings: u64,
    pub bytes: u64,
}
