//! What every implementation must answer: each call here is one of all of them, which must agree.

mod files;
mod intervals;
mod open_calls;
