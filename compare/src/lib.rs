//! Two further implementations of the library in plain Rust, to hold against the proved one: `reference`, the most
//! obvious form, and `tuned`, written for speed.

pub mod comparison;
pub mod examples;
pub mod exhaustive;
pub mod files;
pub mod generator;
pub mod implementations;
pub mod interface;
pub mod library;
pub mod options;
pub mod reference;
#[cfg(test)]
mod tests;
pub mod timing;
pub mod tuned;
