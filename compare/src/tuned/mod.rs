//! The third implementation: what one writes by hand for speed, to measure the library by. Nothing is allocated, all
//! is worked in place, sets are bits, and a node that an event does not reach costs nothing.

mod bits;
mod composites;
mod events;
mod fixed;
mod occurrences;
mod open_calls;
mod output;
mod plans;
mod reader;
mod run;
mod work;

pub use open_calls::{compare, join};
pub use work::work;
