//! The second implementation, written from the scope document and its change requests alone, in the most obvious form.

mod contexts;
mod listing;
mod occurrences;
mod open_calls;
mod passages;
mod plans;
mod reader;
mod refusal;
mod run;
mod timestamps;
mod work;

pub use listing::{detections, listing, Detection};
pub use open_calls::{compare, join};
pub use timestamps::latest;
pub use work::work;
