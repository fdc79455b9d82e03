//! Every passage of up to four events: the library against the second implementation, and the joins of all findings.
//! Before that, every comparison of short lists.

use rathunxa_compare::{exhaustive, options};
use std::process::ExitCode;

const USAGE: &str = "usage: exhaustive [--share K]    one passage in K, and all the shortest";

fn main() -> ExitCode {
    let arguments: Vec<String> = std::env::args().skip(1).collect();
    let share = match options::numbers(&arguments, &[("--share", 1)]) {
        Ok(values) => values[0].max(1),
        Err(reason) => {
            eprintln!("exhaustive: {reason}\n{USAGE}");
            return ExitCode::from(2);
        }
    };
    match exhaustive::run(share) {
        Ok(()) => ExitCode::SUCCESS,
        Err(reason) => {
            println!("exhaustive: {reason}");
            ExitCode::FAILURE
        }
    }
}
