//! Runs the library and the two other implementations on the same cases and ends at the first difference.

use rathunxa_compare::comparison::run_all;
use rathunxa_compare::examples::write_examples;
use rathunxa_compare::options;
use std::path::Path;
use std::process::ExitCode;

const USAGE: &str = "usage: compare [--cases N] [--files N] [--seed S]\n       compare --write-examples FOLDER";

fn main() -> ExitCode {
    let arguments: Vec<String> = std::env::args().skip(1).collect();
    if let [option, folder] = &arguments[..] {
        if option == "--write-examples" {
            return ended(write_examples(Path::new(folder)).map_err(|error| error.to_string()));
        }
    }
    match options::numbers(&arguments, &[("--cases", 200_000), ("--files", 100_000), ("--seed", 1)]) {
        Ok(values) => ended(run_all(values[0], values[1], values[2])),
        Err(reason) => {
            eprintln!("compare: {reason}\n{USAGE}");
            ExitCode::from(2)
        }
    }
}

fn ended(result: Result<(), String>) -> ExitCode {
    match result {
        Ok(()) => ExitCode::SUCCESS,
        Err(reason) => {
            println!("{reason}");
            ExitCode::FAILURE
        }
    }
}
