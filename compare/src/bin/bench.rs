//! Times the library and the two other implementations on the same inputs and prints one table.
//! Ends with 1 where the library's join of 128 entries takes more than MOST_JOIN times that of the reference and, with
//! `--strict`, where a row is over its aim (timing/aims.rs).

use rathunxa_compare::timing::{print_heading, time_comparisons, time_files, time_joins, Kind, Row};
use std::process::ExitCode;

const MOST_JOIN: f64 = 2.0;

fn main() -> ExitCode {
    let arguments: Vec<String> = std::env::args().skip(1).collect();
    let is_strict = match &arguments[..] {
        [] => false,
        [flag] if flag == "--strict" => true,
        _ => {
            eprintln!("usage: bench [--strict]");
            return ExitCode::from(2);
        }
    };
    print_heading();
    let joins = time_joins();
    let longest_join = joins.last().map_or(f64::MAX, Row::of_reference);
    let mut over = shown(&joins) + shown(&time_comparisons());
    for kind in Kind::ALL {
        over += shown(&time_files(kind));
    }
    println!("* over its aim: {over} rows");
    let is_join_well = longest_join <= MOST_JOIN;
    let said = if is_join_well { "yes" } else { "NO" };
    println!("join of 128 entries in at most {MOST_JOIN} times the reference's time: {said}");
    ExitCode::from(u8::from(!is_join_well || is_strict && over > 0))
}

/// Prints rows and says how many are over their aim.
fn shown(rows: &[Row]) -> usize {
    rows.iter().for_each(Row::print);
    rows.iter().filter(|row| row.is_over()).count()
}
