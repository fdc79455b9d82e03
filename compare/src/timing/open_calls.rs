//! Lists of 1, 8 and 128 entries.

use super::{aims, best_times, Row, Task};
use crate::generator::{composite, entries, Random};
use crate::implementations::{Implementation, LIBRARY, REFERENCE, TUNED};
use crate::interface::Timestamp;
use std::hint::black_box;

const RATIO: u64 = 10;
const LISTS: u64 = 64;
const COUNTS: [usize; 3] = [1, 8, 128];

type Pair = (Vec<Timestamp>, Vec<Timestamp>);

pub fn time_joins() -> Vec<Row> {
    let join = |of: &Implementation, (list, _): &Pair| {
        black_box((of.join)(RATIO, list));
    };
    let lists = |count| pairs(count, |random| entries(random, RATIO, count));
    COUNTS.map(|count| Row { aim: aims::of_join(count), ..time_lists("join", count, join, lists) }).into()
}

pub fn time_comparisons() -> Vec<Row> {
    let compare = |of: &Implementation, (first, second): &Pair| {
        black_box((of.compare)(RATIO, first, second));
    };
    let lists = |count| pairs(count, |random| composite(random, RATIO, 100));
    COUNTS.map(|count| time_lists("compare", count, compare, lists)).into()
}

fn time_lists(name: &str, count: usize, call: fn(&Implementation, &Pair), lists: impl Fn(usize) -> Vec<Pair>) -> Row {
    let (whole, half) = (lists(count), lists((count / 2).max(1)));
    let [library, reference, tuned] =
        [LIBRARY, REFERENCE, TUNED].map(|of| move |pair: &Pair, _: &mut [u8]| call(&of, pair));
    let tasks = [
        Task { call: &library, cases: &whole },
        Task { call: &reference, cases: &whole },
        Task { call: &tuned, cases: &whole },
        Task { call: &library, cases: &half },
    ];
    let [library, reference, tuned, half] = best_times(tasks, &mut []);
    let by_events = (count > 1).then(|| library / half);
    Row {
        label: format!("{name:<12} {count:>3} entries"),
        library,
        reference,
        tuned,
        aim: aims::ANY,
        by_events,
        by_nodes: None,
    }
}

/// Pairs of lists of the given length, each made by repeating what `make` gives.
fn pairs(count: usize, make: impl Fn(&mut Random) -> Vec<Timestamp>) -> Vec<Pair> {
    let list = |random: &mut Random| make(random).into_iter().cycle().take(count).collect::<Vec<Timestamp>>();
    (0..LISTS)
        .map(|i| {
            let random = &mut Random::new(1, i);
            (list(random), list(random))
        })
        .collect()
}
