//! The time of all implementations on the same inputs, in one table.

mod aims;
mod files;
mod open_calls;
mod shapes;
mod table;

pub use files::time_files;
pub use open_calls::{time_comparisons, time_joins};
pub use shapes::{worked_files, Files, Kind, EVENTS, NODES};
pub use table::{print_heading, Row};

use std::hint::black_box;
use std::time::{Duration, Instant};

const ROUNDS: usize = 20;
/// Cases are timed in groups that take about this long, so that few are interrupted.
const GROUP: Duration = Duration::from_micros(100);

/// One call for each of some cases. The output is lent anew to each.
struct Task<'a, C> {
    call: &'a dyn Fn(&C, &mut [u8]),
    cases: &'a [C],
}

/// Nanoseconds per call of each task: of each group of cases the best of the rounds, in which the tasks take turns.
fn best_times<C, const N: usize>(tasks: [Task<C>; N], output: &mut [u8]) -> [f64; N] {
    let mut timed = tasks.map(|task| Timed::new(task, output));
    for _ in 0..ROUNDS {
        timed.iter_mut().for_each(|timed| timed.round(output));
    }
    timed.map(|timed| timed.per_call())
}

struct Timed<'a, C> {
    task: Task<'a, C>,
    /// How many cases are a group, and how often each group is repeated.
    size: usize,
    repeats: usize,
    best: Vec<Duration>,
}

impl<'a, C> Timed<'a, C> {
    fn new(task: Task<'a, C>, output: &mut [u8]) -> Self {
        let count = task.cases.len();
        let all = task.time(task.cases, 1, output).max(Duration::from_nanos(1));
        let calls = (GROUP.as_nanos() as usize * count / all.as_nanos() as usize).max(1);
        let size = calls.min(count);
        let best = vec![Duration::MAX; count.div_ceil(size)];
        Timed { task, size, repeats: calls.div_ceil(size), best }
    }

    fn round(&mut self, output: &mut [u8]) {
        for (best, group) in self.best.iter_mut().zip(self.task.cases.chunks(self.size)) {
            *best = (*best).min(self.task.time(group, self.repeats, output));
        }
    }

    fn per_call(&self) -> f64 {
        let whole: Duration = self.best.iter().sum();
        whole.as_nanos() as f64 / (self.repeats * self.task.cases.len()) as f64
    }
}

impl<C> Task<'_, C> {
    fn time(&self, group: &[C], repeats: usize, output: &mut [u8]) -> Duration {
        let began = Instant::now();
        for _ in 0..repeats {
            group.iter().for_each(|case| (self.call)(black_box(case), output));
        }
        began.elapsed()
    }
}
