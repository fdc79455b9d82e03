//! Every short passage under a set of plans: the library and the second implementation agree on each, and no two
//! findings with the same set of timestamps differ in their latest ones, in whatever order their events arrived. And
//! every comparison of short lists, and every node entry.

mod comparisons;
mod entries;
mod joins;
mod passages;
mod plans;
#[cfg(test)]
mod tests;

use crate::comparison::{agreed_work, print_totals};
use crate::files::{passage_bytes, EventEntry, FileCase, PlanFile};
use crate::reference::detections;
use comparisons::compare_all;
use joins::Joins;
use passages::{how_many, Range, MOST_EVENTS, THREE_KINDS, TWO_KINDS};
use plans::{interval_plans, pair_plans};
use std::collections::BTreeMap;
use std::sync::atomic::{AtomicBool, Ordering};
use std::thread;

const THREADS: u64 = 2;
/// Passages of up to so many events are all worked, whatever the share.
const WHOLE: u32 = 2;
/// More than the findings of four events take.
const OUTPUT: usize = 4096;
/// What the output holds before each call.
const PATTERN: u64 = 0xa5c3_96f0_1e87_d24b;

/// How often each number was answered.
type Numbers = BTreeMap<u64, u64>;

/// Passages, and the plans that they are worked under.
struct Family {
    range: Range,
    plans: fn() -> Vec<PlanFile>,
}

const FAMILIES: [Family; 2] =
    [Family { range: TWO_KINDS, plans: pair_plans }, Family { range: THREE_KINDS, plans: interval_plans }];

/// What one thread works and has found. The cases have the plans; the passage is put in.
struct Worker {
    cases: Vec<FileCase>,
    passages: u64,
    numbers: Numbers,
    joins: Joins,
}

/// Makes all comparisons, works all node entries, and one passage in `share`, and of the shortest all.
pub fn run(share: u64) -> Result<(), String> {
    let compared = compare_all()?;
    println!("exhaustive: {} comparisons", compared.values().sum::<u64>());
    print_totals(&compared);
    let entries = entries::work_all()?;
    println!("exhaustive: {} node entries", entries.values().sum::<u64>());
    print_numbers(&entries);
    let mut joins = Joins::default();
    for family in &FAMILIES {
        let worked = work_family(family, share)?;
        worked.print(share);
        joins.add(&worked.joins)?;
    }
    println!(
        "no difference; {} findings over {} sets of timestamps, each set with one join",
        joins.findings,
        joins.sets()
    );
    Ok(())
}

/// The passages of a family, by all threads.
fn work_family(family: &Family, share: u64) -> Result<Worker, String> {
    let stopped = &AtomicBool::new(false);
    let ended: Vec<Result<Worker, String>> = thread::scope(|scope| {
        let part = |thread| move || work_part(family, share, thread, stopped);
        let started: Vec<_> = (0..THREADS).map(|thread| scope.spawn(part(thread))).collect();
        started.into_iter().map(|worker| worker.join().expect("no panic")).collect()
    });
    let mut all = Worker::new(family);
    for worker in ended {
        all.add(&worker?)?;
    }
    Ok(all)
}

/// One thread's part of the passages, up to the first fault of any thread.
fn work_part(family: &Family, share: u64, thread: u64, stopped: &AtomicBool) -> Result<Worker, String> {
    let mut worker = Worker::new(family);
    for events in 0..=MOST_EVENTS {
        let share = if events <= WHOLE { 1 } else { share };
        for number in (thread..how_many(events).div_ceil(share)).step_by(THREADS as usize) {
            if stopped.load(Ordering::Relaxed) {
                return Ok(worker);
            }
            let worked = worker.work(&family.range.scattered(events, number));
            worked.inspect_err(|_| stopped.store(true, Ordering::Relaxed))?;
        }
    }
    Ok(worker)
}

fn print_numbers(numbers: &Numbers) {
    for (number, count) in numbers {
        println!("  number {number:>2}: {count}");
    }
}

impl Worker {
    fn new(family: &Family) -> Worker {
        let case = |plan: &PlanFile| FileCase { plan: plan.bytes(), passage: Vec::new(), output: OUTPUT };
        let cases = (family.plans)().iter().map(case).collect();
        Worker { cases, passages: 0, numbers: Numbers::new(), joins: Joins::default() }
    }

    /// Works a passage under every plan.
    fn work(&mut self, events: &[EventEntry]) -> Result<(), String> {
        let passage = passage_bytes(events);
        self.passages += 1;
        for case in &mut self.cases {
            case.passage.clone_from(&passage);
            let (answer, memory) = agreed_work(case, PATTERN).map_err(|what| format!("DIFFERENCE\n{what}"))?;
            *self.numbers.entry(answer.number).or_default() += 1;
            for finding in detections(&memory[..answer.bytes as usize]) {
                self.joins.note(events, &finding).map_err(|what| format!("{case:?}\n{what}"))?;
            }
        }
        Ok(())
    }

    fn add(&mut self, other: &Worker) -> Result<(), String> {
        self.passages += other.passages;
        for (number, count) in &other.numbers {
            *self.numbers.entry(*number).or_default() += count;
        }
        self.joins.add(&other.joins)
    }

    fn print(&self, share: u64) {
        let (passages, plans, pairs) = (self.passages, self.cases.len(), self.numbers.values().sum::<u64>());
        println!("exhaustive: {passages} passages of up to {MOST_EVENTS} events under {plans} plans: {pairs} pairs");
        println!("  share: one in {share}, and all of up to {WHOLE} events");
        print_numbers(&self.numbers);
    }
}
