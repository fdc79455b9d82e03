//! Cases for the two open calls.

use super::random::Random;
use super::MAX_TICK;
use crate::interface::Timestamp;
use std::mem::swap;

const MAX_RATIO: u64 = 1_000_000;

#[derive(Debug)]
pub struct JoinCase {
    pub ratio: u64,
    pub list: Vec<Timestamp>,
}

#[derive(Debug)]
pub struct CompareCase {
    pub ratio: u64,
    pub first: Vec<Timestamp>,
    pub second: Vec<Timestamp>,
}

pub fn join_case(random: &mut Random) -> JoinCase {
    let ratio = valid_ratio(random);
    let count = list_count(random);
    let mut list = entries(random, ratio, count);
    if random.one_in(8) {
        spoil_entries(random, &mut list);
    }
    JoinCase { ratio: spoilt_ratio(random, ratio), list }
}

pub fn compare_case(random: &mut Random) -> CompareCase {
    let ratio = valid_ratio(random);
    let low = base_global_tick(random, ratio);
    let first_ticks = composite(random, ratio, low);
    let second_ticks = second_composite(random, ratio, low, &first_ticks);
    let mut first = repeated(random, &first_ticks);
    let mut second = repeated(random, &second_ticks);
    if random.one_in(2) {
        swap(&mut first, &mut second);
    }
    for list in [&mut first, &mut second] {
        if random.one_in(12) {
            move_one(random, ratio, list);
        }
        if random.one_in(24) {
            spoil_entries(random, list);
        }
    }
    CompareCase { ratio: spoilt_ratio(random, ratio), first, second }
}

fn valid_ratio(random: &mut Random) -> u64 {
    let any = random.between(1, MAX_RATIO);
    random.pick(&[1, 2, 3, 10, 10, 10, 1000, MAX_RATIO - 1, MAX_RATIO, any])
}

/// Now and then a ratio that is turned back in place of a valid one.
fn spoilt_ratio(random: &mut Random, ratio: u64) -> u64 {
    if !random.one_in(24) {
        return ratio;
    }
    let large = random.number() | 1 << 32;
    random.pick(&[0, MAX_RATIO + 1, 1 << 32, (1 << 32) + 1, u64::MAX, large])
}

/// Mostly short lists, some at the limit of 128, few past it or empty.
fn list_count(random: &mut Random) -> usize {
    let count = match random.below(64) {
        0 | 1 => 0,
        2 | 3 => 129,
        4 => random.between(130, 5000),
        5 | 6 => 128,
        7 => 127,
        8..=15 => random.between(9, 126),
        _ => random.between(1, 8),
    };
    count as usize
}

/// The global tick around which a case lies: at either end of the range, or anywhere.
fn base_global_tick(random: &mut Random, ratio: u64) -> u64 {
    let last = MAX_TICK / ratio;
    let offset = random.below(6);
    let anywhere = random.below(last);
    random.pick(&[0, offset, 7, 8, last - offset, last, anywhere])
}

/// A local tick of a global tick: its first, its last, one of the middle.
fn tick_in(random: &mut Random, ratio: u64, global: u64) -> u64 {
    let first = global.min(MAX_TICK / ratio) * ratio;
    let inside = random.below(ratio);
    let offset = random.pick(&[0, ratio - 1, inside]);
    (first + offset).min(MAX_TICK)
}

/// Valid entries near each other, or anywhere in the range, some of them repeated.
pub fn entries(random: &mut Random, ratio: u64, count: usize) -> Vec<Timestamp> {
    let low = base_global_tick(random, ratio);
    let spread = random.pick(&[1, 2, 3, 4, 8, 100]);
    let loggers = random.between(1, 8);
    let anywhere = random.one_in(16);
    let mut list: Vec<Timestamp> = Vec::new();
    for _ in 0..count {
        let logger = random.below(loggers) as u8;
        let global = low.saturating_add(random.below(spread));
        let near = tick_in(random, ratio, global);
        let tick = if anywhere { random.below(MAX_TICK + 1) } else { near };
        let new = Timestamp { logger, tick };
        let repeat = !list.is_empty() && random.one_in(5);
        let entry = if repeat { random.pick(&list) } else { new };
        list.push(entry);
    }
    list
}

/// A composite timestamp: some of the loggers, each with one tick of two adjacent global ticks.
pub fn composite(random: &mut Random, ratio: u64, low: u64) -> Vec<Timestamp> {
    let loggers = random.between(1, 255);
    let only_low = random.one_in(3);
    let mut set = Vec::new();
    for logger in 0..8u8 {
        let global = low + if only_low { 0 } else { random.below(2) };
        let tick = tick_in(random, ratio, global);
        if loggers >> logger & 1 == 1 {
            set.push(Timestamp { logger, tick });
        }
    }
    set
}

/// A composite timestamp a little earlier or later than the first, often with ticks of the first.
fn second_composite(random: &mut Random, ratio: u64, low: u64, first: &[Timestamp]) -> Vec<Timestamp> {
    let later = low.saturating_add(random.below(5));
    let earlier = low.saturating_sub(random.below(4));
    let global = random.pick(&[low, low, later, later, earlier]);
    let mut second = composite(random, ratio, global.min(MAX_TICK / ratio));
    match random.below(3) {
        0 => second.iter_mut().for_each(|t| take_tick_of(t, first)),
        1 if second.len() > 1 => second.truncate(1),
        _ => {}
    }
    second
}

fn take_tick_of(timestamp: &mut Timestamp, from: &[Timestamp]) {
    if let Some(same) = from.iter().find(|s| s.logger == timestamp.logger) {
        timestamp.tick = same.tick;
    }
}

/// A list with the timestamps of a set in any order, some of them several times.
fn repeated(random: &mut Random, set: &[Timestamp]) -> Vec<Timestamp> {
    let mut list = set.to_vec();
    for i in (1..list.len()).rev() {
        list.swap(i, random.below(i as u64 + 1) as usize);
    }
    if random.one_in(3) {
        let count = list_count(random);
        list.truncate(count);
        list.extend((list.len()..count).map(|_| random.pick(set)));
    }
    list
}

/// Moves one entry's tick, so that the list may no longer be pairwise concurrent.
fn move_one(random: &mut Random, ratio: u64, list: &mut [Timestamp]) {
    if list.is_empty() {
        return;
    }
    let i = random.below(list.len() as u64) as usize;
    let step = random.pick(&[1, ratio, 2 * ratio, 3 * ratio]);
    let tick = list[i].tick;
    let moved = if random.one_in(2) { tick.saturating_add(step) } else { tick.saturating_sub(step) };
    list[i].tick = moved.min(MAX_TICK);
}

/// Gives one to three entries a logger past 7 or a tick of 2^63 or more.
fn spoil_entries(random: &mut Random, list: &mut [Timestamp]) {
    if list.is_empty() {
        return;
    }
    for _ in 0..random.between(1, 3) {
        let i = random.below(list.len() as u64) as usize;
        if random.one_in(2) {
            list[i].logger = random.pick(&[8, 9, 15, 16, 128, 254, 255]);
        } else {
            let large = random.number() | 1 << 63;
            list[i].tick = random.pick(&[1 << 63, (1 << 63) + 1, u64::MAX, large]);
        }
    }
}
