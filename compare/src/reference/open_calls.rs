//! The two open calls, with the refusals 34 to 37.

use super::refusal::{require, Refusal};
use super::timestamps::{concurrent, latest, order, weakly_before};
use crate::interface::{Comparison, JoinAnswer, Order, Timestamp};

const BLANK: Timestamp = Timestamp { logger: 255, tick: 0 };
const TICKS_END: u64 = 1 << 63;

fn check_ratio(ratio: u64) -> Result<(), Refusal> {
    require((1..=1_000_000).contains(&ratio), 34, 0)
}

fn check_count(list: &[Timestamp], first_place: u64) -> Result<(), Refusal> {
    require((1..=128).contains(&list.len()), 35, first_place)
}

fn check_entry(entry: &Timestamp, place: u64) -> Result<(), Refusal> {
    require(entry.logger <= 7 && entry.tick < TICKS_END, 36, place)
}

fn check_concurrent(ratio: u64, entry: &Timestamp, earlier: &[Timestamp], place: u64) -> Result<(), Refusal> {
    require(earlier.iter().all(|s| concurrent(ratio, s, entry)), 37, place)
}

fn check_joined(ratio: u64, list: &[Timestamp]) -> Result<(), Refusal> {
    check_ratio(ratio)?;
    check_count(list, 0)?;
    for (i, entry) in list.iter().enumerate() {
        check_entry(entry, i as u64)?;
    }
    Ok(())
}

fn check_composite(ratio: u64, list: &[Timestamp], first_place: u64) -> Result<(), Refusal> {
    check_count(list, first_place)?;
    for (i, entry) in list.iter().enumerate() {
        let place = first_place + i as u64;
        check_entry(entry, place)?;
        check_concurrent(ratio, entry, &list[..i], place)?;
    }
    Ok(())
}

fn check_compared(ratio: u64, first: &[Timestamp], second: &[Timestamp]) -> Result<(), Refusal> {
    check_ratio(ratio)?;
    check_composite(ratio, first, 0)?;
    check_composite(ratio, second, first.len() as u64)
}

pub fn join(ratio: u64, list: &[Timestamp]) -> JoinAnswer {
    let mut timestamps = [BLANK; 8];
    if let Err(Refusal { number, place }) = check_joined(ratio, list) {
        return JoinAnswer { number, place, timestamps };
    }
    for s in latest(ratio, list) {
        timestamps[s.logger as usize] = s;
    }
    JoinAnswer { number: 0, place: 0, timestamps }
}

pub fn compare(ratio: u64, first: &[Timestamp], second: &[Timestamp]) -> Comparison {
    if let Err(Refusal { number, place }) = check_compared(ratio, first, second) {
        return Comparison { number, place, order: Order::Incomparable as u8, weakly_before: false };
    }
    Comparison {
        number: 0,
        place: 0,
        order: order(ratio, first, second) as u8,
        weakly_before: weakly_before(ratio, first, second),
    }
}
