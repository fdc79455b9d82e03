//! The two open calls. Only the one timestamp kept for each logger is ever divided.

use super::bits::has;
use super::composites::{Composite, Span};
use super::reader::Fault;
use crate::interface::{Comparison, JoinAnswer, Order, Timestamp};

const BLANK: Timestamp = Timestamp { logger: 255, tick: 0 };

/// The composite timestamp of a list.
struct Listed {
    ratio: u64,
    span: Span,
    /// For each logger that is present, its local tick.
    ticks: [u64; 8],
}

pub fn join(ratio: u64, list: &[Timestamp]) -> JoinAnswer {
    match latest_of_loggers(ratio, list) {
        Ok(latest) => JoinAnswer { number: 0, place: 0, timestamps: joined(ratio, &latest) },
        Err(Fault { number, place }) => JoinAnswer { number, place: place as u64, timestamps: [BLANK; 8] },
    }
}

pub fn compare(ratio: u64, first: &[Timestamp], second: &[Timestamp]) -> Comparison {
    let (mut a, mut b) = (Listed::new(ratio), Listed::new(ratio));
    if let Err(Fault { number, place }) = read_both(first, second, [&mut a, &mut b]) {
        let place = place as u64;
        return Comparison { number, place, order: Order::Incomparable as u8, weakly_before: false };
    }
    let (order, weakly_before) = a.compared(&b);
    Comparison { number: 0, place: 0, order: order as u8, weakly_before }
}

fn read_both(first: &[Timestamp], second: &[Timestamp], [a, b]: [&mut Listed; 2]) -> Result<(), Fault> {
    check_ratio(a.ratio)?;
    a.read(first, 0)?;
    b.read(second, first.len())
}

fn check_ratio(ratio: u64) -> Result<(), Fault> {
    if (1..=1_000_000).contains(&ratio) {
        Ok(())
    } else {
        Err(Fault { number: 34, place: 0 })
    }
}

fn check_count(list: &[Timestamp], place: usize) -> Result<(), Fault> {
    if (1..=128).contains(&list.len()) {
        Ok(())
    } else {
        Err(Fault { number: 35, place })
    }
}

/// The logger of an entry that is allowed.
#[inline]
fn check_entry(entry: &Timestamp, place: usize) -> Result<usize, Fault> {
    if entry.logger <= 7 && entry.tick < 1 << 63 {
        Ok(usize::from(entry.logger))
    } else {
        Err(Fault { number: 36, place })
    }
}

/// The largest tick of each logger, or blank.
fn latest_of_loggers(ratio: u64, list: &[Timestamp]) -> Result<[Timestamp; 8], Fault> {
    check_ratio(ratio)?;
    check_count(list, 0)?;
    let mut latest = [BLANK; 8];
    for (place, entry) in list.iter().enumerate() {
        let kept = &mut latest[check_entry(entry, place)?];
        if kept.logger == BLANK.logger || kept.tick < entry.tick {
            *kept = *entry;
        }
    }
    Ok(latest)
}

/// Of the latest of each logger, those within one global tick of the highest.
fn joined(ratio: u64, latest: &[Timestamp; 8]) -> [Timestamp; 8] {
    let last = latest.iter().map(|timestamp| timestamp.tick).max().unwrap_or(0);
    // The first local tick whose global tick plus 1 is not less than the highest.
    let first_kept = (last / ratio).saturating_sub(1) * ratio;
    latest.map(|timestamp| if timestamp.tick < first_kept { BLANK } else { timestamp })
}

impl Listed {
    #[inline]
    fn new(ratio: u64) -> Self {
        Listed { ratio, span: Span { lowest: u64::MAX, highest: 0, present: 0 }, ticks: [0; 8] }
    }

    /// Fills a new one from a list.
    fn read(&mut self, list: &[Timestamp], first_place: usize) -> Result<(), Fault> {
        check_count(list, first_place)?;
        for (place, entry) in (first_place..).zip(list) {
            let logger = check_entry(entry, place)?;
            if !self.add(logger, entry.tick) {
                return Err(Fault { number: 37, place });
            }
        }
        Ok(())
    }

    /// Adds a timestamp, unless one that it holds is not concurrent with it.
    #[inline]
    fn add(&mut self, logger: usize, tick: u64) -> bool {
        let span = &mut self.span;
        if has(u64::from(span.present), logger) {
            return self.ticks[logger] == tick;
        }
        let global = tick / self.ratio;
        let (lowest, highest) = (span.lowest.min(global), span.highest.max(global));
        if lowest + 1 < highest {
            return false;
        }
        *span = Span { lowest, highest, present: span.present | 1 << logger };
        self.ticks[logger] = tick;
        true
    }
}

impl Composite for Listed {
    #[inline]
    fn span(&self) -> &Span {
        &self.span
    }

    #[inline]
    fn tick(&self, logger: usize) -> u64 {
        self.ticks[logger]
    }

    /// By the first local tick above, so that nothing is divided again.
    #[inline]
    fn is_above(&self, logger: usize, global: u64) -> bool {
        self.ticks[logger] >= (global + 1) * self.ratio
    }
}
