//! Every passage of up to four events over two kinds and three loggers, or three kinds and two loggers, and six ticks.
//! A sequence is one order of arrival, so all orders are among them.

use crate::files::EventEntry;

/// What the events of some passages have.
pub struct Range {
    pub kinds: &'static [u16],
    pub loggers: &'static [u16],
}

pub const TWO_KINDS: Range = Range { kinds: &[7, 9], loggers: &LOGGERS };
/// For the operators with a third input.
pub const THREE_KINDS: Range = Range { kinds: &[7, 9, 11], loggers: &[1, 2] };

pub const LOGGERS: [u16; 3] = [1, 2, 3];
pub const RATIO: u32 = 10;
/// Both sides of three ends of a global tick. Two of these are equal, in one global tick (10 and 19), one apart (19 and
/// 20 the nearest, 10 and 29 the farthest), two apart (9 and 20 the nearest, 10 and 30) or three (9 and 30).
pub const TICKS: [u64; 6] = [9, 10, 19, 20, 29, 30];
pub const MOST_EVENTS: u32 = 4;

/// The events that a place of a passage may hold, in either range.
const EVENTS: u64 = TWO_KINDS.events();
const _: () = assert!(THREE_KINDS.events() == EVENTS);

/// Has no factor in common with EVENTS, so steps of this size meet every passage once before they return.
const STEP: u64 = 1_000_003;

/// How many passages of so many events each range has.
pub fn how_many(events: u32) -> u64 {
    EVENTS.pow(events)
}

impl Range {
    const fn events(&self) -> u64 {
        (self.kinds.len() * self.loggers.len() * TICKS.len()) as u64
    }

    /// The passage with a number below `how_many`. Neighbours are scattered over all passages: of those of four events,
    /// any 36th part that lies together begins in every way that three events can.
    pub fn scattered(&self, events: u32, number: u64) -> Vec<EventEntry> {
        let number = number * STEP % how_many(events);
        (0..events).map(|i| self.event((number / EVENTS.pow(i) % EVENTS) as usize)).collect()
    }

    fn event(&self, number: usize) -> EventEntry {
        let (rest, kind) = (number / self.kinds.len(), self.kinds[number % self.kinds.len()]);
        EventEntry { kind, logger: self.loggers[rest % self.loggers.len()], tick: TICKS[rest / self.loggers.len()] }
    }
}
