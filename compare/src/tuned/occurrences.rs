//! Occurrences. Each timestamp is that of an event, so a composite timestamp is an event for each logger.

use super::bits::{has, Bits};
use super::composites::{Composite, Span};
use super::events::Event;
use crate::interface::Order;

#[derive(Clone, Copy)]
pub struct Occurrence {
    pub events: u128,
    span: Span,
    /// For each logger that is present, the event that has its timestamp.
    latest: [u8; 8],
}

/// The composite timestamp of an occurrence.
struct Timestamps<'a> {
    of: &'a Occurrence,
    events: &'a [Event],
}

impl Occurrence {
    #[inline]
    pub fn of_event(number: usize, event: &Event) -> Self {
        let span = Span { lowest: event.global, highest: event.global, present: 1 << event.logger };
        Occurrence { events: 1 << number, span, latest: [number as u8; 8] }
    }

    /// The loggers of its timestamps.
    #[inline]
    pub fn loggers(&self) -> Bits {
        Bits(u64::from(self.span.present))
    }

    #[inline]
    pub fn timestamp_count(&self) -> usize {
        self.span.present.count_ones() as usize
    }

    /// The number of the event that has the timestamp of a logger that is present.
    #[inline]
    pub fn event_at(&self, logger: usize) -> usize {
        usize::from(self.latest[logger])
    }

    #[inline]
    fn event_if_at(&self, logger: usize) -> Option<usize> {
        has(u64::from(self.span.present), logger).then(|| self.event_at(logger))
    }

    /// The word for the timestamps of both.
    pub fn order(&self, other: &Occurrence, events: &[Event]) -> Order {
        Timestamps { of: self, events }.compared(&Timestamps { of: other, events }).0
    }

    /// Whether its timestamps are weakly before those of the other.
    pub fn is_weakly_before(&self, other: &Occurrence, events: &[Event]) -> bool {
        Timestamps { of: self, events }.is_weakly_before(&Timestamps { of: other, events })
    }

    /// The join of the timestamps of both and the union of their events.
    pub fn joined(&self, other: &Occurrence, events: &[Event]) -> Occurrence {
        let (a, b, both) = (&self.span, &other.span, self.events | other.events);
        if a.highest + 1 < b.lowest {
            return Occurrence { events: both, ..*other };
        }
        if b.highest + 1 < a.lowest {
            return Occurrence { events: both, ..*self };
        }
        let highest = a.highest.max(b.highest);
        let span = Span { lowest: highest, highest, present: 0 };
        let mut joined = Occurrence { events: both, span, latest: [0; 8] };
        for logger in Bits(u64::from(a.present | b.present)) {
            let number = self.later_at(other, logger, events);
            let global = events[number].global;
            if global + 1 >= highest {
                joined.latest[logger] = number as u8;
                joined.span.present |= 1 << logger;
                joined.span.lowest = joined.span.lowest.min(global);
            }
        }
        joined
    }

    /// The event with the later timestamp of a logger that one or both have.
    #[inline]
    fn later_at(&self, other: &Occurrence, logger: usize, events: &[Event]) -> usize {
        match (self.event_if_at(logger), other.event_if_at(logger)) {
            (Some(one), Some(another)) if events[one].tick < events[another].tick => another,
            (Some(one), _) => one,
            (None, _) => other.event_at(logger),
        }
    }
}

impl Composite for Timestamps<'_> {
    #[inline]
    fn span(&self) -> &Span {
        &self.of.span
    }

    #[inline]
    fn tick(&self, logger: usize) -> u64 {
        self.events[self.of.event_at(logger)].tick
    }

    #[inline]
    fn is_above(&self, logger: usize, global: u64) -> bool {
        self.events[self.of.event_at(logger)].global > global
    }
}
