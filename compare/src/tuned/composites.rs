//! The comparison of two composite timestamps, in whatever form they are held.

use super::bits::Bits;
use crate::interface::Order;

/// The global ticks and the loggers of a composite timestamp.
#[derive(Clone, Copy)]
pub struct Span {
    /// The lowest and the highest global tick, at most 1 apart.
    pub lowest: u64,
    pub highest: u64,
    /// The set of its loggers.
    pub present: u8,
}

/// A composite timestamp.
pub trait Composite {
    fn span(&self) -> &Span;
    /// The local tick of a logger that is present.
    fn tick(&self, logger: usize) -> u64;
    /// Whether a logger that is present has a global tick above another.
    fn is_above(&self, logger: usize, global: u64) -> bool;

    /// The word, and whether this one is weakly before the other. The lowest global ticks mostly decide.
    #[inline]
    fn compared(&self, other: &Self) -> (Order, bool) {
        let (a, b) = (self.span(), other.span());
        if a.lowest + 1 < b.lowest {
            return (Order::Before, true);
        }
        if b.lowest + 1 < a.lowest {
            return (Order::After, false);
        }
        // The timestamps of each that have some timestamp of the other before them.
        let (mut of_a, mut of_b) = (self.later_than(b.lowest), other.later_than(a.lowest));
        for logger in Bits(u64::from(a.present & b.present)) {
            let (tick, other_tick) = (self.tick(logger), other.tick(logger));
            of_a |= u8::from(other_tick < tick) << logger;
            of_b |= u8::from(tick < other_tick) << logger;
        }
        let order = match (of_a, of_b) {
            (0, 0) => Order::Concurrent,
            (_, all) if all == b.present => Order::Before,
            (all, _) if all == a.present => Order::After,
            _ => Order::Incomparable,
        };
        (order, of_a == 0)
    }

    /// Whether no timestamp of the other is before one of this.
    #[inline]
    fn is_weakly_before(&self, other: &Self) -> bool {
        let (a, b) = (self.span(), other.span());
        a.highest <= b.lowest + 1
            && Bits(u64::from(a.present & b.present)).all(|logger| self.tick(logger) <= other.tick(logger))
    }

    /// The loggers with a global tick above the other's lowest plus 1. That one is before them also where it is of the
    /// same logger: then its local tick is smaller.
    #[inline]
    fn later_than(&self, lowest: u64) -> u8 {
        if self.span().highest <= lowest + 1 {
            return 0;
        }
        let of = |logger: usize| u8::from(self.is_above(logger, lowest + 1)) << logger;
        Bits(u64::from(self.span().present)).map(of).sum()
    }
}
