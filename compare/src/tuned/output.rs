//! Findings as they are written.

use super::bits::Bits;
use super::events::Event;
use super::occurrences::Occurrence;

pub struct Output<'a> {
    lent: &'a mut [u8],
    pub bytes: usize,
    pub findings: u64,
}

impl<'a> Output<'a> {
    pub fn new(lent: &'a mut [u8]) -> Self {
        Output { lent, bytes: 0, findings: 0 }
    }

    /// Writes a finding whole, or says that it does not fit.
    pub fn write(&mut self, node: usize, found: &Occurrence, loggers: &[u16], events: &[Event]) -> bool {
        let (timestamps, count) = (found.timestamp_count(), found.events.count_ones() as usize);
        let size = 6 + 10 * timestamps + 2 * count;
        let Some(room) = self.lent[self.bytes..].get_mut(..size) else {
            return false;
        };
        put_two(&mut room[..2], node);
        put_two(&mut room[2..4], timestamps);
        let (of_timestamps, of_events) = room[4..].split_at_mut(10 * timestamps);
        for (place, logger) in of_timestamps.chunks_exact_mut(10).zip(found.loggers()) {
            place[..2].copy_from_slice(&loggers[logger].to_be_bytes());
            place[2..].copy_from_slice(&events[found.event_at(logger)].tick.to_be_bytes());
        }
        put_two(&mut of_events[..2], count);
        put_numbers(&mut of_events[2..], found.events);
        self.bytes += size;
        self.findings += 1;
        true
    }
}

#[inline]
fn put_two(place: &mut [u8], value: usize) {
    place.copy_from_slice(&(value as u16).to_be_bytes());
}

fn put_numbers(places: &mut [u8], events: u128) {
    let mut places = places.chunks_exact_mut(2);
    for (word, first) in [(events as u64, 0), ((events >> 64) as u64, 64)] {
        for (bit, place) in Bits(word).zip(places.by_ref()) {
            put_two(place, first + bit);
        }
    }
}
