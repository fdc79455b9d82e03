//! The latest timestamps of findings, collected over all passages and plans: a set of timestamps may have one join only.

use super::passages::{LOGGERS, TICKS};
use crate::files::EventEntry;
use crate::reference::Detection;
use std::collections::HashMap;

/// A set of timestamps, with a bit for each logger and tick.
type Set = u32;

/// For the set of the events' timestamps, the latest ones of the findings that have it.
#[derive(Default)]
pub struct Joins {
    latest: HashMap<Set, Set>,
    pub findings: u64,
}

impl Joins {
    pub fn sets(&self) -> usize {
        self.latest.len()
    }

    /// Notes a finding of a passage.
    pub fn note(&mut self, passage: &[EventEntry], finding: &Detection) -> Result<(), String> {
        let event = |number: &u64| &passage[*number as usize];
        let of_events = set(finding.events.iter().map(event).map(|event| (u64::from(event.logger), event.tick)))?;
        let latest = set(finding.timestamps.iter().copied())?;
        self.findings += 1;
        self.keep(of_events, latest).map_err(|what| format!("{what}\n{finding:?}"))
    }

    /// Adds what another has collected.
    pub fn add(&mut self, other: &Joins) -> Result<(), String> {
        self.findings += other.findings;
        other.latest.iter().try_for_each(|(of_events, latest)| self.keep(*of_events, *latest))
    }

    fn keep(&mut self, of_events: Set, latest: Set) -> Result<(), String> {
        let known = *self.latest.entry(of_events).or_insert(latest);
        if known == latest {
            return Ok(());
        }
        let [of_events, known, latest] = [of_events, known, latest].map(listed);
        Err(format!("two joins of one set of timestamps\nset: {of_events}\none: {known}\nother: {latest}"))
    }
}

fn set(mut timestamps: impl Iterator<Item = (u64, u64)>) -> Result<Set, String> {
    timestamps.try_fold(0, |set, (logger, tick)| {
        let logger_place = LOGGERS.iter().position(|other| u64::from(*other) == logger);
        let tick_place = TICKS.iter().position(|other| *other == tick);
        let bit = logger_place.zip(tick_place).map(|(l, t)| l * TICKS.len() + t);
        bit.map(|bit| set | 1 << bit).ok_or_else(|| format!("{logger}:{tick} is no timestamp of the passage"))
    })
}

/// As the scope document writes timestamps: 1:80 is logger 1, tick 80.
fn listed(set: Set) -> String {
    let all = LOGGERS.iter().flat_map(|logger| TICKS.iter().map(move |tick| format!("{logger}:{tick}")));
    let of_set = all.enumerate().filter(|(bit, _)| set >> bit & 1 == 1);
    of_set.map(|(_, timestamp)| timestamp).collect::<Vec<String>>().join(",")
}
