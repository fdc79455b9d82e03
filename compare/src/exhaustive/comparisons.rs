//! Every pair of lists that have for each logger one tick or none: all agree on each, and every reply is often met. A
//! list that is no composite timestamp is turned back.

use super::passages::{LOGGERS, RATIO, TICKS};
use crate::comparison::{agreed_reply, all_replied_often, Totals};
use crate::generator::CompareCase;
use crate::interface::Timestamp;

/// What a list may have for a logger: none or one of the ticks.
const CHOICES: usize = TICKS.len() + 1;

pub fn compare_all() -> Result<Totals, String> {
    let lists = &lists();
    let mut totals = Totals::new();
    for (first, second) in lists.iter().flat_map(|first| lists.iter().map(move |second| (first, second))) {
        let case = CompareCase { ratio: u64::from(RATIO), first: first.clone(), second: second.clone() };
        let reply = agreed_reply(&case).map_err(|what| format!("DIFFERENCE\n{what}"))?;
        *totals.entry(reply).or_default() += 1;
    }
    all_replied_often(&totals)?;
    Ok(totals)
}

/// All but the empty one.
pub fn lists() -> Vec<Vec<Timestamp>> {
    (1..CHOICES.pow(LOGGERS.len() as u32)).map(list).collect()
}

/// The list that has for each logger the choice that a digit of the number says.
fn list(number: usize) -> Vec<Timestamp> {
    let choice = |logger: u8| number / CHOICES.pow(u32::from(logger)) % CHOICES;
    let tick = |logger: u8| choice(logger).checked_sub(1).map(|place| TICKS[place]);
    (0..LOGGERS.len() as u8).filter_map(|logger| tick(logger).map(|tick| Timestamp { logger, tick })).collect()
}
