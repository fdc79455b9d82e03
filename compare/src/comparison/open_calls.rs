//! The join and the comparison.

use super::agreement::{agreed_comparison, agreed_join};
use super::Totals;
use crate::generator::{compare_case, join_case, CompareCase, Random};
use crate::interface::Order;

/// The replies that there are: before and concurrent give weakly before, after excludes it.
const REPLIES: [(Order, bool, &str); 5] = [
    (Order::Before, true, "before"),
    (Order::After, false, "after"),
    (Order::Concurrent, true, "concurrent"),
    (Order::Incomparable, true, "incomparable, weakly before"),
    (Order::Incomparable, false, "incomparable, not weakly before"),
];
/// Each reply has to occur at least once in so many cases.
const OFTEN: u64 = 100;

pub fn one_join(random: &mut Random) -> Result<Vec<String>, String> {
    let answer = agreed_join(&join_case(random))?;
    Ok(vec![format!("number {}", answer.number)])
}

pub fn one_comparison(random: &mut Random) -> Result<Vec<String>, String> {
    agreed_reply(&compare_case(random)).map(|reply| vec![reply])
}

/// The agreed answer of a comparison in words.
pub fn agreed_reply(case: &CompareCase) -> Result<String, String> {
    let answer = agreed_comparison(case)?;
    if answer.number != 0 {
        return Ok(format!("number {}", answer.number));
    }
    let mut replies = REPLIES.iter();
    let given = replies.find(|(order, weakly, _)| (*order as u8, *weakly) == (answer.order, answer.weakly_before));
    given.map(|(_, _, reply)| label(reply)).ok_or_else(|| format!("{case:?}\n{answer:?}\nthere is no such reply"))
}

fn label(reply: &str) -> String {
    format!("number 0, {reply}")
}

/// Each reply must be often among the answers.
pub fn all_replied_often(totals: &Totals) -> Result<(), String> {
    let cases: u64 = totals.values().sum();
    let times = |reply: &str| totals.get(&label(reply)).copied().unwrap_or(0);
    match REPLIES.iter().find(|(_, _, reply)| times(reply) * OFTEN < cases) {
        Some((_, _, reply)) => Err(format!("FAILED: only {} of {cases} comparisons replied {reply}", times(reply))),
        None => Ok(()),
    }
}
