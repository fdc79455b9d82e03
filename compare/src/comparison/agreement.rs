//! One call of all implementations, which must agree.

use crate::files::FileCase;
use crate::generator::{CompareCase, JoinCase};
use crate::implementations::{Implementation, ALL};
use crate::interface::{Answer, Comparison, JoinAnswer};
use std::fmt::Debug;

const GUARD: usize = 64;

/// An answer, and the memory of the output and the guard after it.
type Outcome = (Answer, Vec<u8>);

pub fn agreed_join(case: &JoinCase) -> Result<JoinAnswer, String> {
    agreed(case, ALL.map(|each| (each.join)(case.ratio, &case.list)))
}

pub fn agreed_comparison(case: &CompareCase) -> Result<Comparison, String> {
    agreed(case, ALL.map(|each| (each.compare)(case.ratio, &case.first, &case.second)))
}

/// The output holds the pattern before each call. Its bytes past the written ones and the guard must still hold it.
pub fn agreed_work(case: &FileCase, pattern: u64) -> Result<Outcome, String> {
    let outcomes = ALL.map(|each| outcome(&each, case, pattern));
    let answer = agreed(case, outcomes.each_ref().map(|(answer, _)| *answer))?;
    let [(_, first), others @ ..] = &outcomes;
    for (each, (_, other)) in ALL[1..].iter().zip(others) {
        if let Some(place) = first.iter().zip(other).position(|(one, other)| one != other) {
            return Err(format!("{case:?}\n{answer:?}\noutput byte {place} is another one of {}", each.name));
        }
    }
    if kept(&outcomes[0], pattern) {
        let [outcome, ..] = outcomes;
        return Ok(outcome);
    }
    Err(format!("{case:?}\n{answer:?}\na byte past those written is changed"))
}

fn outcome(of: &Implementation, case: &FileCase, pattern: u64) -> Outcome {
    let mut memory = patterned(case.output + GUARD, pattern);
    let answer = (of.work)(&case.plan, &case.passage, &mut memory[..case.output]);
    (answer, memory)
}

fn patterned(length: usize, pattern: u64) -> Vec<u8> {
    pattern.to_ne_bytes().repeat(length.div_ceil(8))
}

fn kept((answer, memory): &Outcome, pattern: u64) -> bool {
    let from = answer.bytes as usize;
    memory[from..] == patterned(memory.len(), pattern)[from..]
}

/// The answer of all, or the case and the answers.
fn agreed<A: Debug + PartialEq + Copy>(case: &dyn Debug, answers: [A; ALL.len()]) -> Result<A, String> {
    if answers.iter().all(|answer| *answer == answers[0]) {
        return Ok(answers[0]);
    }
    let line = |(each, answer): (&Implementation, &A)| format!("\n{:<9} {answer:?}", each.name);
    Err(format!("{case:?}{}", ALL.iter().zip(&answers).map(line).collect::<String>()))
}
