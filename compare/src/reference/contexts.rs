//! What a context takes of the candidates, and what it removes.

use super::occurrences::{is_before, Occurrence};

pub const RECENT: u64 = 1;
const CHRONICLE: u64 = 2;
const CUMULATIVE: u64 = 4;

/// Places of a waiting list: the groups that make one detection each, and those to remove.
pub struct Choice {
    pub groups: Vec<Vec<usize>>,
    pub removed: Vec<usize>,
}

pub fn choose(ratio: u64, context: u64, waiting: &[Occurrence], candidates: &[usize]) -> Choice {
    let earlier = |i: usize, j: usize| is_before(ratio, &waiting[i], &waiting[j]);
    let (taken, others): (Vec<usize>, Vec<usize>) = candidates.iter().partition(|i| match context {
        RECENT => !candidates.iter().any(|j| earlier(**i, *j)),
        CHRONICLE => !candidates.iter().any(|j| earlier(*j, **i)),
        _ => true,
    });
    let removed = if context == RECENT { others } else { taken.clone() };
    let groups = match context {
        CUMULATIVE if taken.is_empty() => Vec::new(),
        CUMULATIVE => vec![taken],
        _ => taken.into_iter().map(|i| vec![i]).collect(),
    };
    Choice { groups, removed }
}
