//! The proved library through its C interface. A slice goes over as a pointer and a count.

use crate::interface::{Answer, Comparison, JoinAnswer, Timestamp};

mod raw {
    use super::{Answer, Comparison, JoinAnswer, Timestamp};

    extern "C" {
        pub fn rathunxa_work(
            plan: *const u8,
            plan_len: usize,
            passage: *const u8,
            passage_len: usize,
            output: *mut u8,
            output_len: usize,
        ) -> Answer;
        pub fn rathunxa_join(ratio: u64, list: *const Timestamp, count: usize) -> JoinAnswer;
        pub fn rathunxa_compare(
            ratio: u64,
            first: *const Timestamp,
            first_count: usize,
            second: *const Timestamp,
            second_count: usize,
        ) -> Comparison;
    }
}

pub fn work(plan: &[u8], passage: &[u8], output: &mut [u8]) -> Answer {
    let (plan_len, passage_len, output_len) = (plan.len(), passage.len(), output.len());
    // Sound: each pointer leads to as many bytes as the length says, `&mut` overlaps neither file, and nothing is kept.
    unsafe {
        raw::rathunxa_work(plan.as_ptr(), plan_len, passage.as_ptr(), passage_len, output.as_mut_ptr(), output_len)
    }
}

pub fn join(ratio: u64, list: &[Timestamp]) -> JoinAnswer {
    // Sound: the slice's pointer leads to as many entries as its length says, and nothing is kept.
    unsafe { raw::rathunxa_join(ratio, list.as_ptr(), list.len()) }
}

pub fn compare(ratio: u64, first: &[Timestamp], second: &[Timestamp]) -> Comparison {
    // Sound for the same reason.
    unsafe { raw::rathunxa_compare(ratio, first.as_ptr(), first.len(), second.as_ptr(), second.len()) }
}
