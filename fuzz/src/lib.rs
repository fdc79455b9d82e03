//! The second implementation's file working for C.

use rathunxa_compare::interface::Answer;
use rathunxa_compare::reference;
use std::slice::{from_raw_parts, from_raw_parts_mut};

/// As `rathunxa_work` in include/rathunxa.h.
///
/// # Safety
/// Each pointer, never null, leads to as many bytes as the length says; the output overlaps neither file.
#[no_mangle]
pub unsafe extern "C" fn reference_work(
    plan: *const u8,
    plan_len: usize,
    passage: *const u8,
    passage_len: usize,
    output: *mut u8,
    output_len: usize,
) -> Answer {
    let (plan, passage) = (from_raw_parts(plan, plan_len), from_raw_parts(passage, passage_len));
    reference::work(plan, passage, from_raw_parts_mut(output, output_len))
}
