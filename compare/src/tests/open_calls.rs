//! The examples J1 to J8, the replies and the refusals of the open calls. Ratio 10; 1:80 is `at(1, 80)`.

use crate::comparison::{agreed_comparison, agreed_join};
use crate::generator::{CompareCase, JoinCase};
use crate::interface::{Comparison, JoinAnswer, Order, Timestamp};
use crate::reference::latest;

const BLANK: Timestamp = Timestamp { logger: 255, tick: 0 };

fn at(logger: u8, tick: u64) -> Timestamp {
    Timestamp { logger, tick }
}

fn join(ratio: u64, list: &[Timestamp]) -> JoinAnswer {
    agreed_join(&JoinCase { ratio, list: list.to_vec() }).expect("all agree")
}

fn compare(ratio: u64, first: &[Timestamp], second: &[Timestamp]) -> Comparison {
    let case = CompareCase { ratio, first: first.to_vec(), second: second.to_vec() };
    agreed_comparison(&case).expect("all agree")
}

fn joined(set: &[Timestamp]) -> JoinAnswer {
    let mut timestamps = [BLANK; 8];
    for s in set {
        timestamps[s.logger as usize] = *s;
    }
    JoinAnswer { number: 0, place: 0, timestamps }
}

fn join_refused(number: u64, place: u64) -> JoinAnswer {
    JoinAnswer { number, place, timestamps: [BLANK; 8] }
}

fn compare_refused(number: u64, place: u64) -> Comparison {
    Comparison { number, place, order: Order::Incomparable as u8, weakly_before: false }
}

/// Compares both ways and wants the word, and of each way whether it is weakly before. Turned round, before is after.
fn replies(first: &[Timestamp], second: &[Timestamp], order: Order, weakly_before: [bool; 2]) {
    let turned = match order {
        Order::Before => Order::After,
        Order::After => Order::Before,
        same => same,
    };
    let wanted = |order, weakly_before| Comparison { number: 0, place: 0, order: order as u8, weakly_before };
    assert_eq!(compare(10, first, second), wanted(order, weakly_before[0]), "{first:?} {second:?}");
    assert_eq!(compare(10, second, first), wanted(turned, weakly_before[1]), "{second:?} {first:?}");
}

#[test]
fn j1_one_logger() {
    assert_eq!(join(10, &[at(1, 80), at(1, 81)]), joined(&[at(1, 81)]));
}

#[test]
fn j2_adjacent_global_ticks() {
    assert_eq!(join(10, &[at(1, 89), at(2, 90)]), joined(&[at(1, 89), at(2, 90)]));
}

#[test]
fn j3_two_global_ticks_apart() {
    assert_eq!(join(10, &[at(1, 89), at(2, 100)]), joined(&[at(2, 100)]));
}

#[test]
fn j4_any_grouping() {
    let (a, b, c) = (at(1, 80), at(2, 90), at(3, 100));
    let result = vec![b, c];
    for order in [[a, b, c], [a, c, b], [b, a, c], [b, c, a], [c, a, b], [c, b, a]] {
        assert_eq!(join(10, &order), joined(&result));
        let mut left = latest(10, &order[..2]);
        left.push(order[2]);
        assert_eq!(latest(10, &left), result);
        let mut right = latest(10, &order[1..]);
        right.push(order[0]);
        assert_eq!(latest(10, &right), result);
    }
}

#[test]
fn j5_incomparable_and_weakly_before() {
    replies(&[at(1, 80)], &[at(2, 90), at(3, 100)], Order::Incomparable, [true, false]);
}

#[test]
fn j6_with_itself() {
    assert_eq!(join(10, &[at(2, 55), at(2, 55)]), joined(&[at(2, 55)]));
}

#[test]
fn j7_two_loggers() {
    let list = [at(1, 80), at(1, 90), at(2, 80), at(2, 90)];
    assert_eq!(join(10, &list), joined(&[at(1, 90), at(2, 90)]));
}

#[test]
fn j8_both_ends() {
    let last = at(1, (1 << 63) - 1);
    assert_eq!(join(10, &[at(1, 0), last]), joined(&[last]));
}

#[test]
fn words_have_their_numbers() {
    let numbers = [Order::Incomparable, Order::Before, Order::After, Order::Concurrent].map(|order| order as u8);
    assert_eq!(numbers, [0, 1, 2, 3]);
}

#[test]
fn before_and_after() {
    let is_before = |first: &[Timestamp], second: &[Timestamp]| replies(first, second, Order::Before, [true, false]);
    is_before(&[at(1, 80)], &[at(1, 81)]);
    is_before(&[at(1, 89)], &[at(2, 100)]);
    is_before(&[at(0, 0)], &[at(7, (1 << 63) - 1)]);
    // Each of two by a timestamp of its own.
    is_before(&[at(1, 80), at(2, 80)], &[at(1, 81), at(2, 85)]);
    // One by the same logger, the other by its global tick.
    is_before(&[at(1, 80)], &[at(1, 90), at(2, 100)]);
    // A timestamp of the first is before none.
    is_before(&[at(1, 80), at(2, 80)], &[at(2, 81)]);
    is_before(&[at(1, 80), at(2, 90)], &[at(1, 90), at(3, 100)]);
}

#[test]
fn concurrent() {
    let are_concurrent = |first: &[Timestamp], second: &[Timestamp]| {
        replies(first, second, Order::Concurrent, [true, true]);
    };
    are_concurrent(&[at(1, 89)], &[at(2, 90)]);
    are_concurrent(&[at(1, 80)], &[at(2, 99)]);
    are_concurrent(&[at(2, 55)], &[at(2, 55), at(2, 55)]);
    are_concurrent(&[at(1, 80), at(2, 95)], &[at(2, 95), at(3, 85)]);
}

#[test]
fn incomparable() {
    let are_incomparable = |first: &[Timestamp], second: &[Timestamp], weakly_before| {
        replies(first, second, Order::Incomparable, weakly_before);
    };
    // Some of the second are later and some concurrent.
    are_incomparable(&[at(1, 80)], &[at(1, 81), at(2, 80)], [true, false]);
    // Some are later and some earlier.
    are_incomparable(&[at(1, 80), at(2, 80)], &[at(1, 81), at(2, 79)], [false, false]);
    are_incomparable(&[at(1, 80), at(2, 99)], &[at(2, 90), at(3, 100)], [false, false]);
}

#[test]
fn join_refusals() {
    let good = at(0, 0);
    assert_eq!(join(0, &[]), join_refused(34, 0));
    assert_eq!(join(1_000_001, &[good]), join_refused(34, 0));
    assert_eq!(join(u64::MAX, &[good]), join_refused(34, 0));
    assert_eq!(join(10, &[]), join_refused(35, 0));
    assert_eq!(join(10, &[at(8, 0); 129]), join_refused(35, 0));
    assert_eq!(join(10, &[good, at(8, 0)]), join_refused(36, 1));
    assert_eq!(join(10, &[good, good, at(7, 1 << 63)]), join_refused(36, 2));
    assert_eq!(join(1_000_000, &[good; 128]), joined(&[good]));
}

#[test]
fn compare_refusals() {
    let (one, two, bad) = ([at(1, 80)], [at(1, 80), at(1, 81)], [at(1, 80), at(9, 0)]);
    assert_eq!(compare(0, &[], &[]), compare_refused(34, 0));
    assert_eq!(compare(1_000_001, &one, &[at(1, 81)]), compare_refused(34, 0));
    assert_eq!(compare(10, &[], &bad), compare_refused(35, 0));
    assert_eq!(compare(10, &one, &[]), compare_refused(35, 1));
    assert_eq!(compare(10, &one, &[at(1, 80); 129]), compare_refused(35, 1));
    assert_eq!(compare(10, &bad, &[]), compare_refused(36, 1));
    assert_eq!(compare(10, &one, &bad), compare_refused(36, 2));
    assert_eq!(compare(10, &two, &bad), compare_refused(37, 1));
    assert_eq!(compare(10, &one, &two), compare_refused(37, 2));
    assert_eq!(compare(10, &[at(1, 80), at(1, 1 << 63)], &one), compare_refused(36, 1));
}
