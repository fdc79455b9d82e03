//! D1 to D4, the limits, and the refusals 1 to 26 and 41 with their places.

use crate::comparison::agreed_work;
use crate::examples::{examples, plan_p};
use crate::files::{passage_bytes, EventEntry, FileCase, NodeEntry, OUTPUT};
use crate::generator::{file_case, Random};
use crate::interface::{Answer, Timestamp};
use crate::reference::{detections, latest, listing, Detection};

const PLAN_P: [u8; 28] = [0, 1, 0, 0, 0, 10, 0, 2, 0, 1, 0, 2, 0, 2, 0, 7, 0, 9, 0, 1, 3, 1, 0, 0, 0, 1, 255, 255];

fn passage_d() -> Vec<u8> {
    let event = |kind, logger, tick| EventEntry { kind, logger, tick };
    passage_bytes(&[event(7, 1, 80), event(7, 1, 95), event(9, 2, 110)])
}

pub fn answer(number: u64, place: u64, findings: u64, bytes: u64) -> Answer {
    Answer { number, place, findings, bytes }
}

/// What all write to an output of 0xee bytes.
fn work(plan: &[u8], passage: &[u8], output: &mut [u8]) -> Answer {
    let case = FileCase { plan: plan.to_vec(), passage: passage.to_vec(), output: output.len() };
    let (answer, memory) = agreed_work(&case, 0xeeee_eeee_eeee_eeee).expect("all agree");
    output.copy_from_slice(&memory[..output.len()]);
    answer
}

pub fn worked(plan: &[u8], passage: &[u8]) -> (Answer, Vec<Detection>) {
    let mut output = [0; OUTPUT];
    let answer = work(plan, passage, &mut output);
    (answer, detections(&output[..answer.bytes as usize]))
}

fn listed(name: &str) -> String {
    let all = examples();
    let example = all.iter().find(|example| example.name == name).expect("an example of that name");
    let mut output = [0; OUTPUT];
    let answer = work(&example.plan, &example.passage, &mut output);
    listing(&answer, &output)
}

fn last_line(name: &str) -> String {
    listed(name).lines().last().unwrap_or_default().to_string()
}

#[test]
fn plan_p_has_the_bytes_of_the_scope_document() {
    assert_eq!(plan_p(1).bytes(), PLAN_P);
}

#[test]
fn d1_to_d4() {
    let taken: [&[&[u64]]; 4] = [&[&[1, 2]], &[&[0, 2]], &[&[0, 2], &[1, 2]], &[&[0, 1, 2]]];
    for (context, event_lists) in (1..).zip(taken) {
        let (_, found) = worked(&plan_p(context).bytes(), &passage_d());
        let wanted: Vec<Detection> = event_lists
            .iter()
            .map(|events| Detection { node: 0, timestamps: vec![(2, 110)], events: events.to_vec() })
            .collect();
        assert_eq!(found, wanted, "D{context}");
    }
}

#[test]
fn d1_as_bytes_and_as_a_listing() {
    let mut output = [0xee; 40];
    assert_eq!(work(&PLAN_P, &passage_d(), &mut output), answer(0, 0, 1, 20));
    assert_eq!(output[..20], [0, 0, 0, 1, 0, 2, 0, 0, 0, 0, 0, 0, 0, 110, 0, 2, 0, 1, 0, 2]);
    assert_eq!(output[20..], [0xee; 20]);
    assert_eq!(listing(&answer(0, 0, 1, 20), &output), "node 0 at 2:110 from 1,2\nend 0 0 1 20\n");
    assert_eq!(listed("d1"), "node 0 at 2:110 from 1,2\nend 0 0 1 20\n");
}

#[test]
fn sixteen_wait_and_the_seventeenth_gives_31() {
    assert_eq!(listed("sixteen-wait"), "end 0 0 0 0\n");
    assert_eq!(listed("seventeenth-waits"), "end 31 16 0 0\n");
}

#[test]
fn eight_findings_pass_and_a_ninth_gives_32() {
    assert_eq!(last_line("eight-findings"), "end 0 0 8 160");
    assert_eq!(last_line("ninth-finding"), "end 32 9 8 160");
}

#[test]
fn output_of_19_bytes_gives_33_and_nothing_is_written() {
    let mut output = [0xee; 19];
    assert_eq!(work(&PLAN_P, &passage_d(), &mut output), answer(33, 2, 0, 0));
    assert_eq!(output, [0xee; 19]);
    let mut output = [0xee; 20];
    assert_eq!(work(&PLAN_P, &passage_d(), &mut output), answer(0, 0, 1, 20));
    assert_eq!(last_line("output-end"), "end 33 56 1820 32760");
}

/// What the listing programs lend is just enough for the one, and not for the other. Every finding has an even size, so
/// no passage tells 32,769 bytes from 32,768.
#[test]
fn output_of_32768_bytes_is_filled_and_two_more_give_33() {
    assert_eq!(last_line("output-exact"), "end 0 0 1819 32768");
    assert_eq!(last_line("output-two-over"), "end 33 115 1818 32724");
    let two_over = &examples().into_iter().find(|example| example.name == "output-two-over").expect("it is there");
    assert_eq!(work(&two_over.plan, &two_over.passage, &mut [0; OUTPUT + 2]), answer(0, 0, 1819, 32_770));
}

#[test]
fn a_finding_past_both_limits_gives_32() {
    let lefts: Vec<EventEntry> = (0..9).map(|i| EventEntry { kind: 7, logger: 1, tick: 80 + i }).collect();
    let passage = passage_bytes(&[lefts, vec![EventEntry { kind: 9, logger: 2, tick: 300 }]].concat());
    let mut output = [0; 160];
    assert_eq!(work(&plan_p(3).bytes(), &passage, &mut output), answer(32, 9, 8, 160));
    assert_eq!(work(&plan_p(3).bytes(), &passage, &mut output[..159]), answer(33, 9, 7, 140));
}

#[test]
fn empty_passages() {
    assert_eq!(worked(&PLAN_P, &[0, 0]).0, answer(0, 0, 0, 0));
    assert_eq!(worked(&PLAN_P, &[]).0, answer(21, 0, 0, 0));
    assert_eq!(worked(&[], &[]).0, answer(1, 0, 0, 0));
}

/// Plan P with the bytes from an offset on replaced.
fn altered(at: usize, bytes: &[u8]) -> Vec<u8> {
    let mut plan = PLAN_P.to_vec();
    plan[at..at + bytes.len()].copy_from_slice(bytes);
    plan
}

#[test]
fn plan_refusals() {
    let cases: [(usize, &[u8], u64, u64); 18] = [
        (0, &[0, 0], 2, 0),
        (0, &[0, 2], 2, 0),
        (2, &[0, 0, 0, 0], 3, 2),
        (2, &[0, 15, 66, 65], 3, 2),
        (6, &[0, 0], 4, 6),
        (6, &[0, 9], 4, 6),
        (10, &[0, 1], 5, 10),
        (12, &[0, 0], 6, 12),
        (12, &[0, 33], 6, 12),
        (16, &[0, 7], 7, 16),
        (18, &[0, 0], 8, 18),
        (18, &[0, 17], 8, 18),
        (20, &[0, 9], 9, 20),
        (20, &[7, 9], 9, 20),
        (21, &[5, 9], 10, 20),
        (22, &[0, 2], 11, 20),
        (24, &[128, 0], 11, 20),
        (26, &[0, 1], 41, 20),
    ];
    for (at, bytes, number, place) in cases {
        assert_eq!(worked(&altered(at, bytes), &passage_d()).0, answer(number, place, 0, 0), "{bytes:?} at {at}");
    }
    assert_eq!(worked(&[PLAN_P.to_vec(), vec![0]].concat(), &[]).0, answer(12, 28, 0, 0));
    assert_eq!(worked(&altered(18, &[0, 2]), &[]).0, answer(1, 28, 0, 0));
}

#[test]
fn a_cut_plan_gives_1_where_the_piece_begins() {
    let begins = [0, 2, 6, 8, 10, 12, 14, 16, 18, 20, 28];
    for end in 0..PLAN_P.len() {
        let place = begins.iter().rev().find(|begin| **begin <= end).copied().unwrap_or(0);
        assert_eq!(worked(&PLAN_P[..end], &passage_d()).0, answer(1, place as u64, 0, 0), "cut at {end}");
    }
}

#[test]
fn passage_refusals() {
    let cases: [(usize, &[u8], u64, u64); 6] = [
        (0, &[0, 129], 22, 0),
        (0, &[0, 4], 21, 38),
        (0, &[0, 2], 26, 26),
        (14, &[0, 8, 0, 8], 23, 14),
        (16, &[0, 3, 128], 24, 14),
        (30, &[128], 25, 26),
    ];
    for (at, bytes, number, place) in cases {
        let mut passage = passage_d();
        passage[at..at + bytes.len()].copy_from_slice(bytes);
        assert_eq!(worked(&PLAN_P, &passage).0, answer(number, place, 0, 0), "{bytes:?} at {at}");
    }
    for end in 0..passage_d().len() {
        let place = if end < 2 { 0 } else { end - (end - 2) % 12 };
        assert_eq!(worked(&PLAN_P, &passage_d()[..end]).0, answer(21, place as u64, 0, 0), "cut at {end}");
    }
}

#[test]
fn recent_keeps_those_taken_and_those_that_are_no_candidates() {
    let event = |kind, logger, tick| EventEntry { kind, logger, tick };
    let events = [event(7, 1, 80), event(7, 1, 95), event(7, 1, 200), event(9, 2, 110), event(9, 2, 300)];
    let (_, found) = worked(&plan_p(1).bytes(), &passage_bytes(&events));
    let events: Vec<&[u64]> = found.iter().map(|detection| &detection.events[..]).collect();
    assert_eq!(events, [&[1, 3], &[2, 4]]);
}

#[test]
fn both_inputs_may_be_the_same() {
    let mut plan = plan_p(2);
    plan.nodes = vec![NodeEntry::new(2, 2, &[0, 0])];
    let events = [EventEntry { kind: 7, logger: 1, tick: 80 }, EventEntry { kind: 7, logger: 1, tick: 81 }];
    let (_, found) = worked(&plan.bytes(), &passage_bytes(&events));
    let events: Vec<&[u64]> = found.iter().map(|detection| &detection.events[..]).collect();
    assert_eq!(events, [&[0][..], &[1]]);
}

#[test]
fn the_same_reports_in_two_orders() {
    let travel = "node 0 at 1:80,2:90 from 0,1\nnode 1 at 2:90,3:100 from 0,1,2\nnode 2 at 2:90,3:100 from 1,2\n\
                  node 3 at 2:90,3:100 from 0,1,2\nnode 4 at 4:125 from 2,3,4\nnode 5 at 4:125 from 0,1,2,4\n\
                  end 0 0 6 170\n";
    let late = "node 4 at 4:125 from 1,2\nnode 0 at 1:80,2:90 from 0,3\nnode 1 at 2:90,3:100 from 0,1,3\n\
                node 2 at 2:90,3:100 from 1,3\nnode 3 at 2:90,3:100 from 0,1,3\nend 0 0 5 144\n";
    assert_eq!(listed("bridge-travel"), travel);
    assert_eq!(listed("bridge-late"), late);
}

#[test]
fn knocks_between_a_rise_and_a_fall() {
    let travel = "node 0 at 1:125 from 0,1\nnode 0 at 2:131 from 0,2\nend 0 0 2 40\n";
    let late = "node 0 at 1:125 from 0,1\nnode 0 at 1:205 from 0,2\nend 0 0 2 40\n";
    assert_eq!([listed("knocks-travel"), listed("knocks-late")], [travel, late]);
}

#[test]
fn all_knocks_of_one_bending() {
    let travel = "node 0 at 3:180,4:186 from 4,5\nnode 1 at 3:180,4:186 from 0,1,2,3,4,5\nend 0 0 2 68\n";
    let late = "node 0 at 3:180,4:186 from 4,5\nnode 1 at 3:180,4:186 from 0,1,3,4,5\nend 0 0 2 66\n";
    assert_eq!([listed("gathered-travel"), listed("gathered-late")], [travel, late]);
}

#[test]
fn no_relief_between_two_axles() {
    let travel = "node 0 at 1:180 from 2,3\nend 0 0 1 20\n";
    let late = "node 0 at 1:140 from 0,1\nnode 0 at 1:180 from 1,3\nend 0 0 2 40\n";
    assert_eq!([listed("relief-travel"), listed("relief-late")], [travel, late]);
}

#[test]
fn limits_of_middles_and_faults_of_thirds() {
    let names = ["seventeenth-middle", "middles-leave", "middles-stay", "third-missing", "third-unwanted"];
    let wanted = ["end 31 16 0 0\n", "end 0 0 0 0\n", "end 31 17 0 0\n", "end 41 28 0 0\n", "end 41 28 0 0\n"];
    assert_eq!(names.map(listed), wanted);
}

/// The events' timestamps as the passage has them, with logger numbers in place of logger places.
fn of_events(passage: &[u8], events: &[u64]) -> Vec<(u64, u64)> {
    let big_endian = |bytes: &[u8]| bytes.iter().fold(0, |value, byte| value << 8 | u64::from(*byte));
    let entry = |i: &u64| &passage[2 + 12 * *i as usize..][..12];
    events.iter().map(entry).map(|bytes| (big_endian(&bytes[2..4]), big_endian(&bytes[4..]))).collect()
}

#[test]
fn every_finding_has_the_latest_timestamps_of_its_events() {
    for i in 0..3000 {
        let case = file_case(&mut Random::new(11, i));
        let (_, found) = worked(&case.plan, &case.passage);
        for detection in found {
            let ratio = u64::from(u32::from_be_bytes([case.plan[2], case.plan[3], case.plan[4], case.plan[5]]));
            let reported = of_events(&case.passage, &detection.events);
            let mut loggers: Vec<u64> = reported.iter().map(|(logger, _)| *logger).collect();
            loggers.sort();
            loggers.dedup();
            let place = |logger: &u64| loggers.iter().position(|other| other == logger).unwrap_or(255) as u8;
            let all: Vec<Timestamp> =
                reported.iter().map(|(l, tick)| Timestamp { logger: place(l), tick: *tick }).collect();
            let wanted: Vec<(u64, u64)> =
                latest(ratio, &all).iter().map(|s| (loggers[s.logger as usize], s.tick)).collect();
            assert_eq!(detection.timestamps, wanted, "{case:?}");
        }
    }
}
