//! The files of examples/. Their README says what each one shows.

use crate::files::{passage_bytes, EventEntry, NodeEntry, PlanFile};
use crate::files::{ABSENCE, ACCUMULATED, AND, APERIODIC, NODE_INPUT, OR, OUTPUT, SEQ};
use crate::files::{CHRONICLE, CONTINUOUS, CUMULATIVE, RECENT};
use crate::reference;
use std::path::Path;
use std::{fs, io};

pub struct Example {
    pub name: &'static str,
    pub plan: Vec<u8>,
    pub passage: Vec<u8>,
}

/// Writes a folder for each example: its plan, its passage and its listing.
pub fn write_examples(folder: &Path) -> io::Result<()> {
    for example in examples() {
        let place = folder.join(example.name);
        fs::create_dir_all(&place)?;
        fs::write(place.join("listing"), listing_of(&example))?;
        fs::write(place.join("plan"), example.plan)?;
        fs::write(place.join("passage"), example.passage)?;
    }
    Ok(())
}

fn listing_of(example: &Example) -> String {
    let mut output = vec![0; OUTPUT];
    let answer = reference::work(&example.plan, &example.passage, &mut output);
    reference::listing(&answer, &output)
}

pub fn examples() -> Vec<Example> {
    let d = [at(7, 1, 80), at(7, 1, 95), at(9, 2, 110)];
    vec![
        example("d1", &plan_p(RECENT), &d),
        example("d2", &plan_p(CHRONICLE), &d),
        example("d3", &plan_p(CONTINUOUS), &d),
        example("d4", &plan_p(CUMULATIVE), &d),
        example("sixteen-wait", &plan_p(RECENT), &lefts(16)),
        example("seventeenth-waits", &plan_p(RECENT), &lefts(17)),
        example("eight-findings", &plan_p(CONTINUOUS), &[lefts(8), vec![at(9, 2, 300)]].concat()),
        example("ninth-finding", &plan_p(CONTINUOUS), &[lefts(9), vec![at(9, 2, 300)]].concat()),
        example("output-end", &crowded_plan(), &lefts(128)),
        example("output-exact", &filling_plan(), &filling_reports(13)),
        example("output-two-over", &filling_plan(), &filling_reports(14)),
        example("no-events", &plan_p(RECENT), &[]),
        Example { name: "no-bytes", plan: plan_p(RECENT).bytes(), passage: Vec::new() },
        example("bridge-travel", &bridge_plan(), &in_order(&bridge_reports(), &[0, 1, 2, 3, 4])),
        example("bridge-late", &bridge_plan(), &in_order(&bridge_reports(), &[0, 2, 4, 1, 3])),
        example("seventeenth-middle", &plan_of(ACCUMULATED, &[0, 1, 2]), &middles(17)),
        example("middles-leave", &plan_of(ACCUMULATED, &[0, 1, 2]), &middles_around_a_third()),
        example("middles-stay", &plan_of(ABSENCE, &[0, 1, 2]), &middles_around_a_third()),
        example("third-missing", &plan_of(APERIODIC, &[0, 1]), &[]),
        example("third-unwanted", &plan_of(SEQ, &[0, 1, 2]), &[]),
        example("knocks-travel", &plan_of(APERIODIC, &[0, 1, 2]), &in_order(&knock_reports(), &[0, 1, 2, 3, 4])),
        example("knocks-late", &plan_of(APERIODIC, &[0, 1, 2]), &in_order(&knock_reports(), &[0, 1, 4, 3, 2])),
        example("gathered-travel", &gathering_plan(), &in_order(&gathered_reports(), &[0, 1, 2, 3, 4, 5, 6])),
        example("gathered-late", &gathering_plan(), &in_order(&gathered_reports(), &[0, 3, 6, 1, 5, 4, 2])),
        example("relief-travel", &plan_of(ABSENCE, &[0, 1, 0]), &in_order(&relief_reports(), &[0, 1, 2, 3, 4, 5, 6])),
        example("relief-late", &plan_of(ABSENCE, &[0, 1, 0]), &in_order(&relief_reports(), &[0, 2, 1, 3, 4, 5, 6])),
    ]
}

fn example(name: &'static str, plan: &PlanFile, events: &[EventEntry]) -> Example {
    Example { name, plan: plan.bytes(), passage: passage_bytes(events) }
}

fn at(kind: u16, logger: u16, tick: u64) -> EventEntry {
    EventEntry { kind, logger, tick }
}

fn node(operator: u8, context: u8, left: u16, middle: u16) -> NodeEntry {
    NodeEntry::new(operator, context, &[left, middle])
}

/// The scope document's plan P with another context: kind 7, then kind 9.
pub fn plan_p(context: u8) -> PlanFile {
    PlanFile { ratios: vec![10], loggers: vec![1, 2], kinds: vec![7, 9], nodes: vec![node(SEQ, context, 0, 1)] }
}

/// Reports of kind 7, one for each tick from 80.
fn lefts(count: u64) -> Vec<EventEntry> {
    (0..count).map(|i| at(7, 1, 80 + i)).collect()
}

/// Sixteen nodes that each pass every report of kind 7 on twice.
fn crowded_plan() -> PlanFile {
    PlanFile { nodes: vec![node(OR, RECENT, 0, 0); 16], ..plan_p(RECENT) }
}

/// Nine nodes that each pass every report of kind 8 on twice: 18 findings of 18 bytes. The tenth puts all reports of
/// kind 7 together when kind 9 comes: one finding of 18 bytes, and two more for each of kind 7.
fn filling_plan() -> PlanFile {
    let (seven, eight, nine) = (0, 1, 2);
    let mut nodes = vec![node(OR, RECENT, eight, eight); 9];
    nodes.push(node(SEQ, CUMULATIVE, seven, nine));
    PlanFile { kinds: vec![7, 8, 9], nodes, ..plan_p(RECENT) }
}

/// The findings of 101 reports of kind 8 take 32,724 bytes. The last finding takes the other 44 of 32,768 where 13 of
/// kind 7 wait, and two bytes too many where 14 do.
fn filling_reports(sevens: u64) -> Vec<EventEntry> {
    let eights = (0..101).map(|i| at(8, 1, 100 + i)).collect();
    [lefts(sevens), eights, vec![at(9, 2, 300)]].concat()
}

/// A bridge of four spans: logger n and kind n are those of span n.
fn bridge_plan() -> PlanFile {
    let (one, two, three, four) = (0, 1, 2, 3);
    let nodes = vec![
        node(AND, CHRONICLE, one, two),
        node(AND, CHRONICLE, NODE_INPUT, three),
        node(AND, CHRONICLE, two, three),
        node(AND, CHRONICLE, one, NODE_INPUT + 2),
        node(SEQ, CUMULATIVE, three, four),
        node(SEQ, RECENT, NODE_INPUT + 1, four),
    ];
    PlanFile { ratios: vec![10], loggers: vec![1, 2, 3, 4], kinds: vec![1, 2, 3, 4], nodes }
}

/// The five reports of one lorry.
fn bridge_reports() -> [EventEntry; 5] {
    [at(1, 1, 80), at(2, 2, 90), at(3, 3, 100), at(3, 3, 104), at(4, 4, 125)]
}

/// Reports in the order of their arrival.
fn in_order(reports: &[EventEntry], order: &[usize]) -> Vec<EventEntry> {
    order.iter().map(|i| reports[*i]).collect()
}

/// One recent node on the kinds 1, 2 and 3, with four loggers.
fn plan_of(operator: u8, inputs: &[u16]) -> PlanFile {
    let nodes = vec![NodeEntry::new(operator, RECENT, inputs)];
    PlanFile { ratios: vec![10], loggers: vec![1, 2, 3, 4], kinds: vec![1, 2, 3, 4], nodes }
}

/// Reports of kind 2, one for each tick from 80.
fn middles(count: u64) -> Vec<EventEntry> {
    (0..count).map(|i| at(2, 1, 80 + i)).collect()
}

/// Sixteen of kind 2, one of kind 3 after them, and one more of kind 2.
fn middles_around_a_third() -> Vec<EventEntry> {
    [middles(16), vec![at(3, 1, 100), at(2, 1, 101)]].concat()
}

/// Kind 1 is a strain's rise, kind 2 a knock, kind 3 the strain's fall. Loggers 1 and 2 are on the two bearings, 3 is
/// the strain gauge.
fn knock_reports() -> [EventEntry; 5] {
    [at(1, 3, 100), at(2, 1, 125), at(2, 2, 131), at(3, 3, 180), at(2, 1, 205)]
}

/// The fall is that of both gauges together; the knocks between the rise and it make one finding.
fn gathering_plan() -> PlanFile {
    let (rise, knock, near_fall, far_fall) = (0, 1, 2, 3);
    let fall = node(AND, CHRONICLE, near_fall, far_fall);
    let gathered = NodeEntry::new(ACCUMULATED, CUMULATIVE, &[rise, knock, NODE_INPUT]);
    PlanFile { nodes: vec![fall, gathered], ..plan_of(OR, &[0, 0]) }
}

/// As `knock_reports`, and kind 4 is the fall at the far gauge, logger 4.
fn gathered_reports() -> [EventEntry; 7] {
    [at(1, 3, 100), at(2, 1, 125), at(2, 2, 131), at(2, 1, 158), at(3, 3, 180), at(4, 4, 186), at(2, 2, 205)]
}

/// Kind 1 is an axle at logger 1, kind 2 the relief of a strain at logger 2.
fn relief_reports() -> [EventEntry; 7] {
    [at(1, 1, 100), at(2, 2, 125), at(1, 1, 140), at(1, 1, 180), at(2, 2, 218), at(1, 1, 220), at(1, 1, 260)]
}
