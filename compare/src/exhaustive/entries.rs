//! Every node entry with fields on both sides of what is allowed, as the second node of a plan: which check turns it
//! back.

use super::passages::{LOGGERS, RATIO, THREE_KINDS};
use super::{Numbers, OUTPUT, PATTERN};
use crate::comparison::agreed_work;
use crate::files::{passage_bytes, EventEntry, FileCase, NodeEntry, PlanFile, NODE_INPUT, NO_INPUT, OR, RECENT};

const OPERATORS: u8 = 8;
const CONTEXTS: u8 = 6;
/// Kinds and what is past them, the node before, the node itself and what is past it.
const INPUTS: [u16; 8] = [0, 2, 3, NODE_INPUT - 1, NODE_INPUT, NODE_INPUT + 1, NO_INPUT - 1, NO_INPUT];
/// What the entries must be answered.
const WANTED: [u64; 5] = [0, 9, 10, 11, 41];

pub fn work_all() -> Result<Numbers, String> {
    let mut numbers = Numbers::new();
    for entry in entries() {
        let (answer, _) = agreed_work(&case_of(entry), PATTERN).map_err(|what| format!("DIFFERENCE\n{what}"))?;
        *numbers.entry(answer.number).or_default() += 1;
    }
    if numbers.keys().copied().eq(WANTED) {
        return Ok(numbers);
    }
    Err(format!("FAILED: node entries were answered {numbers:?}"))
}

pub fn entries() -> impl Iterator<Item = NodeEntry> {
    let inputs = INPUTS.len();
    let of_digits = move |number: usize| {
        let input = |place: u32| INPUTS[number / inputs.pow(place) % inputs];
        let rest = number / inputs.pow(3);
        let (operator, context) = (rest as u8 / CONTEXTS, rest as u8 % CONTEXTS);
        NodeEntry { operator, context, left: input(0), middle: input(1), third: input(2) }
    };
    (0..usize::from(OPERATORS) * usize::from(CONTEXTS) * inputs.pow(3)).map(of_digits)
}

/// Three reports, the last of which makes a finding under many entries.
fn case_of(entry: NodeEntry) -> FileCase {
    let nodes = vec![NodeEntry::new(OR, RECENT, &[0, 1]), entry];
    let plan = PlanFile { ratios: vec![RATIO], loggers: LOGGERS.to_vec(), kinds: THREE_KINDS.kinds.to_vec(), nodes };
    let event = |(kind, tick): (&u16, u64)| EventEntry { kind: *kind, logger: LOGGERS[0], tick };
    let events: Vec<EventEntry> = THREE_KINDS.kinds.iter().zip(10..).map(event).collect();
    FileCase { plan: plan.bytes(), passage: passage_bytes(&events), output: OUTPUT }
}
