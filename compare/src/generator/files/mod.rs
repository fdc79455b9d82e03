//! Plans and passages: valid ones, ones at the limits, and spoilt ones.

mod intervals;
mod spoilt;
mod valid;

use super::random::Random;
use crate::files::{passage_bytes, FileCase, OUTPUT};
use crate::reference;
use spoilt::{spoil_bytes, spoil_events, spoil_plan};
use valid::{any_events, any_plan, valid_files};

pub fn file_case(random: &mut Random) -> FileCase {
    let (mut plan, mut events) = valid_files(random);
    while random.one_in(5) {
        spoil_plan(random, &mut plan);
    }
    while random.one_in(8) {
        spoil_events(random, &mut events);
    }
    let mut case = FileCase { plan: plan.bytes(), passage: passage_bytes(&events), output: 0 };
    if random.one_in(6) {
        spoil_bytes(random, &mut case);
    }
    case.output = output_length(random, &case);
    case
}

/// One small valid pair with findings: cut at every byte, each byte garbled, bytes left over, and every output length
/// up to past its end.
pub fn swept_cases(random: &mut Random) -> Vec<FileCase> {
    let valid = small_case(random);
    let mut cases = vec![valid.clone()];
    cases.extend(forms(&valid.plan).into_iter().map(|plan| FileCase { plan, ..valid.clone() }));
    cases.extend(forms(&valid.passage).into_iter().map(|passage| FileCase { passage, ..valid.clone() }));
    let end = *detection_ends(&valid).last().unwrap_or(&0);
    cases.extend((0..end + 4).map(|output| FileCase { output, ..valid.clone() }));
    cases
}

fn small_case(random: &mut Random) -> FileCase {
    loop {
        let plan = any_plan(random, 4);
        let passage = passage_bytes(&any_events(random, &plan, 8));
        let case = FileCase { plan: plan.bytes(), passage, output: 1000 };
        if !detection_ends(&case).is_empty() {
            return case;
        }
    }
}

/// A file cut at every byte, each of its bytes garbled, and with up to 13 bytes left over.
fn forms(file: &[u8]) -> Vec<Vec<u8>> {
    let mut forms: Vec<Vec<u8>> = (0..file.len()).map(|end| file[..end].to_vec()).collect();
    forms.extend((0..file.len()).flat_map(|at| garbled(file, at)));
    forms.extend((1..14).map(|more| [file, &vec![0; more]].concat()));
    forms
}

fn garbled(bytes: &[u8], at: usize) -> Vec<Vec<u8>> {
    let old = bytes[at];
    let values = [0, 1, old ^ 1, old ^ 0x80, old.wrapping_add(1), old.wrapping_sub(1), 0xff];
    let with = |value: &u8| [&bytes[..at], &[*value], &bytes[at + 1..]].concat();
    values.iter().map(with).collect()
}

/// Where each detection ends in an output that is long enough.
fn detection_ends(case: &FileCase) -> Vec<usize> {
    let mut output = vec![0; 65_536];
    let answer = reference::work(&case.plan, &case.passage, &mut output);
    let mut end = 0;
    let found = reference::detections(&output[..answer.bytes as usize]);
    let size = |detection: &reference::Detection| 6 + 10 * detection.timestamps.len() + 2 * detection.events.len();
    found
        .iter()
        .map(|detection| {
            end += size(detection);
            end
        })
        .collect()
}

/// The listing's length, any small one, or one byte around the end of a detection.
fn output_length(random: &mut Random, case: &FileCase) -> usize {
    match random.below(8) {
        0 => random.below(64) as usize,
        1 => random.below(800) as usize,
        2 | 3 => {
            let mut ends = detection_ends(case);
            ends.push(1);
            let most = ends.len().min(40);
            random.pick(&ends[..most]) + random.below(3) as usize - 1
        }
        _ => OUTPUT,
    }
}
