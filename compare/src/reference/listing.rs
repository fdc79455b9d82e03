//! The listing of findings, read back from the output bytes.

use super::reader::Reader;
use super::refusal::Refusal;
use crate::interface::Answer;

/// A detection as it is written: logger numbers, not places.
#[derive(Debug, PartialEq, Eq)]
pub struct Detection {
    pub node: u64,
    pub timestamps: Vec<(u64, u64)>,
    pub events: Vec<u64>,
}

/// The findings in the bytes written.
pub fn detections(written: &[u8]) -> Vec<Detection> {
    let reader = &mut Reader::new(written, 0);
    let mut list = Vec::new();
    while reader.end(0).is_err() {
        list.push(read_detection(reader).expect("findings are written whole"));
    }
    list
}

fn read_detection(reader: &mut Reader) -> Result<Detection, Refusal> {
    let node = reader.piece(2)?.integer(0, 2);
    let (mut timestamps, mut events) = (Vec::new(), Vec::new());
    for _ in 0..reader.piece(2)?.integer(0, 2) {
        let entry = reader.piece(10)?;
        timestamps.push((entry.integer(0, 2), entry.integer(2, 8)));
    }
    for _ in 0..reader.piece(2)?.integer(0, 2) {
        events.push(reader.piece(2)?.integer(0, 2));
    }
    Ok(Detection { node, timestamps, events })
}

pub fn listing(answer: &Answer, output: &[u8]) -> String {
    let mut text = String::new();
    for detection in detections(&output[..answer.bytes as usize]) {
        let timestamps: Vec<String> = detection.timestamps.iter().map(|(l, t)| format!("{l}:{t}")).collect();
        let events: Vec<String> = detection.events.iter().map(u64::to_string).collect();
        text += &format!("node {} at {} from {}\n", detection.node, timestamps.join(","), events.join(","));
    }
    text + &format!("end {} {} {} {}\n", answer.number, answer.place, answer.findings, answer.bytes)
}
