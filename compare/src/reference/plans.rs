//! The plan file: clocks, loggers, kinds, nodes.

use super::reader::Reader;
use super::refusal::{require, Refusal};

/// What is added to a node's place where a node is an input.
pub const NODE_INPUT: u64 = 32_768;
/// What operators 1 to 3 carry in place of a third input.
const NO_INPUT: u64 = 65_535;

pub struct Node {
    pub operator: u64,
    pub context: u64,
    /// Left, middle and, of operators 4 to 6, third.
    pub inputs: Vec<u64>,
}

pub struct Plan {
    pub ratio: u64,
    pub loggers: Vec<u64>,
    pub kinds: Vec<u64>,
    pub nodes: Vec<Node>,
}

pub fn read_plan(bytes: &[u8]) -> Result<Plan, Refusal> {
    let reader = &mut Reader::new(bytes, 1);
    let ratio = read_clocks(reader)?;
    let loggers = read_rising(reader, 8, 4, 5)?;
    let kinds = read_rising(reader, 32, 6, 7)?;
    let nodes = read_nodes(reader, kinds.len() as u64)?;
    reader.end(12)?;
    Ok(Plan { ratio, loggers, kinds, nodes })
}

fn read_clocks(reader: &mut Reader) -> Result<u64, Refusal> {
    reader.count(1, 1, 2)?;
    let entry = reader.piece(4)?;
    let ratio = entry.integer(0, 4);
    require((1..=1_000_000).contains(&ratio), 3, entry.place)?;
    Ok(ratio)
}

/// A section of strictly rising numbers.
fn read_rising(reader: &mut Reader, most: u64, count_number: u64, entry_number: u64) -> Result<Vec<u64>, Refusal> {
    let count = reader.count(1, most, count_number)?;
    let mut numbers: Vec<u64> = Vec::new();
    for _ in 0..count {
        let entry = reader.piece(2)?;
        let number = entry.integer(0, 2);
        require(numbers.last().is_none_or(|last| number > *last), entry_number, entry.place)?;
        numbers.push(number);
    }
    Ok(numbers)
}

fn read_nodes(reader: &mut Reader, kinds: u64) -> Result<Vec<Node>, Refusal> {
    let count = reader.count(1, 16, 8)?;
    (0..count).map(|earlier| read_node(reader, kinds, earlier)).collect()
}

fn read_node(reader: &mut Reader, kinds: u64, earlier: u64) -> Result<Node, Refusal> {
    let entry = reader.piece(8)?;
    let is_input = |input| input < kinds || (NODE_INPUT..NODE_INPUT + earlier).contains(&input);
    let operator = entry.integer(0, 1);
    require((1..=6).contains(&operator), 9, entry.place)?;
    let context = entry.integer(1, 1);
    require((1..=4).contains(&context), 10, entry.place)?;
    let left = entry.integer(2, 2);
    require(is_input(left), 11, entry.place)?;
    let middle = entry.integer(4, 2);
    require(is_input(middle), 11, entry.place)?;
    let third = entry.integer(6, 2);
    if operator <= 3 {
        require(third == NO_INPUT, 41, entry.place)?;
        return Ok(Node { operator, context, inputs: vec![left, middle] });
    }
    require(is_input(third), 41, entry.place)?;
    Ok(Node { operator, context, inputs: vec![left, middle, third] })
}
