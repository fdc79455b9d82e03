//! The plan, with tables of which nodes take what.

use super::fixed::Fixed;
use super::reader::{Fault, Reader};
use crate::files::{NODE_BYTES, NODE_INPUT, NO_INPUT};

#[derive(Clone, Copy)]
pub enum Operator {
    Or,
    And,
    Seq,
    Aperiodic,
    Accumulated,
    Absence,
}

#[derive(Clone, Copy, PartialEq, Eq)]
pub enum Context {
    Recent,
    Chronicle,
    Continuous,
    Cumulative,
}

/// Where the occurrences of an input come from: a kind has its place, a node NODE_SOURCE plus its place.
pub type Source = u8;
pub const NODE_SOURCE: Source = 32;
/// The third input of an operator that has none: nothing comes from there.
const NOWHERE: Source = 63;

#[derive(Clone, Copy)]
pub struct Node {
    pub operator: Operator,
    pub context: Context,
    /// Left, middle, third.
    pub inputs: [Source; 3],
}

pub struct Plan {
    pub ratio: u64,
    pub loggers: Fixed<u16, 8>,
    pub kinds: Fixed<u16, 32>,
    pub nodes: Fixed<Node, 16>,
    /// For each source, the set of nodes that take what comes from there.
    takers: [u16; 64],
}

impl Plan {
    #[inline]
    pub fn new() -> Self {
        let (loggers, kinds, nodes) = (Fixed::new(), Fixed::new(), Fixed::new());
        Plan { ratio: 1, loggers, kinds, nodes, takers: [0; 64] }
    }

    /// Fills a new plan from its file.
    pub fn read(&mut self, bytes: &[u8]) -> Result<(), Fault> {
        let reader = &mut Reader::new(bytes, 1);
        self.ratio = read_clocks(reader)?;
        read_rising(reader, &mut self.loggers, [4, 5])?;
        read_rising(reader, &mut self.kinds, [6, 7])?;
        for place in 0..reader.count(1, 16, 8)? {
            let node = read_node(reader, self.kinds.len() as u16, place)?;
            self.add_node(node);
        }
        reader.end(12)
    }

    fn add_node(&mut self, node: Node) {
        let itself = 1 << self.nodes.len();
        node.inputs.into_iter().for_each(|source| self.takers[usize::from(source)] |= itself);
        self.nodes.push(node);
    }

    #[inline]
    pub fn takers_of(&self, source: Source) -> u16 {
        self.takers[usize::from(source)]
    }
}

fn read_clocks(reader: &mut Reader) -> Result<u64, Fault> {
    reader.count(1, 1, 2)?;
    let place = reader.at;
    match u32::from_be_bytes(*reader.piece()?) {
        ratio @ 1..=1_000_000 => Ok(u64::from(ratio)),
        _ => Err(Fault { number: 3, place }),
    }
}

/// A section of rising numbers. The first number turns back its count, the second an entry.
fn read_rising<const N: usize>(
    reader: &mut Reader,
    numbers: &mut Fixed<u16, N>,
    [of_count, of_entry]: [u64; 2],
) -> Result<(), Fault> {
    for _ in 0..reader.count(1, N as u16, of_count)? {
        let place = reader.at;
        let number = u16::from_be_bytes(*reader.piece()?);
        if numbers.last().is_some_and(|last| number <= *last) {
            return Err(Fault { number: of_entry, place });
        }
        numbers.push(number);
    }
    Ok(())
}

fn read_node(reader: &mut Reader, kinds: u16, earlier: u16) -> Result<Node, Fault> {
    let place = reader.at;
    let [operator, context, l0, l1, m0, m1, third @ ..] = *reader.piece::<NODE_BYTES>()?;
    let operator = match operator {
        1 => Operator::Or,
        2 => Operator::And,
        3 => Operator::Seq,
        4 => Operator::Aperiodic,
        5 => Operator::Accumulated,
        6 => Operator::Absence,
        _ => return Err(Fault { number: 9, place }),
    };
    let context = match context {
        1 => Context::Recent,
        2 => Context::Chronicle,
        3 => Context::Continuous,
        4 => Context::Cumulative,
        _ => return Err(Fault { number: 10, place }),
    };
    let source = |bytes| source(u16::from_be_bytes(bytes), kinds, earlier);
    let (Some(left), Some(middle)) = (source([l0, l1]), source([m0, m1])) else {
        return Err(Fault { number: 11, place });
    };
    let third = match operator {
        Operator::Or | Operator::And | Operator::Seq => (third == NO_INPUT.to_be_bytes()).then_some(NOWHERE),
        Operator::Aperiodic | Operator::Accumulated | Operator::Absence => source(third),
    };
    let third = third.ok_or(Fault { number: 41, place })?;
    Ok(Node { operator, context, inputs: [left, middle, third] })
}

#[inline]
fn source(number: u16, kinds: u16, earlier: u16) -> Option<Source> {
    let node = number.wrapping_sub(NODE_INPUT);
    if number < kinds {
        Some(number as Source)
    } else if node < earlier {
        Some(NODE_SOURCE + node as Source)
    } else {
        None
    }
}
