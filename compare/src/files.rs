//! Plan and passage files as lists of entries, and their bytes. Each count is that of the entries held.

use std::fmt;

/// How many output bytes the listing programs lend.
pub const OUTPUT: usize = 32_768;
/// What is added to a node's place where a node is an input.
pub const NODE_INPUT: u16 = 32_768;
/// What stands in place of a third input where the operator has none.
pub const NO_INPUT: u16 = 65_535;
/// The bytes of a node's entry.
pub const NODE_BYTES: usize = 8;
pub const OR: u8 = 1;
pub const AND: u8 = 2;
pub const SEQ: u8 = 3;
pub const APERIODIC: u8 = 4;
pub const ACCUMULATED: u8 = 5;
pub const ABSENCE: u8 = 6;
pub const RECENT: u8 = 1;
pub const CHRONICLE: u8 = 2;
pub const CONTINUOUS: u8 = 3;
pub const CUMULATIVE: u8 = 4;

#[derive(Clone, Copy, Debug)]
pub struct NodeEntry {
    pub operator: u8,
    pub context: u8,
    pub left: u16,
    pub middle: u16,
    pub third: u16,
}

impl NodeEntry {
    /// A node of an operator of two inputs, or of one of three.
    pub fn new(operator: u8, context: u8, inputs: &[u16]) -> NodeEntry {
        let third = inputs.get(2).copied().unwrap_or(NO_INPUT);
        NodeEntry { operator, context, left: inputs[0], middle: inputs[1], third }
    }

    /// A node of the first two inputs or, where the operator has a third, of all.
    pub fn of_three(operator: u8, context: u8, inputs: [u16; 3]) -> NodeEntry {
        NodeEntry::new(operator, context, if operator <= SEQ { &inputs[..2] } else { &inputs })
    }

    /// The nodes of a plan that is allowed.
    pub fn all_of(plan: &[u8]) -> Vec<NodeEntry> {
        let two = |at: usize| u16::from_be_bytes([plan[at], plan[at + 1]]);
        let kinds_at = 8 + 2 * usize::from(two(6));
        let nodes_at = kinds_at + 4 + 2 * usize::from(two(kinds_at));
        let node = |at: usize| NodeEntry::new(plan[at], plan[at + 1], &[2, 4, 6].map(|from| two(at + from)));
        (nodes_at..plan.len()).step_by(NODE_BYTES).map(node).collect()
    }

    /// Left, middle and, where the operator has one, third.
    pub fn inputs(&self) -> Vec<u16> {
        let third = (self.third != NO_INPUT).then_some(self.third);
        [self.left, self.middle].into_iter().chain(third).collect()
    }

    fn bytes(&self) -> [u8; NODE_BYTES] {
        let [[l0, l1], [m0, m1], [t0, t1]] = [self.left, self.middle, self.third].map(u16::to_be_bytes);
        [self.operator, self.context, l0, l1, m0, m1, t0, t1]
    }
}

#[derive(Clone)]
pub struct PlanFile {
    pub ratios: Vec<u32>,
    pub loggers: Vec<u16>,
    pub kinds: Vec<u16>,
    pub nodes: Vec<NodeEntry>,
}

#[derive(Clone, Copy)]
pub struct EventEntry {
    pub kind: u16,
    pub logger: u16,
    pub tick: u64,
}

/// The two files of one call, and how many output bytes are lent.
#[derive(Clone)]
pub struct FileCase {
    pub plan: Vec<u8>,
    pub passage: Vec<u8>,
    pub output: usize,
}

impl PlanFile {
    pub fn bytes(&self) -> Vec<u8> {
        let mut bytes = count(self.ratios.len());
        bytes.extend(self.ratios.iter().flat_map(|ratio| ratio.to_be_bytes()));
        for numbers in [&self.loggers, &self.kinds] {
            bytes.extend(count(numbers.len()));
            bytes.extend(numbers.iter().flat_map(|number| number.to_be_bytes()));
        }
        bytes.extend(count(self.nodes.len()));
        bytes.extend(self.nodes.iter().flat_map(NodeEntry::bytes));
        bytes
    }
}

pub fn passage_bytes(events: &[EventEntry]) -> Vec<u8> {
    let mut bytes = count(events.len());
    for event in events {
        bytes.extend(event.kind.to_be_bytes());
        bytes.extend(event.logger.to_be_bytes());
        bytes.extend(event.tick.to_be_bytes());
    }
    bytes
}

fn count(entries: usize) -> Vec<u8> {
    (entries as u16).to_be_bytes().to_vec()
}

fn hexadecimal(bytes: &[u8]) -> String {
    bytes.iter().map(|byte| format!("{byte:02X}")).collect()
}

impl fmt::Debug for FileCase {
    fn fmt(&self, f: &mut fmt::Formatter<'_>) -> fmt::Result {
        writeln!(f, "plan:    {}", hexadecimal(&self.plan))?;
        writeln!(f, "passage: {}", hexadecimal(&self.passage))?;
        write!(f, "output bytes lent: {}", self.output)
    }
}
