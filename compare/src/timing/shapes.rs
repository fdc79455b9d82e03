//! Plans and passages of a chosen size, all worked to their end.

use crate::files::{passage_bytes, EventEntry, FileCase, NodeEntry, PlanFile};
use crate::files::{ABSENCE, ACCUMULATED, AND, APERIODIC, NODE_INPUT, OR, OUTPUT, SEQ};
use crate::files::{CHRONICLE, CONTINUOUS, CUMULATIVE, RECENT};
use crate::generator::Random;
use crate::reference;

const PAIRS: usize = 16;
const LOGGERS: u16 = 4;
/// The most of a passage and of a plan.
pub const EVENTS: usize = 128;
pub const NODES: usize = 16;

#[derive(Clone, Copy, Debug, PartialEq, Eq)]
pub enum Kind {
    /// Most events reach no node.
    Sparse,
    /// A few nodes take each event; some wait, some make findings.
    Typical,
    /// Every event reaches every node, and what waits is soon consumed.
    Every,
    /// As typical, with nodes of one operator.
    Aperiodic,
    Accumulated,
    Absence,
    /// All six operators; every second node takes what the one before makes.
    Mixed,
}

impl Kind {
    pub const ALL: [Kind; 7] =
        [Kind::Sparse, Kind::Typical, Kind::Every, Kind::Aperiodic, Kind::Accumulated, Kind::Absence, Kind::Mixed];

    pub fn name(self) -> &'static str {
        match self {
            Kind::Sparse => "sparse",
            Kind::Typical => "typical",
            Kind::Every => "every",
            Kind::Aperiodic => "aperiodic",
            Kind::Accumulated => "accumulated",
            Kind::Absence => "absence",
            Kind::Mixed => "mixed",
        }
    }

    /// The numbers of events and of nodes that are timed.
    pub fn sizes(self) -> (&'static [usize], &'static [usize]) {
        match self {
            Kind::Sparse | Kind::Typical | Kind::Every => (&[1, 8, 32, 128], &[1, 4, 16]),
            Kind::Aperiodic | Kind::Accumulated | Kind::Absence => (&[8, 32, 128], &[4]),
            Kind::Mixed => (&[8, 32, 128], &[16]),
        }
    }

    /// How many kinds of event the plan lists, and how many of them nodes take. A middle of absence never leaves, so of
    /// each kind there may be 16 events in all.
    fn kinds(self) -> (u16, u16) {
        match self {
            Kind::Sparse => (32, 4),
            Kind::Typical | Kind::Aperiodic | Kind::Accumulated => (8, 8),
            Kind::Every => (2, 2),
            Kind::Absence | Kind::Mixed => (16, 16),
        }
    }

    fn operators(self) -> &'static [u8] {
        match self {
            Kind::Sparse | Kind::Typical | Kind::Every => &[OR, AND, AND, SEQ, SEQ],
            Kind::Aperiodic => &[APERIODIC],
            Kind::Accumulated => &[ACCUMULATED],
            Kind::Absence => &[ABSENCE],
            Kind::Mixed => &[OR, AND, SEQ, APERIODIC, ACCUMULATED, ABSENCE],
        }
    }

    /// Of so many nodes the last takes what the one before makes; 0: none does.
    fn fed(self) -> u16 {
        match self {
            Kind::Every => 0,
            Kind::Mixed => 2,
            _ => 4,
        }
    }
}

/// The entries of two files, of which a part can be taken.
pub struct Files {
    plan: PlanFile,
    events: Vec<EventEntry>,
}

/// Pairs of files of the most events and nodes that no limit ends. So no part of them meets one.
pub fn worked_files(kind: Kind) -> Vec<Files> {
    (0..).map(|i| files(&mut Random::new(1, i), kind)).filter(is_worked).take(PAIRS).collect()
}

fn is_worked(files: &Files) -> bool {
    let whole = files.part(EVENTS, NODES);
    reference::work(&whole.plan, &whole.passage, &mut vec![0; OUTPUT]).number == 0
}

impl Files {
    /// The first events, under a plan of the first nodes.
    pub fn part(&self, events: usize, nodes: usize) -> FileCase {
        let plan = PlanFile { nodes: self.plan.nodes[..nodes].to_vec(), ..self.plan.clone() };
        FileCase { plan: plan.bytes(), passage: passage_bytes(&self.events[..events]), output: OUTPUT }
    }
}

fn files(random: &mut Random, kind: Kind) -> Files {
    let (listed, taken) = kind.kinds();
    let nodes = (0..NODES as u16).map(|place| node(random, kind, place, taken)).collect();
    let plan = PlanFile { ratios: vec![10], loggers: (1..=LOGGERS).collect(), kinds: (1..=listed).collect(), nodes };
    let kinds = if kind == Kind::Every { balanced(random) } else { any_kinds(random, listed) };
    let event = |(i, kind): (u64, u16)| EventEntry {
        kind,
        logger: 1 + random.below(u64::from(LOGGERS)) as u16,
        tick: 80 + 20 * i + random.below(30),
    };
    let events = (0..).zip(kinds).map(event).collect();
    Files { plan, events }
}

/// Two or three kinds that follow each other; what the node before makes comes in place of the left one.
fn node(random: &mut Random, kind: Kind, place: u16, taken: u16) -> NodeEntry {
    let contexts = match kind {
        Kind::Every => &[CHRONICLE, CONTINUOUS, CUMULATIVE][..],
        _ => &[RECENT, CHRONICLE, CONTINUOUS, CUMULATIVE],
    };
    let is_fed = (place + 1).checked_rem(kind.fed()) == Some(0);
    let first = random.below(u64::from(taken)) as u16;
    let left = if is_fed { NODE_INPUT + place - 1 } else { first };
    let operator = random.pick(kind.operators());
    let inputs = [left, (first + 1) % taken, (first + 2) % taken];
    NodeEntry::of_three(operator, random.pick(contexts), inputs)
}

fn any_kinds(random: &mut Random, listed: u16) -> Vec<u16> {
    (0..EVENTS).map(|_| 1 + random.below(u64::from(listed)) as u16).collect()
}

/// One to three of one kind, then as many of the other, and so on.
fn balanced(random: &mut Random) -> Vec<u16> {
    let mut kinds = Vec::new();
    while kinds.len() < EVENTS {
        let count = random.between(1, 3) as usize;
        kinds.extend([1, 2].iter().flat_map(|kind| vec![*kind; count]));
    }
    kinds.truncate(EVENTS);
    kinds
}

#[cfg(test)]
mod tests {
    use super::{worked_files, EventEntry, Files, Kind, EVENTS, NODES, OUTPUT};
    use crate::reference;

    /// How many nodes take an event itself. Kind n has place n - 1.
    fn takers(files: &Files, event: &EventEntry) -> usize {
        files.plan.nodes.iter().filter(|node| node.inputs().contains(&(event.kind - 1))).count()
    }

    #[test]
    fn sparse_events_mostly_reach_no_node() {
        for files in worked_files(Kind::Sparse) {
            let idle = files.events.iter().filter(|event| takers(&files, event) == 0).count();
            assert!(idle > EVENTS * 3 / 4, "{idle}");
        }
    }

    #[test]
    fn typical_events_reach_a_few_nodes_and_make_findings() {
        for files in worked_files(Kind::Typical) {
            let taken: usize = files.events.iter().map(|event| takers(&files, event)).sum();
            assert!((2 * EVENTS..6 * EVENTS).contains(&taken), "{taken}");
            let whole = files.part(EVENTS, NODES);
            let answer = reference::work(&whole.plan, &whole.passage, &mut [0; OUTPUT]);
            assert!(answer.findings > 100, "{answer:?}");
        }
    }

    #[test]
    fn nodes_of_three_inputs_make_findings() {
        for kind in [Kind::Aperiodic, Kind::Accumulated, Kind::Absence, Kind::Mixed] {
            let nodes = kind.sizes().1[0];
            let parts = worked_files(kind).into_iter().map(|files| files.part(EVENTS, nodes));
            let answers = parts.map(|part| reference::work(&part.plan, &part.passage, &mut [0; OUTPUT]));
            let found: Vec<u64> = answers.map(|answer| answer.findings).collect();
            assert!(found.iter().all(|findings| *findings > 0), "{kind:?}: {found:?}");
            assert!(found.iter().sum::<u64>() > 100, "{kind:?}: {found:?}");
        }
    }

    #[test]
    fn every_event_reaches_every_node() {
        for files in worked_files(Kind::Every) {
            assert!(files.events.iter().all(|event| takers(&files, event) == NODES));
        }
    }
}
