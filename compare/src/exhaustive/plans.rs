//! Every operator in every context, on the kinds and nested in others.

use super::passages::{Range, LOGGERS, RATIO, THREE_KINDS, TWO_KINDS};
use crate::files::{NodeEntry, PlanFile, ABSENCE, ACCUMULATED, AND, APERIODIC, NODE_INPUT, OR, SEQ};
use crate::files::{CHRONICLE, CONTINUOUS, CUMULATIVE, RECENT};

/// An operator and a context, which has no effect on OR.
type Form = (u8, u8);

const CONTEXTS: [u8; 4] = [RECENT, CHRONICLE, CONTINUOUS, CUMULATIVE];

const PAIR_FORMS: [Form; 9] = [
    (OR, RECENT),
    (AND, RECENT),
    (AND, CHRONICLE),
    (AND, CONTINUOUS),
    (AND, CUMULATIVE),
    (SEQ, RECENT),
    (SEQ, CHRONICLE),
    (SEQ, CONTINUOUS),
    (SEQ, CUMULATIVE),
];

/// The forms of two inputs side by side: on the two kinds, on one kind twice, with each form nested left and middle,
/// and with two nested.
pub fn pair_plans() -> Vec<PlanFile> {
    let mut plans = vec![pair_plan(&[], 0, 1), pair_plan(&[], 0, 0)];
    for inner in PAIR_FORMS {
        plans.push(pair_plan(&[inner], NODE_INPUT, 1));
        plans.push(pair_plan(&[inner], 0, NODE_INPUT));
    }
    plans.push(pair_plan(&[(AND, RECENT), (SEQ, CHRONICLE)], NODE_INPUT, NODE_INPUT + 1));
    plans
}

/// Nodes of the inner forms on the two kinds, then one node of each form on the inputs.
fn pair_plan(inner: &[Form], left: u16, middle: u16) -> PlanFile {
    let inner = inner.iter().map(|form| node(*form, &[0, 1]));
    plan(&TWO_KINDS, inner.chain(PAIR_FORMS.iter().map(|form| node(*form, &[left, middle]))).collect())
}

/// The forms of three inputs side by side: on the three kinds, on one kind twice, with a pair as each input, and with
/// each operator nested in every context. Last the forms of two inputs, with those of three nested.
pub fn interval_plans() -> Vec<PlanFile> {
    let two_the_same = [[0, 0, 1], [0, 1, 1], [0, 1, 0]];
    let nested = |place: u16| NODE_INPUT + place % 4;
    vec![
        interval_plan(&[], |_| [0, 1, 2]),
        interval_plan(&[], |place| two_the_same[usize::from(place) % 3]),
        interval_plan(&[node((AND, CONTINUOUS), &[0, 1])], |_| [NODE_INPUT, 1, 2]),
        interval_plan(&[node((AND, CONTINUOUS), &[0, 1])], |_| [0, NODE_INPUT, 2]),
        interval_plan(&[node((AND, CONTINUOUS), &[1, 2])], |_| [0, 1, NODE_INPUT]),
        interval_plan(&in_each_context(APERIODIC), |place| [nested(place), 1, 2]),
        interval_plan(&in_each_context(APERIODIC), |place| [0, 1, nested(place)]),
        interval_plan(&in_each_context(ACCUMULATED), |place| [0, nested(place), 2]),
        interval_plan(&in_each_context(ABSENCE), |place| [0, nested(place), 2]),
        interval_plan(&in_each_context(ABSENCE), |place| [0, 1, nested(place)]),
        mixed_plan(),
    ]
}

/// One node of each form of two inputs, whose left input is a node of three inputs.
fn mixed_plan() -> PlanFile {
    let forms = [(APERIODIC, RECENT), (ACCUMULATED, CHRONICLE), (ACCUMULATED, CUMULATIVE), (ABSENCE, CONTINUOUS)];
    let inner = forms.iter().map(|form| node(*form, &[0, 1, 2]));
    let outer = (0..).zip(PAIR_FORMS).map(|(place, form): (u16, Form)| node(form, &[NODE_INPUT + place % 4, 2]));
    plan(&THREE_KINDS, inner.chain(outer).collect())
}

fn in_each_context(operator: u8) -> [NodeEntry; 4] {
    CONTEXTS.map(|context| node((operator, context), &[0, 1, 2]))
}

/// The inner nodes, then one node of each form with the inputs of its place among them.
fn interval_plan(inner: &[NodeEntry], inputs: impl Fn(u16) -> [u16; 3]) -> PlanFile {
    let forms = [APERIODIC, ACCUMULATED, ABSENCE].into_iter().flat_map(|of| CONTEXTS.map(|context| (of, context)));
    let outer = (0..).zip(forms).map(|(place, form)| node(form, &inputs(place)));
    plan(&THREE_KINDS, inner.iter().copied().chain(outer).collect())
}

fn plan(range: &Range, nodes: Vec<NodeEntry>) -> PlanFile {
    PlanFile { ratios: vec![RATIO], loggers: LOGGERS.to_vec(), kinds: range.kinds.to_vec(), nodes }
}

fn node((operator, context): Form, inputs: &[u16]) -> NodeEntry {
    NodeEntry::new(operator, context, inputs)
}
