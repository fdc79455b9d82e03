//! Passages of up to 128 events under plans of up to 16 nodes.

use super::shapes::{worked_files, Files, Kind};
use super::{aims, best_times, Row, Task};
use crate::files::{FileCase, OUTPUT};
use crate::implementations::{Implementation, LIBRARY, REFERENCE, TUNED};
use std::hint::black_box;

pub fn time_files(kind: Kind) -> Vec<Row> {
    let files = worked_files(kind);
    let (events, nodes) = kind.sizes();
    let sizes = nodes.iter().flat_map(|nodes| events.iter().map(move |events| (*events, *nodes)));
    sizes.map(|(events, nodes)| time_size(kind, &files, events, nodes)).collect()
}

fn time_size(kind: Kind, files: &[Files], events: usize, nodes: usize) -> Row {
    let parts = |events, nodes| files.iter().map(|files| files.part(events, nodes)).collect::<Vec<FileCase>>();
    let whole = parts(events, nodes);
    let half_of_events = parts(events / 2, nodes);
    let half_of_nodes = parts(events, (nodes / 2).max(1));
    let [library, library_again, reference, tuned] = [LIBRARY, LIBRARY, REFERENCE, TUNED].map(working);
    let output = &mut [0; OUTPUT];
    // The reference, whose turns are the longest, comes before each of the others: so all find the machine alike.
    let between = || Task { call: &reference, cases: &whole };
    let [library, of_reference, tuned, _] = best_times(
        [Task { call: &library, cases: &whole }, between(), Task { call: &tuned, cases: &whole }, between()],
        output,
    );
    let [events_half, _, nodes_half, _] = best_times(
        [
            Task { call: &library_again, cases: &half_of_events },
            between(),
            Task { call: &library_again, cases: &half_of_nodes },
            between(),
        ],
        output,
    );
    Row {
        label: format!("work {:<11} {events:>3} events {nodes:>2} nodes", kind.name()),
        library,
        reference: of_reference,
        tuned,
        aim: aims::of_files(kind, events),
        by_events: (events > 1).then(|| library / events_half),
        by_nodes: (nodes > 1).then(|| library / nodes_half),
    }
}

fn working(of: Implementation) -> impl Fn(&FileCase, &mut [u8]) {
    move |case, output| {
        black_box((of.work)(&case.plan, &case.passage, output));
    }
}
