//! The rows of the table.

/// Nanoseconds per call, and how often longer the library takes for the whole than for half.
pub struct Row {
    pub label: String,
    pub library: f64,
    pub reference: f64,
    pub tuned: f64,
    /// The most times tuned that the library may take.
    pub aim: f64,
    /// From half the events or entries.
    pub by_events: Option<f64>,
    /// From half the nodes.
    pub by_nodes: Option<f64>,
}

pub fn print_heading() {
    println!("ns per call; aim: the most that lib/tuned should be");
    println!("x2: the library's time for all over its time for half of them");
    println!(
        "{:<36}{:>9}{:>10}{:>8}{:>10}{:>6}{:>8}{:>10}{:>9}",
        "", "library", "reference", "tuned", "lib/tuned", "aim", "lib/ref", "events x2", "nodes x2"
    );
}

impl Row {
    pub fn of_tuned(&self) -> f64 {
        self.library / self.tuned
    }

    pub fn of_reference(&self) -> f64 {
        self.library / self.reference
    }

    pub fn is_over(&self) -> bool {
        self.of_tuned() > self.aim
    }

    /// With a mark at its end where it is over its aim.
    pub fn print(&self) {
        let ratio = |times: Option<f64>| times.map_or("-".to_string(), |times| format!("{times:.2}"));
        println!(
            "{:<36}{:>9.0}{:>10.0}{:>8.0}{:>10.2}{:>6.2}{:>8.2}{:>10}{:>9}{}",
            self.label,
            self.library,
            self.reference,
            self.tuned,
            self.of_tuned(),
            self.aim,
            self.of_reference(),
            ratio(self.by_events),
            ratio(self.by_nodes),
            if self.is_over() { " *" } else { "" }
        );
    }
}
