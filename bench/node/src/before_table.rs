//! The table of what a message costs members of an older program and of this one.

use crate::arguments::Arguments;
use crate::cost_table::SIZES;
use crate::costs;
use crate::members::Session;
use std::path::Path;

/// Prints it. Sessions of both programs take turns, so that what else the machine does meets both alike.
pub fn print(arguments: &Arguments, before: &Path) -> Result<(), String> {
    println!(
        "Processor time in microseconds a message; sessions of each: {}; the median, the least and the greatest of them:\n",
        arguments.sessions
    );
    println!("| bytes | | before | now | more |\n|---|---|---|---|---|");
    for (bytes, strokes) in SIZES {
        let mut costs = [const { [const { Vec::new() }; 2] }; 2];
        for session in 0..arguments.sessions {
            for turn in 0..2 {
                let which = (session + turn) % 2;
                let session = Session {
                    program: [before, &arguments.program][which],
                    members: 3,
                    strokes,
                    bytes,
                };
                let ends = costs::at_both_ends(&costs::of_node(session, 1)?);
                for (end, each) in ends.into_iter().enumerate() {
                    costs[which][end].push(each.micros);
                }
            }
        }
        let [before, now] = costs.map(|ends| ends.map(Micros::of));
        for (end, name) in ["sender", "a receiver"].into_iter().enumerate() {
            let more = (now[end].median / before[end].median - 1.0) * 100.0;
            let [then, now] = [&before[end], &now[end]].map(Micros::cell);
            println!("| {bytes} | {name} | {then} | {now} | {more:.1}% |");
        }
    }
    Ok(())
}

// How microseconds are spread.
struct Micros {
    median: f64,
    least: f64,
    greatest: f64,
}

impl Micros {
    // Precondition: there is one at least.
    fn of(values: Vec<f64>) -> Micros {
        let mut values = values;
        values.sort_by(f64::total_cmp);
        let last = values.len() - 1;
        Micros {
            median: (values[last / 2] + values[last.div_ceil(2)]) / 2.0,
            least: values[0],
            greatest: values[last],
        }
    }

    fn cell(&self) -> String {
        format!(
            "{:.2} ({:.2} to {:.2})",
            self.median, self.least, self.greatest
        )
    }
}
