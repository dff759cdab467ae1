//! The figures of the paper of 1997, and one of how long losses last, by groups of proved agents: points as CSV, and plots as SVG.
//!
//! `srm-figures TOP` writes them into the repository whose top is the folder TOP; `srm-figures TOP --stored` writes nothing, and compares them
//! with what stands there. `--seed N` is for other random numbers than those of the stored figures.

mod cost;
mod figure;
mod figures;
mod files;
mod parallel;
mod plot;
mod point;
mod recovered;
mod session;
mod shapes;
mod table;
#[cfg(test)]
mod tests;
mod thousandths;
mod timing;
mod tree;

use figure::Figure;
use figures::{chain, distance, recovery, sparse, star, trees, waits};
use files::{Report, Way};
use std::path::Path;
use std::process::ExitCode;

/// The seed of the stored figures.
const SEED: u32 = 1997;

fn main() -> ExitCode {
    let words: Vec<String> = std::env::args().skip(1).collect();
    let words: Vec<&str> = words.iter().map(String::as_str).collect();
    let (top, seed, way) = match words[..] {
        [top] => (top, Some(SEED), Way::Write),
        [top, "--stored"] => (top, Some(SEED), Way::Compare),
        [top, "--seed", seed] => (top, seed.parse().ok(), Way::Write),
        _ => ("", None, Way::Compare),
    };
    let Some(seed) = seed else {
        eprintln!("srm-figures TOP [--stored | --seed N]");
        return ExitCode::from(2);
    };
    let mut report = Report::new(Path::new(top), way);
    for make in [chain::figure, star::figure, trees::figure, sparse::figure, distance::figure, recovery::figure] {
        report.add(&make(seed));
    }
    report.add(&waits_of(Path::new(top)));
    report.end()
}

/// The table of waits beside the page that has it.
fn waits_of(top: &Path) -> Figure {
    waits::figure(&std::fs::read_to_string(top.join("docs/PROTOCOL.md")).unwrap_or_default())
}
