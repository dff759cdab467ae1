//! The table of how fast live members are, and how often an idle one wakes.

use crate::arguments::Arguments;
use crate::number::grouped;
use crate::spread::Spread;
use crate::{idle, moments, norm};
use std::time::Duration;

/// Strokes that are typed at once, and their bytes.
const STROKES: usize = 20_000;
const BYTES: usize = 30;

/// Prints it, with the aims.
pub fn print(arguments: &Arguments) -> Result<(), String> {
    println!(
        "Live members; sessions: {}; the median, the least and the greatest of them:\n",
        arguments.sessions
    );
    println!("| | node | NORM | aim |\n|---|---|---|---|");
    print_at_once(arguments)?;
    let line = moments::one_by_one(&arguments.program, BYTES)?;
    let [median, late] = [line.median, line.late].map(|it| it.as_secs_f64() * 1e3);
    println!(
        "| a single typed line: milliseconds until both others took it, median | {median:.2} | | at most 1 |"
    );
    println!("| the same: 99th of 100 | {late:.2} | | at most 3 |");
    let wakes = idle::wakes(&arguments.program, arguments.seconds)?;
    println!("| how often an idle member wakes in a second | {wakes:.1} | | at most 110 |\n");
    Ok(())
}

// Prints how long strokes take that are typed at once, and how many that is a second.
fn print_at_once(arguments: &Arguments) -> Result<(), String> {
    let mut node = Vec::new();
    let mut norm = Vec::new();
    for _ in 0..arguments.sessions {
        node.push(moments::at_once(&arguments.program, STROKES, BYTES)?);
        if let Some(peers) = &arguments.peers {
            norm.push(norm::run(peers, STROKES, BYTES)?.whole);
        }
    }
    let [node, norm] = [node, norm].map(cells);
    let strokes = grouped(STROKES as u64);
    println!(
        "| {strokes} strokes of {BYTES} bytes typed at once: seconds until all three took all | {} | {} | at most 0.6 |",
        node[0], norm[0]
    );
    println!(
        "| the same: messages a second | {} | {} | at least 50,000 |",
        node[1], norm[1]
    );
    Ok(())
}

// How many seconds all strokes took, and how many strokes that is a second. Nothing where nothing was measured.
fn cells(durations: Vec<Duration>) -> [String; 2] {
    if durations.is_empty() {
        return [const { String::new() }; 2];
    }
    let spread = Spread::of(durations);
    let [median, least, greatest] =
        [spread.median, spread.least, spread.greatest].map(|it| it.as_secs_f64());
    [
        format!("{median:.2} ({least:.2} to {greatest:.2})"),
        grouped((STROKES as f64 / median) as u64),
    ]
}
