//! The table of what is lost while three members draw at a steady pace.

use crate::arguments::Arguments;
use crate::feeding::Feed;
use crate::losses::{self, Losses};
use crate::number::grouped;

/// Bytes of a stroke.
const BYTES: usize = 30;

/// Prints it, and on standard error what came of each run.
pub fn print(arguments: &Arguments) -> Result<(), String> {
    let (runs, seconds) = (arguments.runs, arguments.seconds);
    println!(
        "Three live members draw strokes of {BYTES} bytes at a steady pace; runs: {runs}, seconds of each: {seconds}:\n"
    );
    println!(
        "| strokes a second, each | datagrams a second, all | datagrams lost | of those, at the sockets | runs with a loss | strokes lacked at the end |"
    );
    println!("|---|---|---|---|---|---|");
    for &pace in &arguments.paces {
        let feed = Feed {
            pace,
            bytes: BYTES,
            seconds,
        };
        print_pace(arguments, feed)?;
    }
    Ok(())
}

// Prints what was lost at a pace.
fn print_pace(arguments: &Arguments, feed: Feed) -> Result<(), String> {
    let runs = arguments.runs;
    let mut all = Losses::default();
    let mut with_loss = 0;
    for run in 1..=runs {
        let losses = losses::count(&arguments.program, feed)?;
        with_loss += usize::from(losses.lost() > 0);
        all = all.and(losses);
        eprintln!(
            "bench/node: {} a second, run {run} of {runs}: {}",
            feed.pace,
            told(losses)
        );
    }
    println!(
        "| {} | {} | {} of {} | {} | {with_loss} of {runs} | {} of {} |",
        grouped(feed.pace as u64),
        grouped((all.sent as f64 / all.seconds) as u64),
        grouped(all.lost()),
        grouped(all.sent),
        grouped(all.dropped),
        grouped(all.lacked),
        grouped(all.strokes)
    );
    Ok(())
}

// What came of a run, in words.
fn told(losses: Losses) -> String {
    format!(
        "lost {} of {} datagrams, lacked {} of {} strokes at the end",
        losses.lost(),
        losses.sent,
        losses.lacked,
        losses.strokes
    )
}
