//! The table of how long nodes go from one tick to the next.

use crate::arguments::Arguments;
use crate::feeding::Feed;
use crate::idle::MEETING;
use crate::live::{self, MEMBERS};
use crate::live_member::LiveMember;
use crate::number::grouped;
use crate::strokes;
use crate::ticks::{Counting, Ticks};
use std::path::PathBuf;
use std::thread;
use std::time::Duration;

/// Bytes of a stroke, and strokes that are typed at once.
const BYTES: usize = 30;
const STROKES: usize = 20_000;

/// Prints it, if members can count.
pub fn print(arguments: &Arguments) -> Result<(), String> {
    let Some(counting) = &arguments.counting else {
        return Ok(());
    };
    println!("From one tick of a node to its next, in milliseconds, of three live members:\n");
    println!("| | ticks | median | 99th of 100 | largest |\n|---|---|---|---|---|");
    print_idle(arguments, counting)?;
    for &pace in &arguments.paces {
        print_pace(arguments, counting, pace)?;
    }
    print_at_once(arguments, counting)?;
    println!();
    Ok(())
}

// Prints how long members take that have nothing to do.
fn print_idle(arguments: &Arguments, counting: &Counting) -> Result<(), String> {
    let _members = start(arguments, counting, &[])?;
    thread::sleep(MEETING);
    let before = ticks_of(counting)?;
    thread::sleep(Duration::from_secs(arguments.seconds as u64));
    print_row("idle", &ticks_of(counting)?.since(&before));
    Ok(())
}

// Prints how long they take while each draws so many strokes a second.
fn print_pace(arguments: &Arguments, counting: &Counting, pace: usize) -> Result<(), String> {
    let mut members = start(arguments, counting, &live::UNPACED)?;
    let feed = Feed {
        pace,
        bytes: BYTES,
        seconds: arguments.seconds,
    };
    let before = ticks_of(counting)?;
    feed.run(&mut members)?;
    let name = format!("each draws {} strokes a second", grouped(pace as u64));
    print_row(&name, &ticks_of(counting)?.since(&before));
    Ok(())
}

// Prints how long they take until all took what was typed to one of them at once.
fn print_at_once(arguments: &Arguments, counting: &Counting) -> Result<(), String> {
    let mut members = start(arguments, counting, &live::UNPACED)?;
    let before = ticks_of(counting)?;
    members[0].type_in(&strokes::lines(STROKES, BYTES))?;
    live::await_all(&mut members, STROKES)?;
    let name = format!("{} strokes typed at once to one", grouped(STROKES as u64));
    print_row(&name, &ticks_of(counting)?.since(&before));
    Ok(())
}

fn start(
    arguments: &Arguments,
    counting: &Counting,
    options: &[&str],
) -> Result<Vec<LiveMember>, String> {
    live::start_counting(&arguments.program, options, counting)
}

fn ticks_of(counting: &Counting) -> Result<Ticks, String> {
    let files: Vec<PathBuf> = (0..MEMBERS).map(|number| counting.file(number)).collect();
    Ticks::read(&files)
}

fn print_row(name: &str, ticks: &Ticks) {
    let [median, late, largest] =
        [50, 99, 100].map(|percent| ticks.longest_of(percent) as f64 / 1e3);
    println!(
        "| {name} | {} | {median:.2} | {late:.2} | {largest:.2} |",
        grouped(ticks.count())
    );
}
