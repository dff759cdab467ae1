//! In how many sessions each member gets all strokes though all leave, in simulated time: the sessions of `bench/linger/run`, by plain agents.
//!
//! Nothing here waits for a processor, so it runs beside other work, and prints the same each time.

// The plain agent does more than these sessions ask of it.
#![allow(dead_code, unused_imports)]

#[path = "../../src/datagram.rs"]
mod datagram;
#[path = "../../src/plain"]
mod plain {
    mod agent;
    mod bucket;
    mod feed;
    mod hearing;
    mod row;
    mod table;
    mod ticking;

    pub use agent::{Agent, Config, State};
}
mod member;
mod session;
mod staying;
#[path = "../../src/words.rs"]
mod words;

use session::{Ended, Given, run};
use std::process::ExitCode;

const USAGE: &str = "usage: cargo run --release -- [--members N] [--strokes N] [--loss PERCENT] [--sessions N] [--lingers SECONDS,..]";

/// What the command line asks for.
struct Asked {
    given: Given,
    sessions: u64,
    lingers: Vec<u64>,
}

fn read(words: &[String]) -> Option<Asked> {
    let given = Given { members: 8, strokes: 50, loss: 30, linger: 0 };
    let mut asked = Asked { given, sessions: 300, lingers: vec![2, 5, 6] };
    for pair in words.chunks(2) {
        let [option, value] = pair else { return None };
        match option.as_str() {
            "--members" => asked.given.members = value.parse().ok().filter(|count| (1..=32).contains(count))?,
            "--strokes" => asked.given.strokes = value.parse().ok().filter(|count| (1..=100).contains(count))?,
            "--loss" => asked.given.loss = value.parse().ok().filter(|percent| *percent < 100)?,
            "--sessions" => asked.sessions = value.parse().ok().filter(|count| *count > 0)?,
            "--lingers" => asked.lingers = value.split(',').map(|word| word.parse().ok()).collect::<Option<_>>()?,
            _ => return None,
        }
    }
    Some(asked)
}

/// The row of the table for one `--linger`.
fn row(linger: u64, all: &[Ended]) -> String {
    let mut seconds: Vec<f64> = all.iter().map(|ended| ended.lasted as f64 / 1e6).collect();
    seconds.sort_by(f64::total_cmp);
    let whole = all.iter().filter(|ended| ended.short == 0).count();
    let short: usize = all.iter().map(|ended| ended.short).sum();
    let (median, longest) = (seconds[seconds.len() / 2], seconds[seconds.len() - 1]);
    format!("| {linger} s | {whole} of {} | {short} | {median:.1} | {longest:.1} |", all.len())
}

fn main() -> ExitCode {
    let words: Vec<String> = std::env::args().skip(1).collect();
    let Some(Asked { given, sessions, lingers }) = read(&words) else {
        eprintln!("{USAGE}");
        return ExitCode::from(2);
    };
    println!("| `--linger` | Sessions in which each got all | Lists that were short | Seconds, median | longest |\n|---|---|---|---|---|");
    for linger in lingers {
        let given = Given { linger: linger * 1_000_000, ..given };
        let all: Vec<Ended> = (0..sessions).map(|number| run(given, number)).collect();
        println!("{}", row(linger, &all));
    }
    ExitCode::SUCCESS
}
