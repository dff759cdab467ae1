//! How long strokes take from being typed to being taken.

use crate::live;
use crate::spread::Spread;
use crate::strokes;
use std::path::Path;
use std::thread;
use std::time::{Duration, Instant};

/// Lines that are typed one by one, and how long between two.
const LINES: usize = 200;
const BETWEEN: Duration = Duration::from_millis(7);

/// How long so many strokes of so many bytes take that are typed at once to one of three members, until all three took all of them.
pub fn at_once(program: &Path, count: usize, bytes: usize) -> Result<Duration, String> {
    let mut members = live::start(program, &live::UNPACED)?;
    let text = strokes::lines(count, bytes);
    let begun = Instant::now();
    members[0].type_in(&text)?;
    Ok(live::await_all(&mut members, count)? - begun)
}

/// How long lines of so many bytes take that are typed one by one to one of three members, until both others took them.
pub fn one_by_one(program: &Path, bytes: usize) -> Result<Spread, String> {
    let mut members = live::start(program, &live::UNPACED)?;
    let line = strokes::lines(1, bytes);
    let mut durations = Vec::new();
    for _ in 0..LINES {
        thread::sleep(BETWEEN);
        let begun = Instant::now();
        members[0].type_in(&line)?;
        durations.push(live::await_all(&mut members[1..], 1)? - begun);
        live::await_all(&mut members[..1], 1)?;
    }
    Ok(Spread::of(durations))
}
