//! A session of live members.

use crate::addresses;
use crate::live_member::LiveMember;
use crate::ticks::Counting;
use std::path::Path;
use std::thread;
use std::time::{Duration, Instant};

pub const MEMBERS: usize = 3;

/// Options of members whose rate holds nothing back.
pub const UNPACED: [&str; 4] = ["--rate", "100000000", "--depth", "1000000"];

/// How long members that have their sockets are left alone before anything is typed.
const REST: Duration = Duration::from_millis(500);

/// So long strokes may take, whatever goes wrong.
const LIMIT: Duration = Duration::from_secs(60);

/// Starts three members with these options, and lets them come to rest.
pub fn start(program: &Path, options: &[&str]) -> Result<Vec<LiveMember>, String> {
    start_all(program, options, None)
}

/// The same with members that count their ticks.
pub fn start_counting(
    program: &Path,
    options: &[&str],
    counting: &Counting,
) -> Result<Vec<LiveMember>, String> {
    start_all(program, options, Some(counting))
}

fn start_all(
    program: &Path,
    options: &[&str],
    counting: Option<&Counting>,
) -> Result<Vec<LiveMember>, String> {
    let addresses = addresses::free(MEMBERS);
    let mut members = (0..MEMBERS)
        .map(|number| LiveMember::start(program, number, &addresses, options, counting))
        .collect::<Result<Vec<_>, _>>()?;
    for member in &mut members {
        member.await_socket()?;
    }
    thread::sleep(REST);
    Ok(members)
}

/// Waits until each of these members took so many strokes more. When the last was taken.
pub fn await_all(members: &mut [LiveMember], count: usize) -> Result<Instant, String> {
    let mut last = None;
    for member in members {
        let taken = member.await_strokes(count, LIMIT);
        if taken.count < count {
            let what = format!("took {} of {count} strokes in {LIMIT:?}", taken.count);
            return Err(member.fault(&what));
        }
        last = last.max(Some(taken.last));
    }
    last.ok_or("there is no member".into())
}
