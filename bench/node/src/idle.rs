//! How often a live member wakes that has nothing to do.

use crate::live;
use crate::live_member::LiveMember;
use crate::switches;
use std::path::Path;
use std::thread;
use std::time::{Duration, Instant};

/// How long members take to meet, at most: each speaks a second after it began.
pub const MEETING: Duration = Duration::from_secs(3);

/// How often all threads of a live member together wake in a second, while three members have nothing to do for so many seconds: of the member that wakes most.
pub fn wakes(program: &Path, seconds: usize) -> Result<f64, String> {
    let members = live::start(program, &[])?;
    thread::sleep(MEETING);
    let before = switches_of(&members)?;
    let begun = Instant::now();
    thread::sleep(Duration::from_secs(seconds as u64));
    let after = switches_of(&members)?;
    let passed = begun.elapsed().as_secs_f64();
    let most = after
        .into_iter()
        .zip(before)
        .map(|(after, before)| after - before)
        .max();
    Ok(most.unwrap_or(0) as f64 / passed)
}

fn switches_of(members: &[LiveMember]) -> Result<Vec<u64>, String> {
    members
        .iter()
        .map(|member| switches::of_process(member.pid()))
        .collect()
}
