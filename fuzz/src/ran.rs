//! What became of calls.

use crate::memory::counted;
use srm_bench::calls::{Calls, Setup};
use std::time::{Duration, Instant};

/// What a proved agent told, and what it took.
pub struct Ran {
    pub told: Vec<u64>,
    pub took: Duration,
    /// The most memory that the agent had at once, in bytes.
    pub most: i64,
}

/// Has one proved agent make all calls, with room for so many numbers.
pub fn run(calls: &Calls, setup: Setup, room: usize) -> Ran {
    let mut room = vec![0u64; room];
    let start = Instant::now();
    let (count, most, left) = counted(|| calls.proved(setup, &mut room));
    let took = start.elapsed();
    assert!(count < room.len(), "{} numbers are too few for what the agent told", room.len());
    assert_eq!(left, 0, "the agent gives back all memory");
    room.truncate(count);
    Ran { told: room, took, most }
}
