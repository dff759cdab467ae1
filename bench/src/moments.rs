//! The proved moments by name.

unsafe extern "C" {
    fn srm_moments(names: u32, turns: u32, sets: bool) -> u64;
}

/// So many times a moment is found, or cleared and set.
pub const TURNS: u32 = 100_000;

/// Finds one name after the other among so many, and clears and sets its moment if it `sets` them.
pub fn turn(names: u32, sets: bool) -> u64 {
    // Sound: it takes numbers alone.
    let first = unsafe { srm_moments(names, TURNS, sets) };
    assert_ne!(first, u64::MAX, "memory ran out");
    first
}
