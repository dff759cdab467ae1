//! Sessions of proved members, whose journals are put together.

// The allocator crosses as nothing.
unsafe extern "C" {
    fn srm_sessions(members: u8, turns: u32, mingles: bool, reconciles: bool) -> usize;
}

/// Members of each session.
pub const MEMBERS: u8 = 32;

/// What members of a session do.
#[derive(Clone, Copy, Debug, PartialEq, Eq)]
pub enum Kind {
    /// In each turn one draws, and all tick and give; of ten copies one is lost and one comes twice.
    Mingle,
    /// Two draw and hear each other by turns. All others hear nothing but what is sent last of all, so they wait for it from the first
    /// entry to the last.
    Talk,
}

/// Why a session has no count of entries.
#[derive(Clone, Copy, Debug, PartialEq, Eq)]
pub enum Fault {
    Memory,
    /// The journals don't fit together.
    Mismatch,
}

/// Has the members of a session make calls for so many turns, and puts their journals together if it `reconciles`. How many entries they
/// have, what was taken included.
pub fn play(kind: Kind, turns: u32, reconciles: bool) -> Result<usize, Fault> {
    const MEMORY: usize = usize::MAX;
    const MISMATCH: usize = usize::MAX - 1;
    // Sound: it takes numbers alone.
    match unsafe { srm_sessions(MEMBERS, turns, kind == Kind::Mingle, reconciles) } {
        MEMORY => Err(Fault::Memory),
        MISMATCH => Err(Fault::Mismatch),
        entries => Ok(entries),
    }
}
