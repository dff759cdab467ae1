//! Why a call is refused.
#![forbid(unsafe_code)]

use crate::sys;
use std::fmt;

/// Why a call is refused. The agent, and what it has to be sent and given, or the room or the guard are then as before.
#[derive(Clone, Copy, Debug, PartialEq, Eq, Hash)]
#[non_exhaustive]
pub enum Error {
    /// The member is leaving: it draws nothing new.
    Leaving,
    /// The member has left.
    Gone,
    /// The page isn't in the table, and the table has no slot for another.
    PageLimit,
    /// The member drew [`STROKES_MAX`](crate::STROKES_MAX) strokes on the page.
    StreamFull,
    /// The stroke has more than [`BODY_MAX`](crate::BODY_MAX) bytes.
    BodyLong,
    /// Out of memory. Make the same call again later, or let it be.
    Memory,
    /// A moment is past [`MOMENT_MAX`](crate::MOMENT_MAX).
    Moment,
    /// A slot is past 7.
    Slot,
    /// A setting is out of its range, or `me` isn't below `members`.
    Config,
    /// The buffer is too short for what it is to have, which has so many bytes: a datagram stays the next.
    Buffer(usize),
    /// The page's creator is past 31.
    Page,
    /// A member is past 31, or the room has no such member.
    Member,
    /// The key has fewer than [`KEY_MIN`](crate::KEY_MIN) bytes, or more than [`KEY_MAX`](crate::KEY_MAX).
    Key,
    /// Nobody with the key sealed the bytes for this member.
    Untagged,
    /// Nobody did, but an older version tagged them by this key.
    Older,
    /// The bytes came before, or so late that this can't be told.
    Again,
    /// All counters to the member were used.
    Counters,
    /// A code that this version doesn't know.
    Other(i32),
}

impl Error {
    pub(crate) fn of(code: i32) -> Error {
        match code {
            1 => Error::Leaving,
            2 => Error::Gone,
            3 => Error::PageLimit,
            4 => Error::StreamFull,
            5 => Error::BodyLong,
            6 => Error::Memory,
            17 => Error::Moment,
            18 => Error::Slot,
            19 => Error::Config,
            22 => Error::Page,
            26 => Error::Member,
            28 => Error::Key,
            29 => Error::Untagged,
            30 => Error::Older,
            31 => Error::Again,
            32 => Error::Counters,
            other => Error::Other(other),
        }
    }

    /// The number of `enum srm_code` in `srm.h`.
    pub fn code(self) -> i32 {
        match self {
            Error::Leaving => 1,
            Error::Gone => 2,
            Error::PageLimit => 3,
            Error::StreamFull => 4,
            Error::BodyLong => 5,
            Error::Memory => 6,
            Error::Moment => 17,
            Error::Slot => 18,
            Error::Config => 19,
            Error::Buffer(_) => sys::BUFFER,
            Error::Page => 22,
            Error::Member => 26,
            Error::Key => 28,
            Error::Untagged => 29,
            Error::Older => 30,
            Error::Again => 31,
            Error::Counters => 32,
            Error::Other(code) => code,
        }
    }
}

impl fmt::Display for Error {
    fn fmt(&self, f: &mut fmt::Formatter<'_>) -> fmt::Result {
        f.write_str(sys::describe(self.code()))
    }
}

impl std::error::Error for Error {}
