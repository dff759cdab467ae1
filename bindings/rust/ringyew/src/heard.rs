//! What hearing and ticking return.
#![forbid(unsafe_code)]

use crate::sys;

/// Why a datagram was ignored. Nothing but the last moment changed then.
#[derive(Clone, Copy, Debug, PartialEq, Eq, Hash)]
#[non_exhaustive]
pub enum Cause {
    /// This member sent it.
    Own,
    /// This member has left.
    Gone,
    /// It has another stroke under a name that is held.
    Conflict,
    /// It names more pages than the table has slots left.
    PageLimit,
    /// It names a stroke past the last of a member that left, or of this member's own.
    BeyondFinal,
    /// It is no datagram of this session, by the fault with this number, 1 to 11.
    Decode(u8),
    /// Its sender, or a source that it names, isn't below `members`.
    Stranger,
    /// A cause that this version doesn't know.
    Other(u8),
}

/// What became of a datagram.
#[derive(Clone, Copy, Debug, PartialEq, Eq)]
pub struct Heard {
    /// Why it was ignored; `None` where it was taken.
    pub ignored: Option<Cause>,
    /// How many timers it set.
    pub timers: usize,
}

impl Heard {
    pub(crate) fn of(raw: sys::Heard) -> Heard {
        let ignored = match raw.cause {
            0 => None,
            1 => Some(Cause::Own),
            2 => Some(Cause::Gone),
            3 => Some(Cause::Conflict),
            4 => Some(Cause::PageLimit),
            5 => Some(Cause::BeyondFinal),
            6 => Some(Cause::Decode(raw.fault)),
            7 => Some(Cause::Stranger),
            other => Some(Cause::Other(other)),
        };
        Heard { ignored, timers: raw.timers }
    }
}

/// Whether a member takes part. It never goes back.
#[derive(Clone, Copy, Debug, PartialEq, Eq, Hash)]
pub enum State {
    /// It draws, asks and repairs.
    Active,
    /// It draws nothing new, but asks, repairs and sends what waits.
    Leaving,
    /// It sent its farewell. It hears and sends nothing.
    Gone,
}

impl State {
    pub(crate) fn of(number: i32) -> State {
        match number {
            1 => State::Active,
            2 => State::Leaving,
            _ => State::Gone,
        }
    }
}

/// What a tick did.
#[derive(Clone, Copy, Debug, PartialEq, Eq)]
pub struct Ticked {
    /// How many strokes it asked for, which [`Agent::requests`](crate::Agent::requests) names.
    pub requests: usize,
    /// How many it repaired, which [`Agent::repairs`](crate::Agent::repairs) names.
    pub repairs: usize,
    /// How many datagrams are to be sent, which [`Agent::datagrams`](crate::Agent::datagrams) has.
    pub datagrams: usize,
    /// Whether the member takes part after it.
    pub state: State,
}

impl Ticked {
    pub(crate) fn of(raw: sys::Ticked) -> Ticked {
        let sys::Ticked { requests, repairs, datagrams, state } = raw;
        Ticked { requests, repairs, datagrams, state: State::of(state.into()) }
    }
}
