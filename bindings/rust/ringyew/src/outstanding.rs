//! What is outstanding of a member.
#![forbid(unsafe_code)]

use crate::agent::or_none;
use crate::heard::State;
use crate::sys;

/// What a member misses, when its timers expire, what waits to be sent, and whether it takes part.
#[derive(Clone, Copy, Debug, PartialEq, Eq)]
pub struct Outstanding {
    /// How many strokes are missing, of all sources and on all pages.
    pub missing: u32,
    /// When the first request timer expires, in microseconds; `None` where none runs, and so nothing is missing.
    pub next_request_at: Option<u64>,
    /// When the first repair timer expires, in microseconds; `None` where none runs.
    pub next_repair_at: Option<u64>,
    /// How many requests and repairs for the page shown wait until the rate lets them go.
    pub waiting_shown: usize,
    /// How many of the member's strokes wait until the rate lets them go.
    pub waiting_new: usize,
    /// How many requests and repairs for other pages wait.
    pub waiting_other: usize,
    /// Whether the member takes part.
    pub state: State,
}

impl Outstanding {
    pub(crate) fn of(raw: sys::Outstanding) -> Outstanding {
        Outstanding {
            missing: raw.missing,
            next_request_at: or_none(raw.next_request_at),
            next_repair_at: or_none(raw.next_repair_at),
            waiting_shown: raw.waiting_shown,
            waiting_new: raw.waiting_new,
            waiting_other: raw.waiting_other,
            state: State::of(raw.state.into()),
        }
    }
}
