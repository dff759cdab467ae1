//! The settings of a member.
#![forbid(unsafe_code)]

use crate::sys;

/// The settings of a member. Most take [`Config::new`], or all but one of it:
///
/// ```
/// use ringyew::Config;
///
/// let config = Config { rate: 100_000, ..Config::new(0, 2, 7) };
/// ```
#[derive(Clone, Copy, Debug, PartialEq, Eq)]
pub struct Config {
    /// This member, below `members`.
    pub me: u8,
    /// How many members there are, 1 to 32.
    pub members: u8,
    /// The session's number, which all its datagrams carry.
    pub session: u32,
    /// Bytes a second that may be sent, 1 to 100,000,000; by default 8,000.
    pub rate: u32,
    /// Bytes of the token bucket, 1,051 to 1,000,000; by default 4,204.
    pub depth: u32,
    /// A request waits at least so many distances, 0 to 16; by default 2.
    pub c1: u8,
    /// And so many more at most, 0 to 16; by default 2.
    pub c2: u8,
    /// A repair waits at least so many distances, 0 to 16; by default 1.
    pub d1: u8,
    /// And so many more at most, 0 to 16; by default 1.
    pub d2: u8,
    /// A distance to another member counts as at least so many microseconds, 1 to 10,000,000; by default 1, which is no floor. 5,000 suits
    /// members on one machine.
    pub least_distance: u64,
}

impl Config {
    /// The settings of member `me` of so many, with the defaults for the rest. [`Agent::new`](crate::Agent::new) says whether they are in range.
    pub fn new(me: u8, members: u8, session: u32) -> Config {
        Config { me, members, session, ..Config::of(sys::defaults()) }
    }

    pub(crate) fn of(raw: sys::Config) -> Config {
        let sys::Config { size: _, session, rate, depth, me, members, c1, c2, d1, d2, least_distance } = raw;
        Config { me, members, session, rate, depth, c1, c2, d1, d2, least_distance }
    }

    pub(crate) fn raw(&self) -> sys::Config {
        let Config { me, members, session, rate, depth, c1, c2, d1, d2, least_distance } = *self;
        let size = size_of::<sys::Config>() as u32;
        sys::Config { size, session, rate, depth, me, members, c1, c2, d1, d2, least_distance }
    }
}
