//! How long a loss lasts at most, by the laws of recovery. The terms and the sums are those of `Timing.antt`, `Waits.antt`, `Reporting.antt` and `Emptying.antt` in
//! `crates/srm_recovery/specs`. All times are microseconds.

use srm_bench::losses::Waits;

pub const SECOND: u64 = 1_000_000;

/// Before its first echo a member takes a distance to be so long.
pub const FIRST_DISTANCE: u64 = 100_000;

/// How many distances a hold-off lasts.
const HOLD_OFF: u64 = 3;

/// How often a request timer's wait is doubled at most.
pub const GREATEST_EXPONENT: u32 = 8;

/// Session messages of all members take one part of the rate in so many.
const SESSION_SHARE: u64 = 20;

/// What the network and the members do within these times.
#[derive(Clone, Copy, Debug, PartialEq, Eq)]
pub struct Timing {
    /// A datagram arrives at most so long after it was sent.
    pub delay: u64,
    /// A member ticks at least so often.
    pub tick: u64,
    /// A tick leaves a member's bucket empty at least so often.
    pub emptying: u64,
    /// No repair timer waits longer.
    pub repair_wait: u64,
    /// No hold-off lasts longer.
    pub hold_off: u64,
}

impl Timing {
    /// The network settles: hold-offs end whose repairs were lost, and what waited in buckets before has gone and arrived.
    pub fn settling_time(&self) -> u64 {
        (self.hold_off + self.delay).max(self.emptying) + self.delay
    }

    /// A request timer expires, and then a repair timer. Each is seen by the next tick; then the request, or the repair, waits in a bucket and is under way.
    pub fn repair_time(&self, request_wait: u64) -> u64 {
        request_wait + self.repair_wait + 2 * (self.tick + self.emptying + self.delay)
    }

    /// A session message that is due within the interval arrives, while the network settles.
    pub fn knowing_time(&self, interval: u64) -> u64 {
        self.settling_time().max(interval + self.tick + self.delay)
    }

    /// That, and then a repair.
    pub fn sharing_time(&self, interval: u64, request_wait: u64) -> u64 {
        self.knowing_time(interval) + self.repair_time(request_wait)
    }
}

/// The longest wait of a request timer with this exponent.
pub fn longest_request_wait(waits: Waits, exponent: u32, distance: u64) -> u64 {
    (u64::from(waits.c1) + u64::from(waits.c2)) * distance << exponent
}

pub fn longest_repair_wait(waits: Waits, distance: u64) -> u64 {
    (u64::from(waits.d1) + u64::from(waits.d2)) * distance
}

pub fn longest_hold_off(distance: u64) -> u64 {
    HOLD_OFF * distance
}

/// From a session message to the next at most, where none is longer than so many bytes.
pub fn longest_interval(rate: u32, members: usize, longest: u64) -> u64 {
    (SESSION_SHARE * members as u64 * longest * SECOND / u64::from(rate)).max(SECOND)
}

/// The bytes of a session message of one of so many members, where so many streams have drawops: with a row for each stream, and an echo for each other member.
pub fn session_length(members: usize, streams: u64) -> u64 {
    23 + 8 * streams + 17 * (members as u64 - 1)
}

/// How soon a bucket is empty at most, where so many bytes wait or are handed in by then: the rate pays for them in that time less a tick.
pub fn emptying_time(tick: u64, rate: u32, bytes: u64) -> u64 {
    tick + (bytes * SECOND).div_ceil(u64::from(rate))
}

/// The greatest exponent that a request timer can have so long after its name was first missing, by the rules of the timers. Another's request doubles the first wait at once, and
/// each further one where half of it has passed at the earliest.
pub fn exponent_within(time: u64, waits: Waits, distance: u64) -> u32 {
    let shortest = u64::from(waits.c1) * distance;
    let (mut exponent, mut passed) = (1, 0);
    while exponent < GREATEST_EXPONENT {
        passed += (shortest << exponent) / 2;
        if passed > time {
            break;
        }
        exponent += 1;
    }
    exponent
}
