//! A session whose network loses for a while and then delivers: how soon all is whole, beside the bound that the laws of recovery give for its settings.

use crate::session::Session;
use crate::timing::{
    FIRST_DISTANCE, SECOND, Timing, emptying_time, exponent_within, longest_hold_off, longest_interval,
    longest_repair_wait, longest_request_wait, session_length,
};
use srm_bench::losses::Waits;
use srm_bench::outages::{Deed, Outage, Sides, Step, recover};
use srm_bench::words::Pcg;
use std::collections::BTreeSet;

/// Drawops that the source draws while the network loses.
pub const DRAWN: u32 = 4;

/// Of so many datagrams that cross the link that fails a setting says how many are lost.
pub const ALL: u32 = 256;

/// Bytes of a drawop with its body of 64, as data or as a repair, and of the longest request.
const DRAWOP: u64 = 91;
const REQUEST: u64 = 21;

/// How the members of a session are set up, and what its network loses.
#[derive(Clone, Copy, Debug)]
pub struct Setting {
    pub waits: Waits,
    /// Bytes a second, and bytes.
    pub rate: u32,
    pub depth: u32,
    /// Microseconds, as is the time from a tick to the next.
    pub least_distance: u32,
    pub tick: u32,
    /// Of [`ALL`] datagrams that cross the link that fails.
    pub lost: u32,
}

/// How long all takes to be whole at most, from when the network delivers, and the terms of that. Times are microseconds.
#[derive(Clone, Copy, Debug)]
pub struct Bound {
    pub timing: Timing,
    /// Until the next session message is due.
    pub interval: u64,
    /// The longest wait of a request timer that is set until all know of all drawops.
    pub request_wait: u64,
}

impl Bound {
    /// That of a session whose network loses for so long. It takes the settings and the members' places, and nothing of what comes of the session.
    pub fn of(session: &Session, setting: &Setting, losing: u64) -> Bound {
        let Setting { waits, rate, least_distance, .. } = *setting;
        let (least, tick) = (u64::from(least_distance), u64::from(setting.tick));
        let farthest = session.farthest();
        let distance = farthest.max(least);
        let timing = Timing {
            delay: farthest,
            tick,
            // A member repairs and asks for each drawop at most once in that time.
            emptying: emptying_time(tick, rate, u64::from(DRAWN) * (DRAWOP + REQUEST)),
            repair_wait: longest_repair_wait(waits, distance),
            hold_off: longest_hold_off(distance.max(FIRST_DISTANCE)),
        };
        let interval = longest_interval(rate, session.members(), session_length(session.members(), 1));
        // Where all is lost, nobody learns of a drawop until the network delivers.
        let missing = if setting.lost < ALL { losing } else { 0 };
        let known = missing + timing.knowing_time(interval);
        let longest = |member: usize| {
            let distance = session.way(member, 0).max(least);
            longest_request_wait(waits, exponent_within(known, waits, distance), distance)
        };
        let request_wait = (1..session.members()).map(longest).max().expect("there is one beside the source");
        Bound { timing, interval, request_wait }
    }

    /// When all know of all drawops, and the network has settled.
    pub fn known(&self) -> u64 {
        self.timing.knowing_time(self.interval)
    }

    pub fn whole(&self) -> u64 {
        self.timing.sharing_time(self.interval, self.request_wait)
    }
}

/// What became of a session.
#[derive(Clone, Copy, Debug)]
pub struct Recovered {
    /// Drawops that a member lacked as the network delivered again.
    pub losses: usize,
    /// Microseconds from then until each member was given each drawop. None if that didn't come.
    pub whole: Option<u64>,
    pub bound: Bound,
    /// The longest wait of a request timer that was set until all knew of all drawops.
    pub waited: u64,
    /// Whether timers, hold-offs and buckets kept to the terms of the bound.
    pub is_met: bool,
}

impl Recovered {
    /// What becomes of a session whose link loses for so many microseconds. All random numbers are drawn from `words`.
    pub fn of(session: &Session, link: usize, setting: &Setting, losing: u64, words: &mut Pcg) -> Recovered {
        let bound = Bound::of(session, setting, losing);
        let outage = outage_of(setting, &bound, losing, words.word());
        let seeds: Vec<u64> = (0..session.members()).map(|_| words.word()).collect();
        let sides = Sides { seeds: &seeds, ways: session.ways(), behind: &session.cut_off(link) };
        let steps = recover(&sides, &outage);
        Recovered::told(&steps, session.members(), u64::from(outage.delivers), bound)
    }

    fn told(steps: &[Step], members: usize, delivers: u64, bound: Bound) -> Recovered {
        let lacked = steps.iter().filter(|step| step.deed == Deed::Lacked).map(|step| step.number);
        let given = steps.iter().filter(|step| step.deed == Deed::Gave && step.member > 0);
        let moments: Vec<u64> = given.map(|step| step.moment).collect();
        let is_whole = moments.len() == (members - 1) * DRAWN as usize;
        let last = moments.into_iter().max().unwrap_or(0);
        let waited = steps.iter().filter(|step| step.moment <= delivers + bound.known()).filter_map(request_wait);
        Recovered {
            losses: lacked.collect::<BTreeSet<u64>>().len(),
            whole: is_whole.then_some(last.saturating_sub(delivers)),
            bound,
            waited: waited.max().unwrap_or(0),
            is_met: steps.iter().all(|step| keeps_to(&bound, step, delivers)),
        }
    }

    /// The bound with the longest wait that a timer had, in place of the longest that settings allow.
    pub fn closer_bound(&self) -> u64 {
        self.bound.timing.sharing_time(self.bound.interval, self.waited)
    }

    /// Whether all was whole within so many microseconds.
    pub fn is_whole_within(&self, bound: u64) -> bool {
        self.whole.is_some_and(|whole| whole <= bound)
    }
}

/// The wait of a request timer that was set.
fn request_wait(step: &Step) -> Option<u64> {
    match step.deed {
        Deed::SetRequestTimer { wait, .. } => Some(wait),
        _ => None,
    }
}

/// Whether what a member did keeps to the terms of a bound.
fn keeps_to(bound: &Bound, step: &Step, delivers: u64) -> bool {
    let Bound { timing, request_wait, .. } = bound;
    match step.deed {
        Deed::SetRequestTimer { distance, wait } => {
            longest_hold_off(distance) <= timing.hold_off
                && (wait <= *request_wait || step.moment > delivers + bound.known())
        }
        Deed::SetRepairTimer { distance, wait } => {
            longest_hold_off(distance) <= timing.hold_off && wait <= timing.repair_wait
        }
        Deed::Emptied { longest } => longest <= timing.emptying,
        _ => true,
    }
}

/// The network loses once each member has sent two session messages, of which the second tells the last distance. The play ends a second behind the bound.
fn outage_of(setting: &Setting, bound: &Bound, losing: u64, seed: u64) -> Outage {
    let Setting { waits, rate, depth, least_distance, tick, lost } = *setting;
    let Timing { delay, .. } = bound.timing;
    let each_tick = u64::from(tick);
    // What the rate pays for in a tick fits the bucket beside the longest datagram, as the law of emptying asks.
    assert!(u64::from(rate) * each_tick / SECOND + DRAWOP <= u64::from(depth), "a full bucket would refuse tokens");
    // The last drawop isn't under way any more as the network delivers again.
    assert!(losing / u64::from(2 * DRAWN) > delay + each_tick, "the network loses for too short a time");
    let loses = SECOND + bound.interval + 3 * each_tick + delay + 1;
    let delivers = loses + losing;
    let moment = |micros: u64| u32::try_from(micros).expect("a play takes an hour at most");
    Outage {
        seed,
        rate,
        depth,
        least_distance,
        tick,
        loses: moment(loses),
        delivers: moment(delivers),
        ends: moment(delivers + bound.whole() + SECOND),
        drawn: DRAWN,
        lost,
        waits,
    }
}
