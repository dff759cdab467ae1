//! What one lost drawop costs.

use crate::thousandths::Thousandths;
use srm_bench::losses::{Deed, Group, Lost, Step};

/// How one member that missed a drawop got it.
#[derive(Clone, Copy, Debug, PartialEq, Eq)]
pub struct Recovery {
    pub member: usize,
    /// When it found the drawop missing.
    pub missed: u64,
    /// When it held the drawop.
    pub gained: u64,
    /// Microseconds to the source and back.
    pub round_trip: u64,
}

impl Recovery {
    /// Its delay over its round trip.
    pub fn delay(&self) -> Thousandths {
        Thousandths::of(self.gained - self.missed, self.round_trip)
    }
}

/// What one lost drawop cost a group. Moments are microseconds.
#[derive(Clone, Debug)]
pub struct Cost {
    pub requests: u64,
    pub repairs: u64,
    /// How each member that missed it got it, by member.
    pub recoveries: Vec<Recovery>,
    /// When the next drawop was drawn, which showed the loss.
    pub shown: u64,
    pub first_request: u64,
    /// When a member that holds it first heard a request.
    pub first_heard: u64,
    pub first_repair: u64,
}

impl Cost {
    /// What it cost. Each timer was set by a distance that is the path's sum, and each member that is cut off gained what it missed.
    pub fn of(lost: &Lost, group: &Group) -> Cost {
        let members = group.seeds.len();
        let way = |from: usize, to: usize| u64::from(group.ways[from * members + to]);
        for step in &lost.steps {
            assert!(is_measured(step, &lost.steps, way), "a timer was set by a wrong distance: {step:?}");
        }
        let recovery = |member: usize| {
            let own = |step: &&Step| usize::from(step.member) == member;
            Recovery {
                member,
                missed: first(lost, |step| own(&step) && matches!(step.deed, Deed::SetRequestTimer(_))),
                gained: first(lost, |step| own(&step) && step.deed == Deed::Gave),
                round_trip: 2 * way(0, member),
            }
        };
        Cost {
            requests: count(lost, Deed::Requested),
            repairs: count(lost, Deed::Repaired),
            recoveries: (0..members).filter(|&member| group.cut_off[member]).map(recovery).collect(),
            shown: lost.shown,
            first_request: first(lost, |step| step.deed == Deed::Requested),
            first_heard: first(lost, |step| matches!(step.deed, Deed::SetRepairTimer(_))),
            first_repair: first(lost, |step| step.deed == Deed::Repaired),
        }
    }

    /// How the last member got it. Of several, the one whose delay is the longest over its round trip.
    pub fn last(&self) -> Recovery {
        let last = self.recoveries.iter().max_by_key(|recovery| (recovery.gained, recovery.delay()));
        *last.expect("a member is cut off")
    }
}

/// Whether a timer was set by the path's sum: a request timer by that to the source, a repair timer by that to a member whose request came just
/// then.
fn is_measured(step: &Step, steps: &[Step], way: impl Fn(usize, usize) -> u64) -> bool {
    let member = usize::from(step.member);
    match step.deed {
        Deed::SetRequestTimer(distance) => distance == way(member, 0),
        Deed::SetRepairTimer(distance) => steps.iter().any(|other| {
            let asker = usize::from(other.member);
            other.deed == Deed::Requested
                && other.moment + way(asker, member) == step.moment
                && distance == way(member, asker)
        }),
        _ => true,
    }
}

fn count(lost: &Lost, deed: Deed) -> u64 {
    lost.steps.iter().filter(|step| step.deed == deed).count() as u64
}

fn first(lost: &Lost, is_wanted: impl Fn(&Step) -> bool) -> u64 {
    let step = lost.steps.iter().find(|step| is_wanted(step));
    step.expect("what is lost is found missing, asked for, repaired and gained").moment
}
