//! Groups of proved members whose network loses for a while and then delivers.

use crate::losses::Waits;

// A slice crosses as a pointer and then a length; the allocator crosses as nothing.
unsafe extern "C" {
    fn srm_outages(
        outage: &Outage,
        seeds: *const u64,
        seeds_len: usize,
        ways: *const u32,
        ways_len: usize,
        behind: *const bool,
        behind_len: usize,
        told: *mut u64,
        told_len: usize,
    ) -> usize;
}

/// Numbers that are told of each step.
const NUMBERS: usize = 6;

/// An outage takes a group fewer steps than these.
const STEPS: usize = 65_536;

/// How members are set up, when the network loses, and when it delivers again. Times are microseconds from when all members were made.
#[derive(Clone, Copy)]
#[repr(C)]
pub struct Outage {
    /// What the random numbers start from that say which datagrams are lost.
    pub seed: u64,
    /// Bytes a second that a member may send, and bytes that its bucket holds.
    pub rate: u32,
    pub depth: u32,
    /// A distance counts as at least so long.
    pub least_distance: u32,
    /// From a tick of a member to its next.
    pub tick: u32,
    /// From when on the network loses what crosses one link, from when on it delivers all, and when the play ends.
    pub loses: u32,
    pub delivers: u32,
    pub ends: u32,
    /// How many drawops member 0 draws while the network loses.
    pub drawn: u32,
    /// How many of 256 datagrams are lost on the link on average.
    pub lost: u32,
    pub waits: Waits,
}

/// Members in their places. Member 0 is the source.
pub struct Sides<'a> {
    /// For each member, what its random numbers start from.
    pub seeds: &'a [u64],
    /// Microseconds from each member to each, by sender and then receiver.
    pub ways: &'a [u32],
    /// Of each member, whether it stands behind the link.
    pub behind: &'a [bool],
}

/// What a member did.
#[derive(Clone, Copy, Debug, PartialEq, Eq)]
pub enum Deed {
    /// It found a drawop missing, heard another's request for it or made one: its distance to the source, and the timer's wait.
    SetRequestTimer { distance: u64, wait: u64 },
    /// It holds a drawop and heard a request for it: its distance to who asked, and the timer's wait.
    SetRepairTimer { distance: u64, wait: u64 },
    Requested,
    Repaired,
    /// Its page worker was given the drawop.
    Gave,
    /// It didn't hold the drawop as the network delivered again.
    Lacked,
    /// From then on a tick left its bucket empty each so long.
    Emptied { longest: u64 },
}

#[derive(Clone, Copy, Debug, PartialEq, Eq)]
pub struct Step {
    pub moment: u64,
    pub member: usize,
    /// The drawop's number; 0 where the step is about none.
    pub number: u64,
    pub deed: Deed,
}

/// Has the network of a group lose and deliver. What its members did, in the order in which it came.
pub fn recover(sides: &Sides, outage: &Outage) -> Vec<Step> {
    let Sides { seeds, ways, behind } = sides;
    let mut told = vec![0; STEPS * NUMBERS];
    // Sound: all lists live through the call, which reads them and writes the last.
    let count = unsafe {
        srm_outages(
            outage,
            seeds.as_ptr(),
            seeds.len(),
            ways.as_ptr(),
            ways.len(),
            behind.as_ptr(),
            behind.len(),
            told.as_mut_ptr(),
            told.len(),
        )
    };
    assert_ne!(count, usize::MAX, "memory ran out, a setting is out of range, or a list is too short");
    assert!(count < told.len(), "there is no room for all steps");
    told[..count].chunks_exact(NUMBERS).map(read).collect()
}

fn read(row: &[u64]) -> Step {
    let (distance, wait) = (row[4], row[5]);
    let deed = match row[2] {
        0 => Deed::SetRequestTimer { distance, wait },
        1 => Deed::SetRepairTimer { distance, wait },
        2 => Deed::Requested,
        3 => Deed::Repaired,
        4 => Deed::Gave,
        5 => Deed::Lacked,
        6 => Deed::Emptied { longest: wait },
        other => unreachable!("no deed has the number {other}"),
    };
    Step { moment: row[0], member: row[1] as usize, number: row[3], deed }
}
