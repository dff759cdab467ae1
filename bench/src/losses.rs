//! Groups of proved members that lose drawops and repair them.

// A slice crosses as a pointer and then a length; the allocator crosses as nothing.
unsafe extern "C" {
    fn srm_losses(
        waits: &Waits,
        plan: &Plan,
        seeds: *const u64,
        seeds_len: usize,
        ways: *const u32,
        ways_len: usize,
        cut_off: *const bool,
        cut_off_len: usize,
        told: *mut u64,
        told_len: usize,
    ) -> usize;
}

/// Numbers that are told of each step.
const NUMBERS: usize = 5;

/// A drawop that is lost takes a group fewer steps than these.
const STEPS: usize = 1_024;

/// How many distances members wait: a request `c1` to `c1 + c2`, a repair `d1` to `d1 + d2`; each 0 to 16.
#[derive(Clone, Copy, Debug, PartialEq, Eq)]
#[repr(C)]
pub struct Waits {
    pub c1: u8,
    pub c2: u8,
    pub d1: u8,
    pub d2: u8,
}

/// How long each part of a play takes, in microseconds, and how often drawops are lost.
#[derive(Clone, Copy)]
#[repr(C)]
pub struct Plan {
    /// Until all members know how far away the others are.
    pub start: u32,
    /// From a drawop that is lost to the next, which shows that it is.
    pub shown: u32,
    /// From then until nobody asks or repairs any more.
    pub settled: u32,
    pub losses: u32,
}

impl Plan {
    /// When the drawop that is lost and the one that shows it are drawn, of each pair.
    fn draws(self, index: u32) -> (u64, u64) {
        let pair = u64::from(self.shown) + u64::from(self.settled);
        let lost = u64::from(self.start) + u64::from(index) * pair;
        (lost, lost + u64::from(self.shown))
    }
}

/// Members in their places. Member 0 is the source.
pub struct Group<'a> {
    /// For each member, what its random numbers start from.
    pub seeds: &'a [u64],
    /// Microseconds from each member to each, by sender and then receiver.
    pub ways: &'a [u32],
    /// Of each member, whether drawops that are lost don't come to it.
    pub cut_off: &'a [bool],
}

/// What a member did with a drawop that was lost.
#[derive(Clone, Copy, Debug, PartialEq, Eq)]
pub enum Deed {
    /// It found the drawop missing, or heard another's request for it: its distance to the source.
    SetRequestTimer(u64),
    /// It holds the drawop and heard a request for it: its distance to who asked.
    SetRepairTimer(u64),
    Requested,
    Repaired,
    /// Its page worker was given the drawop.
    Gave,
}

#[derive(Clone, Copy, Debug, PartialEq, Eq)]
pub struct Step {
    pub moment: u64,
    pub member: u8,
    pub deed: Deed,
}

/// What became of one drawop that was lost.
pub struct Lost {
    /// When the next was drawn, which showed the loss.
    pub shown: u64,
    /// In the order in which they came.
    pub steps: Vec<Step>,
}

/// Has a group lose drawops and repair them, all with the same waits.
pub fn lose(group: &Group, waits: Waits, plan: Plan) -> Vec<Lost> {
    let Group { seeds, ways, cut_off } = group;
    let losses = usize::try_from(plan.losses).expect("as many as memory has room for");
    let mut told = vec![0; losses * STEPS * NUMBERS];
    // Sound: all lists live through the call, which reads them and writes the last.
    let count = unsafe {
        srm_losses(
            &waits,
            &plan,
            seeds.as_ptr(),
            seeds.len(),
            ways.as_ptr(),
            ways.len(),
            cut_off.as_ptr(),
            cut_off.len(),
            told.as_mut_ptr(),
            told.len(),
        )
    };
    assert_ne!(count, usize::MAX, "memory ran out, a wait is out of range, or a list is too short");
    assert!(count < told.len(), "there is no room for all steps");
    let mut lost: Vec<Lost> =
        (0..plan.losses).map(|index| Lost { shown: plan.draws(index).1, steps: Vec::new() }).collect();
    for row in told[..count].chunks_exact(NUMBERS) {
        // Of each pair the odd one is lost.
        if row[3] % 2 == 1 {
            let index = usize::try_from(row[3] / 2).expect("there are few");
            assert!(row[0] < plan.draws(index as u32 + 1).0, "a drawop is lost before the one before is repaired");
            lost[index].steps.push(read(row));
        }
    }
    lost
}

fn read(row: &[u64]) -> Step {
    let deed = match row[2] {
        0 => Deed::SetRequestTimer(row[4]),
        1 => Deed::SetRepairTimer(row[4]),
        2 => Deed::Requested,
        3 => Deed::Repaired,
        4 => Deed::Gave,
        other => unreachable!("no deed has the number {other}"),
    };
    Step { moment: row[0], member: row[1] as u8, deed }
}
