//! Strokes that are typed at a steady pace.

use crate::live_member::LiveMember;
use crate::strokes;
use std::thread;
use std::time::{Duration, Instant};

/// How long until it is looked again which strokes are due.
const STEP: Duration = Duration::from_millis(1);

/// How members are fed: each so many strokes a second, of so many bytes, for so many seconds.
#[derive(Clone, Copy)]
pub struct Feed {
    pub pace: usize,
    pub bytes: usize,
    pub seconds: usize,
}

impl Feed {
    /// How many strokes each member is fed.
    pub fn strokes(self) -> usize {
        self.pace * self.seconds
    }

    /// Feeds all members at once. How long that took: more than its seconds if a member reads more slowly.
    pub fn run(self, members: &mut [LiveMember]) -> Result<Duration, String> {
        let begun = Instant::now();
        thread::scope(|scope| {
            let feeding: Vec<_> = members
                .iter_mut()
                .map(|member| scope.spawn(move || self.feed(member)))
                .collect();
            feeding
                .into_iter()
                .try_for_each(|one| one.join().expect("a feeder"))
        })?;
        Ok(begun.elapsed())
    }

    fn feed(self, member: &mut LiveMember) -> Result<(), String> {
        let begun = Instant::now();
        let mut typed = 0;
        while typed < self.strokes() {
            thread::sleep(STEP);
            let due = begun.elapsed().as_secs_f64() * self.pace as f64;
            let due = self.strokes().min(due as usize);
            member.type_in(&strokes::lines(due - typed, self.bytes))?;
            typed = due;
        }
        Ok(())
    }
}
