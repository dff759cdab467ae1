//! What is lost while three members draw at a steady pace.

use crate::feeding::Feed;
use crate::live::{self, MEMBERS};
use crate::live_member::LiveMember;
use std::path::Path;
use std::time::Duration;

/// How long what is missing may take to be repaired, once all strokes are typed.
const REPAIRS: Duration = Duration::from_secs(10);

/// What went through a session, and what didn't. A datagram counts once for each member that it goes to.
#[derive(Clone, Copy, Default)]
pub struct Losses {
    pub sent: u64,
    /// Datagrams that the system dropped at the sockets of members.
    pub dropped: u64,
    /// Datagrams that the network refused to take, and those that the members dropped themselves.
    pub refused: u64,
    /// Strokes that the members should have taken, and how many of those they lacked at the end.
    pub strokes: u64,
    pub lacked: u64,
    /// Seconds in which the strokes were typed.
    pub seconds: f64,
}

impl Losses {
    /// All datagrams that were lost.
    pub fn lost(self) -> u64 {
        self.dropped + self.refused
    }

    /// The same of both together.
    pub fn and(self, other: Losses) -> Losses {
        Losses {
            sent: self.sent + other.sent,
            dropped: self.dropped + other.dropped,
            refused: self.refused + other.refused,
            strokes: self.strokes + other.strokes,
            lacked: self.lacked + other.lacked,
            seconds: self.seconds + other.seconds,
        }
    }
}

/// Feeds three new members, and counts what is lost.
pub fn count(program: &Path, feed: Feed) -> Result<Losses, String> {
    let mut members = live::start(program, &live::UNPACED)?;
    let before = drops(&mut members)?;
    let took = feed.run(&mut members)?;
    let strokes = feed.strokes() * MEMBERS;
    let taken: usize = members
        .iter()
        .map(|member| member.await_strokes(strokes, REPAIRS).count)
        .sum();
    let all = strokes * MEMBERS;
    let mut losses = Losses {
        dropped: drops(&mut members)? - before,
        strokes: all as u64,
        lacked: (all - taken) as u64,
        seconds: took.as_secs_f64(),
        ..Losses::default()
    };
    for member in &mut members {
        let who = member.ask_who()?;
        losses.sent += who.sent * (MEMBERS - 1) as u64;
        losses.refused += who.lost;
    }
    Ok(losses)
}

// How many datagrams the system dropped at the sockets of all members so far.
fn drops(members: &mut [LiveMember]) -> Result<u64, String> {
    members.iter_mut().map(LiveMember::drops).sum()
}
