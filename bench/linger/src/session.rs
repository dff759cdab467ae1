//! A session over a network that loses.

use crate::member::Member;
use crate::words::Pcg;

/// In microseconds: a member turns so often, a datagram takes so long, and each member begins so long behind the one before it, and up to so much later.
const TURN: u64 = 1_000;
const WAY: u64 = 1_000;
const BEHIND: u64 = 3_000;
const LATER: u64 = 40_000;

/// What a session is run with; `loss` is in percent, `linger` in microseconds.
#[derive(Clone, Copy)]
pub struct Given {
    pub members: u8,
    pub strokes: u32,
    pub loss: u64,
    pub linger: u64,
}

/// What came of a session.
pub struct Ended {
    /// So many lists lacked a stroke.
    pub short: usize,
    /// Until the last member had left, in microseconds.
    pub lasted: u64,
}

/// Runs the session with this number, which decides what is lost and how long members wait.
pub fn run(given: Given, number: u64) -> Ended {
    let mut chance = Pcg::new(number ^ 0x5eed_0000);
    let mut members: Vec<Member> = (0..given.members)
        .map(|me| {
            let begun = u64::from(me) * BEHIND + chance.word() % LATER;
            Member::new(me, given, Pcg::new(number * 100 + u64::from(me)), begun)
        })
        .collect();
    let mut now = 0;
    while members.iter().any(|member| member.left.is_none()) {
        now += TURN;
        for me in 0..members.len() {
            if members[me].hears_at(now) {
                let sent = members[me].turn(given, now);
                send_to_others(&mut members, me, &sent, given.loss, now + WAY, &mut chance);
            }
        }
    }
    Ended { short: members.iter().map(|member| member.short(given)).sum(), lasted: now }
}

/// Passes each datagram to each other member that is there when it comes, or loses it.
fn send_to_others(members: &mut [Member], me: usize, sent: &[Vec<u8>], loss: u64, comes: u64, chance: &mut Pcg) {
    for bytes in sent {
        for (other, member) in members.iter_mut().enumerate() {
            let is_lost = other != me && chance.word() % 100 < loss;
            if other != me && !is_lost && member.hears_at(comes) {
                member.receive(comes, bytes.clone());
            }
        }
    }
}
