//! What a message costs the members of a session, beside NORM's peers and the bare calls.
//!
//! The first member draws, and the others take. What they cost without a stroke is taken off.

use crate::members::Session;
use crate::norm;
use std::path::Path;

/// What a message costs a member: processor time, and how often a thread of it sleeps.
#[derive(Clone, Copy, Default)]
pub struct Each {
    pub micros: f64,
    pub sleeps: f64,
}

/// What a message costs each member, over so many sessions.
pub fn of_node(session: Session<'_>, sessions: usize) -> Result<Vec<Each>, String> {
    let idle = Session {
        strokes: 0,
        ..session
    };
    let mut costs = vec![Each::default(); session.members];
    let mut taken = vec![0; session.members];
    for _ in 0..sessions {
        let ended = session.run()?.into_iter().zip(idle.run()?);
        for (at, (drawn, idle)) in ended.enumerate() {
            costs[at].micros += drawn.cost.micros - idle.cost.micros;
            costs[at].sleeps += (drawn.cost.sleeps - idle.cost.sleeps) as f64;
            taken[at] += drawn.taken;
        }
    }
    if let Some(member) = taken.iter().position(|taken| *taken == 0) {
        return Err(format!("member {member} took no stroke of member 0"));
    }
    let costs = costs.into_iter().zip(taken);
    Ok(costs
        .map(|(cost, taken)| Each {
            micros: cost.micros / taken as f64,
            sleeps: cost.sleeps / taken as f64,
        })
        .collect())
}

/// What a message costs the sender and each receiver over NORM, over so many sessions.
pub fn of_norm(
    peers: &Path,
    messages: usize,
    bytes: usize,
    sessions: usize,
) -> Result<Vec<Each>, String> {
    let mut costs = vec![Each::default(); 3];
    let all = (messages * sessions) as f64;
    for _ in 0..sessions {
        for (count, sign) in [(messages, 1.0), (0, -1.0)] {
            let ran = norm::run(peers, count, bytes)?;
            let ran = [ran.sender].into_iter().chain(ran.receivers);
            for (cost, it) in costs.iter_mut().zip(ran) {
                cost.micros += sign * it.micros / all;
                cost.sleeps += sign * it.sleeps as f64 / all;
            }
        }
    }
    Ok(costs)
}

/// What a message costs the sender, and a receiver in the mean.
pub fn at_both_ends(three: &[Each]) -> [Each; 2] {
    let receiver = Each {
        micros: (three[1].micros + three[2].micros) / 2.0,
        sleeps: (three[1].sleeps + three[2].sleeps) / 2.0,
    };
    [three[0], receiver]
}
