//! A live member in simulated time.

use crate::datagram::{Datagram, Page};
use crate::plain::{Agent, Config, State};
use crate::session::Given;
use crate::staying::{Shown, Stay};
use crate::words::Pcg;

const FIRST_PAGE: Page = Page { creator: 0, number: 0 };

/// A member that began at a moment, which its own clock takes as 0.
pub struct Member {
    me: u8,
    agent: Agent,
    pub begun: u64,
    pub left: Option<u64>,
    /// What comes, with its moments.
    inbox: Vec<(u64, Vec<u8>)>,
    drawn: u32,
    shown: Shown,
    stay: Option<Stay>,
}

impl Member {
    pub fn new(me: u8, given: Given, words: Pcg, begun: u64) -> Member {
        // As with --live.
        let config = Config {
            me,
            members: given.members,
            session: 7,
            rate: 64_000,
            depth: 4_204,
            c1: 2,
            c2: 2,
            d1: 1,
            d2: 1,
            least_distance: 5_000,
        };
        let agent = Agent::new(config, words, 0);
        Member { me, agent, begun, left: None, inbox: Vec::new(), drawn: 0, shown: Shown::default(), stay: None }
    }

    /// Whether it is there when something comes at a moment.
    pub fn hears_at(&self, moment: u64) -> bool {
        self.begun <= moment && self.left.is_none()
    }

    pub fn receive(&mut self, moment: u64, bytes: Vec<u8>) {
        self.inbox.push((moment, bytes));
    }

    /// So many of its lists lack a stroke.
    pub fn short(&self, given: Given) -> usize {
        (0..given.members).filter(|source| self.agent.released(*source) < given.strokes).count()
    }

    /// Turns once, and returns what it sends.
    pub fn turn(&mut self, given: Given, now: u64) -> Vec<Vec<u8>> {
        let moment = now - self.begun;
        self.hear(now, moment);
        self.draw(given, moment);
        if self.stays_no_more(given, now) {
            self.agent.leave(moment);
        }
        let outs = self.agent.tick(moment).outs;
        let told = outs.iter().filter(|(datagram, _)| matches!(datagram, Datagram::Session { .. })).count();
        self.shown.sessions += told as u32;
        self.shown.is_needed = self.agent.is_needed();
        self.shown.missing = self.agent.missing();
        if self.agent.state() == State::Gone {
            self.left = Some(now);
        }
        outs.into_iter().map(|(_, bytes)| bytes).collect()
    }

    fn hear(&mut self, now: u64, moment: u64) {
        let (came, later) = std::mem::take(&mut self.inbox).into_iter().partition(|(comes, _)| *comes <= now);
        self.inbox = later;
        let came: Vec<(u64, Vec<u8>)> = came;
        for (_, bytes) in came {
            let (arms, _) = self.agent.hear(&bytes, moment);
            self.shown.asked += u32::from(arms.iter().any(|arm| arm.is_fix));
        }
    }

    fn draw(&mut self, given: Given, moment: u64) {
        while self.drawn < given.strokes {
            let body = format!("stroke {} {}", self.me, self.drawn);
            if !self.agent.admits_draw(body.len(), moment) {
                return;
            }
            self.agent.draw(FIRST_PAGE, body.as_bytes(), moment);
            self.drawn += 1;
            self.shown.sessions = 0;
        }
    }

    /// Its input has ended from the start: all strokes are typed at once.
    fn stays_no_more(&mut self, given: Given, now: u64) -> bool {
        let stay = self.stay.get_or_insert_with(|| Stay::begin(given.linger, self.shown, now));
        stay.is_over(self.shown, now) && self.drawn == given.strokes
    }
}
