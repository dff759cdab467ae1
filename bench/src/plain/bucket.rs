//! What waits for the rate.

use crate::datagram::Datagram;
use std::collections::VecDeque;

/// Microseconds of a second.
pub const SECOND: u64 = 1_000_000;

/// Datagrams by class; the level is in millionths of a byte.
pub struct Bucket {
    queues: [VecDeque<Datagram>; 3],
    rate: u64,
    depth: u64,
    level: u64,
    last: u64,
}

impl Bucket {
    pub fn new(rate: u64, depth: u64) -> Bucket {
        Bucket { queues: Default::default(), rate, depth, level: depth * SECOND, last: 0 }
    }

    pub fn is_empty(&self) -> bool {
        self.queues.iter().all(VecDeque::is_empty)
    }

    pub fn has_data(&self) -> bool {
        !self.queues[1].is_empty()
    }

    pub fn hand_data(&mut self, datagram: Datagram) {
        self.queues[1].push_back(datagram);
    }

    /// Hands in a request or a repair, of the page that is shown or of another.
    pub fn hand_answer(&mut self, is_shown: bool, datagram: Datagram) {
        self.queues[if is_shown { 0 } else { 2 }].push_back(datagram);
    }

    /// Whether requests or repairs wait.
    pub fn has_answers(&self) -> bool {
        !self.queues[0].is_empty() || !self.queues[2].is_empty()
    }

    /// Whether a datagram of so many bytes may go at once, behind all that waits.
    pub fn admits(&self, length: usize, now: u64) -> bool {
        let gained = now.saturating_sub(self.last).saturating_mul(self.rate);
        let level = self.level.saturating_add(gained).min(self.depth * SECOND);
        let waiting: usize = self.queues.iter().flatten().map(Datagram::length).sum();
        (waiting + length) as u64 * SECOND <= level
    }

    /// The next that may go.
    pub fn pop(&mut self, now: u64) -> Option<Datagram> {
        if now > self.last {
            let gained = (now - self.last).saturating_mul(self.rate);
            self.level = self.level.saturating_add(gained).min(self.depth * SECOND);
            self.last = now;
        }
        let queue = self.queues.iter_mut().find(|queue| !queue.is_empty())?;
        let cost = queue.front()?.length() as u64 * SECOND;
        if cost > self.level {
            return None;
        }
        self.level -= cost;
        queue.pop_front()
    }
}
