//! What is due, and what goes.

use super::agent::{Agent, Arm, Config, State, Ticked};
use super::bucket::SECOND;
use super::row::{Ask, NEVER};
use crate::datagram::{Datagram, Drawop, Echo, MEMBERS, Name};
use crate::words::Pcg;

impl Config {
    /// A wait of a request timer, in microseconds.
    pub(super) fn ask_wait(&self, words: &mut Pcg, distance: u64, exponent: u8) -> u64 {
        let unit = distance << exponent;
        words.wait(self.c1 * unit, (self.c1 + self.c2) * unit)
    }
}

impl Agent {
    /// Asks for, repairs and sends what is due.
    pub fn tick(&mut self, now: u64) -> Ticked {
        let now = self.advance(now);
        let mut ticked =
            Ticked { asks: Vec::new(), fixes: Vec::new(), arms: Vec::new(), outs: Vec::new(), state: self.state };
        let is_early = now < self.due && now < self.first_ask && now < self.first_fix && self.bucket.is_empty();
        if self.state == State::Gone || self.state == State::Active && is_early {
            return ticked;
        }
        if self.first_ask <= now {
            self.ask_again(now, &mut ticked);
            self.hand_requests(&ticked.asks);
        }
        if self.first_fix <= now {
            self.repair_due(now, &mut ticked.fixes);
        }
        while let Some(out) = self.bucket.pop(now) {
            let bytes = out.encode(self.config.session);
            ticked.outs.push((out, bytes));
        }
        self.end_tick(now, &mut ticked);
        ticked
    }

    /// Sets each request timer that ran out anew, in order of name.
    fn ask_again(&mut self, now: u64, ticked: &mut Ticked) {
        let Agent { config, words, table, distances, .. } = self;
        let mut least = NEVER;
        table.for_each_mut(|source, page, row| {
            let distance = distances[usize::from(source)];
            row.ask_again(now, |number, ask| {
                let name = Name { source, page, number };
                let exponent = ask.next_exponent();
                let wait = config.ask_wait(words, distance, exponent);
                ticked.asks.push(name);
                ticked.arms.push(Arm { name, is_fix: false, exponent, distance, wait });
                Ask::new(now, wait, exponent)
            });
            least = least.min(row.first_ask);
        });
        self.first_ask = least;
    }

    /// Hands in the repairs whose timers ran out, in order of name.
    fn repair_due(&mut self, now: u64, fixes: &mut Vec<Name>) {
        let mut least = NEVER;
        self.table.for_each_mut(|source, page, row| {
            row.due_fixes(now, |number| fixes.push(Name { source, page, number }));
            least = least.min(row.first_fix);
        });
        self.first_fix = least;
        for name in fixes.iter() {
            let slot = self.table.slot_for(name.page);
            self.repaired(slot, *name, now);
            let Some((stamp, body)) = self.table.row(slot, name.source).held(name.number) else { continue };
            let drawop = Drawop { name: *name, stamp, body: body.clone() };
            let repair = Datagram::Repair { sender: self.config.me, drawop };
            self.bucket.hand_answer(name.page == self.shown, repair);
        }
    }

    /// Hands in the requests for these names.
    fn hand_requests(&mut self, asks: &[Name]) {
        let mut rest = asks;
        while let Some((first, more)) = rest.split_first() {
            let mut mask = 0;
            let mut count = 0;
            for ask in more {
                if (ask.source, ask.page) != (first.source, first.page) || ask.number > first.number + 32 {
                    break;
                }
                mask |= 1 << (ask.number - first.number - 1);
                count += 1;
            }
            rest = &more[count..];
            let request = Datagram::Request { sender: self.config.me, name: *first, mask };
            self.bucket.hand_answer(first.page == self.shown, request);
        }
    }

    fn end_tick(&mut self, now: u64, ticked: &mut Ticked) {
        let farewell = self.state == State::Leaving && !self.bucket.has_data();
        if !farewell && now < self.due {
            return;
        }
        let report = self.report(farewell, now);
        let bytes = report.encode(self.config.session);
        let left = (0..self.config.members).filter(|member| self.finals[usize::from(*member)].is_none());
        let pause = 20 * left.count() as u64 * bytes.len() as u64 * SECOND / self.config.rate;
        self.due = now + pause.max(SECOND);
        if farewell {
            self.state = State::Gone;
        }
        ticked.state = self.state;
        ticked.outs.push((report, bytes));
    }

    fn report(&self, farewell: bool, now: u64) -> Datagram {
        let mut rows = Vec::new();
        self.table.for_each(|source, page, row| {
            let wanted = if farewell { source == self.config.me } else { page == self.shown };
            if wanted && row.known > 0 {
                rows.push(Name { source, page, number: row.known });
            }
        });
        let echoes = (0..MEMBERS)
            .filter(|member| *member != self.config.me && !self.peers[usize::from(*member)].forgotten)
            .filter_map(|member| {
                let (t1, came) = self.peers[usize::from(member)].latest?;
                Some(Echo { member, t1, delay: now - came })
            });
        let (sender, shown) = (self.config.me, self.shown);
        Datagram::Session { sender, sent: now, farewell, shown, rows, echoes: echoes.collect() }
    }
}
