//! What comes of a datagram.

use super::agent::{Agent, Arm};
use super::bucket::SECOND;
use super::row::{Ask, Place};
use crate::datagram::{Echo, Name, numbers};

/// The numbers that a request names: the first, and a bit for each.
#[derive(Clone, Copy)]
struct Asked {
    first: u32,
    bits: u64,
}

impl Asked {
    const NONE: Asked = Asked { first: 1, bits: 0 };

    fn has(self, number: u32) -> bool {
        let place = number.checked_sub(self.first);
        place.and_then(|place| self.bits.checked_shr(place)).is_some_and(|bits| bits & 1 == 1)
    }
}

impl Agent {
    /// The timers that data or a repair sets; none where it is ignored.
    pub(super) fn hear_drawop(
        &mut self,
        sender: u8,
        name: Name,
        stamp: u64,
        body: &[u8],
        is_repair: bool,
        now: u64,
    ) -> Option<Vec<Arm>> {
        if !self.is_from_peer(sender) || !self.takes(name) {
            return None;
        }
        let slot = self.slot_for_taken(name, stamp, body)?;
        let row = self.table.row_mut(slot, name.source);
        row.insert(name.number, stamp, body);
        let arms = if row.known < name.number { self.learn(slot, name, Asked::NONE, now) } else { Vec::new() };
        if is_repair {
            self.repaired(slot, name, now);
        }
        Some(arms)
    }

    /// The timers that a request sets; none where it is ignored.
    pub(super) fn hear_request(&mut self, sender: u8, name: Name, mask: u32, now: u64) -> Option<Vec<Arm>> {
        let last = Name { number: name.number + 32 - mask.leading_zeros(), ..name };
        if !self.is_from_peer(sender) || !self.takes(last) {
            return None;
        }
        let slot = self.table.slot_for(name.page);
        let mut arms = Vec::new();
        let asked = Asked { first: name.number, bits: 1 | u64::from(mask) << 1 };
        for number in numbers(name.number, asked.bits) {
            arms.extend(self.hear_asked(slot, sender, Name { number, ..name }, now));
        }
        if self.table.row(slot, last.source).known < last.number {
            arms.extend(self.learn(slot, last, asked, now));
        }
        Some(arms)
    }

    /// A name is asked for: the timer that is set, if one is.
    fn hear_asked(&mut self, slot: usize, sender: u8, name: Name, now: u64) -> Option<Arm> {
        let row = self.table.row_mut(slot, name.source);
        let arm = match row.place(name.number) {
            Place::Held { .. } if row.is_free(name.number, now) => {
                let (distance, d1, d2) = (self.distances[usize::from(sender)], self.config.d1, self.config.d2);
                let wait = self.words.wait(d1 * distance, (d1 + d2) * distance);
                row.set_fix(name.number, now + wait);
                self.first_fix = self.first_fix.min(now + wait);
                Some(Arm { name, is_fix: true, exponent: 0, distance, wait })
            }
            Place::Missing(ask) if ask.backs_off(now) => {
                let exponent = ask.next_exponent();
                Some(self.ask(slot, name, exponent, now))
            }
            _ => None,
        };
        self.table.row_mut(slot, name.source).note_asker(name.number, sender);
        arm
    }

    /// The timers that a session message sets; none where it is ignored.
    pub(super) fn hear_report(
        &mut self,
        sender: u8,
        sent: u64,
        farewell: bool,
        rows: Vec<Name>,
        echoes: &[Echo],
        now: u64,
    ) -> Option<Vec<Arm>> {
        let is_taken = self.is_from_peer(sender)
            && rows.iter().all(|row| row.source < self.config.members && !self.is_beyond(*row))
            && self.table.have_room(&rows)
            && !(farewell && self.is_short(sender, &rows));
        if !is_taken {
            return None;
        }
        self.take_report(sender, sent, echoes.iter().find(|echo| echo.member == self.config.me), now);
        let mut arms = Vec::new();
        for row in &rows {
            let slot = self.table.slot_for(row.page);
            if self.table.row(slot, row.source).known < row.number {
                let more = self.learn(slot, *row, Asked::NONE, now);
                if arms.is_empty() { arms = more } else { arms.extend(more) }
            }
        }
        if farewell {
            self.peers[usize::from(sender)].forgotten = true;
            self.finals[usize::from(sender)].get_or_insert(rows);
        }
        Some(arms)
    }

    fn take_report(&mut self, sender: u8, sent: u64, echo: Option<&Echo>, now: u64) {
        let peer = &mut self.peers[usize::from(sender)];
        if let Some(echo) = echo
            && peer.taken.is_none_or(|taken| taken < echo.t1)
            && echo.t1 <= now
        {
            peer.taken = Some(echo.t1);
            let way = (now - echo.t1).saturating_sub(echo.delay) / 2;
            self.distances[usize::from(sender)] = way.clamp(self.config.least_distance, 10 * SECOND);
        }
        if peer.latest.is_none_or(|(latest, _)| latest < sent) {
            peer.latest = Some((sent, now));
        }
    }

    /// Whether it comes from another member of the roster.
    fn is_from_peer(&self, sender: u8) -> bool {
        sender != self.config.me && sender < self.config.members
    }

    /// Whether a name may be taken: of a stream of the roster, on a page with a slot, and not beyond what is final.
    fn takes(&self, name: Name) -> bool {
        name.source < self.config.members && self.table.has_room(name.page) && !self.is_beyond(name)
    }

    fn is_beyond(&self, name: Name) -> bool {
        let me = self.config.me;
        self.last_of(name.source, name.page).is_some_and(|last| last < name.number)
            || name.source == me && self.known(me, name.page) < name.number
    }

    /// Whether a farewell says less than is known.
    fn is_short(&self, sender: u8, rows: &[Name]) -> bool {
        self.table.pages.iter().any(|page| {
            let row = rows.iter().find(|row| row.page == *page);
            row.map_or(0, |row| row.number) < self.known(sender, *page)
        })
    }

    /// The slot of a drawop's page, which is added where need be; none where another drawop is held of this name.
    fn slot_for_taken(&mut self, name: Name, stamp: u64, body: &[u8]) -> Option<usize> {
        let Some(slot) = self.table.slot(name.page) else {
            return Some(self.table.slot_for(name.page));
        };
        let held = self.table.row(slot, name.source).held(name.number);
        let conflicts = held.is_some_and(|(other, bytes)| other != stamp || **bytes != *body);
        (!conflicts).then_some(slot)
    }

    /// A number greater than all known of its stream is known to exist: those that are newly missing are armed, with exponent 1
    /// where they are asked for.
    fn learn(&mut self, slot: usize, name: Name, asked: Asked, now: u64) -> Vec<Arm> {
        let row = self.table.row_mut(slot, name.source);
        let known = row.known;
        row.known = name.number;
        let is_held = matches!(row.place(name.number), Place::Held { .. });
        let last = name.number - u32::from(is_held);
        if last == known {
            return Vec::new();
        }
        let mut arms = Vec::with_capacity((last - known) as usize);
        for number in known + 1..=last {
            let exponent = u8::from(asked.has(number));
            arms.push(self.ask(slot, Name { number, ..name }, exponent, now));
        }
        arms
    }

    /// Sets a request timer.
    fn ask(&mut self, slot: usize, name: Name, exponent: u8, now: u64) -> Arm {
        let distance = self.distances[usize::from(name.source)];
        let wait = self.config.ask_wait(&mut self.words, distance, exponent);
        let ask = Ask::new(now, wait, exponent);
        self.first_ask = self.first_ask.min(ask.end());
        self.table.row_mut(slot, name.source).set_ask(name.number, ask);
        Arm { name, is_fix: false, exponent, distance, wait }
    }

    /// A name was repaired, by the member itself or by another.
    pub(super) fn repaired(&mut self, slot: usize, name: Name, now: u64) {
        self.table.row_mut(slot, name.source).repaired(name.number, name.source, &self.distances, now);
    }
}
