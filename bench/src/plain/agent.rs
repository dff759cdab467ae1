//! The agent and its calls.

use super::bucket::{Bucket, SECOND};
use super::feed::Feed;
use super::row::NEVER;
use super::table::{PAGES, Table};
use crate::datagram::{Body, DRAWOPS, Datagram, Drawop, MEMBERS, Name, Page, View};
use crate::words::Pcg;

/// The longest body, in bytes.
const BODY: usize = 1_024;

/// The bytes before a body in its datagram.
const DRAWOP_HEAD: usize = 27;

/// The distance to a member of whom nothing is known, in microseconds.
const USUAL_DISTANCE: u64 = 100_000;

pub struct Config {
    pub me: u8,
    pub members: u8,
    pub session: u32,
    /// Bytes a second.
    pub rate: u64,
    pub depth: u64,
    pub c1: u64,
    pub c2: u64,
    pub d1: u64,
    pub d2: u64,
    /// No distance to another member is taken as less, in microseconds.
    pub least_distance: u64,
}

#[derive(Clone, Copy, Debug, PartialEq, Eq)]
pub enum State {
    Active,
    Leaving,
    Gone,
}

#[derive(Clone, Copy, Debug, PartialEq, Eq)]
pub enum Outcome {
    Taken,
    Ignored,
}

/// A timer that was set.
#[derive(Clone, Copy, Debug)]
pub struct Arm {
    pub name: Name,
    pub is_fix: bool,
    pub exponent: u8,
    pub distance: u64,
    pub wait: u64,
}

pub struct Ticked {
    pub asks: Vec<Name>,
    pub fixes: Vec<Name>,
    pub arms: Vec<Arm>,
    pub outs: Vec<(Datagram, Vec<u8>)>,
    pub state: State,
}

/// What is known of another member by its session messages.
#[derive(Clone, Copy, Default)]
pub(super) struct Peer {
    pub taken: Option<u64>,
    pub latest: Option<(u64, u64)>,
    pub forgotten: bool,
}

/// One member. Moments are microseconds.
pub struct Agent {
    pub(super) config: Config,
    pub(super) words: Pcg,
    pub(super) state: State,
    last: u64,
    pub(super) shown: Page,
    pub(super) table: Table,
    pub(super) feeds: [Feed; PAGES],
    pub(super) finals: [Option<Vec<Name>>; MEMBERS as usize],
    pub(super) peers: [Peer; MEMBERS as usize],
    pub(super) distances: [u64; MEMBERS as usize],
    /// No request timer ends before it.
    pub(super) first_ask: u64,
    /// No repair timer ends before it.
    pub(super) first_fix: u64,
    pub(super) bucket: Bucket,
    /// When the next session message is due.
    pub(super) due: u64,
}

impl Agent {
    pub fn new(config: Config, words: Pcg, now: u64) -> Agent {
        let mut distances = [USUAL_DISTANCE.max(config.least_distance); MEMBERS as usize];
        distances[usize::from(config.me)] = 0;
        Agent {
            words,
            state: State::Active,
            last: now,
            shown: super::table::FIRST_PAGE,
            table: Table::new(config.members),
            feeds: Default::default(),
            finals: Default::default(),
            peers: Default::default(),
            distances,
            first_ask: NEVER,
            first_fix: NEVER,
            bucket: Bucket::new(config.rate, config.depth),
            due: now + SECOND,
            config,
        }
    }

    /// The name of what is drawn; none where the member leaves, the body is too long, the page finds no slot or the stream is full.
    pub fn draw(&mut self, page: Page, bytes: &[u8], now: u64) -> Option<Name> {
        let now = now.max(self.last);
        let source = self.config.me;
        let number = self.known(source, page) + 1;
        if self.state != State::Active || bytes.len() > BODY || !self.table.has_room(page) || number > DRAWOPS {
            return None;
        }
        self.last = now;
        let slot = self.table.slot_for(page);
        let name = Name { source, page, number };
        let body = Body::from(bytes);
        self.table.row_mut(slot, source).draw(number, now, body.clone());
        self.bucket.hand_data(Datagram::Data(Drawop { name, stamp: now, body }));
        Some(name)
    }

    /// The timers that a datagram sets, and whether it was taken.
    pub fn hear(&mut self, bytes: &[u8], now: u64) -> (Vec<Arm>, Outcome) {
        let now = self.advance(now);
        if self.state == State::Gone {
            return (Vec::new(), Outcome::Ignored);
        }
        let arms = match View::decode(self.config.session, bytes) {
            None => None,
            Some(View::Drawop { sender, name, stamp, body, is_repair }) => {
                self.hear_drawop(sender, name, stamp, body, is_repair, now)
            }
            Some(View::Request { sender, name, mask }) => self.hear_request(sender, name, mask, now),
            Some(View::Session { sender, sent, farewell, rows, echoes }) => {
                self.hear_report(sender, sent, farewell, rows, &echoes, now)
            }
        };
        match arms {
            None => (Vec::new(), Outcome::Ignored),
            Some(arms) => (arms, Outcome::Taken),
        }
    }

    /// How many names are missing.
    pub fn missing(&self) -> u32 {
        let mut count = 0;
        self.table.for_each(|_, _, row| count += row.missing());
        count
    }

    /// Whether a repair timer runs, or requests or repairs wait for the rate.
    pub fn is_needed(&self) -> bool {
        let mut is_needed = self.bucket.has_answers();
        self.table.for_each(|_, _, row| is_needed |= row.repairs());
        is_needed
    }

    /// Whether the rate lets a draw of so many bytes go at once, behind all that waits.
    pub fn admits_draw(&self, length: usize, now: u64) -> bool {
        self.bucket.admits(DRAWOP_HEAD + length, now)
    }

    /// How many strokes of a source on the first page came without a gap.
    pub fn released(&self, source: u8) -> u32 {
        self.table.row(0, source).released
    }

    pub fn state(&self) -> State {
        self.state
    }

    /// The member begins to leave.
    pub fn leave(&mut self, now: u64) {
        self.advance(now);
        if self.state == State::Active {
            self.state = State::Leaving;
        }
    }

    /// The moment that counts: no earlier one than the last.
    pub(super) fn advance(&mut self, now: u64) -> u64 {
        self.last = now.max(self.last);
        self.last
    }

    /// The greatest number of a stream that is known to exist.
    pub fn known(&self, source: u8, page: Page) -> u32 {
        self.table.known(source, page)
    }

    /// The last number of a stream, where its source left.
    pub(super) fn last_of(&self, source: u8, page: Page) -> Option<u32> {
        let rows = self.finals.get(usize::from(source))?.as_ref()?;
        Some(rows.iter().find(|row| row.page == page).map_or(0, |row| row.number))
    }
}
