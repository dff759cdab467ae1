//! Calls of an agent, as bytes, and what a proved and a plain one tell of them.

use crate::datagram::Page;
use crate::plain::{Agent, Config};
use crate::teller;
use crate::words::Pcg;
use std::hint::black_box;

// A slice crosses as a pointer and then a length; the allocator crosses as nothing.
unsafe extern "C" {
    fn srm_calls(
        me: u8,
        members: u8,
        rate: u32,
        depth: u32,
        count: u32,
        calls: *const u8,
        calls_len: usize,
        told: *mut u64,
        told_len: usize,
    ) -> usize;
}

/// The session of all agents.
pub const SESSION: u32 = 7;

/// The first page, on which all draws are.
pub const FIRST_PAGE: Page = Page { creator: 0, number: 0 };

/// What a call does; each number is the first byte of the call.
#[derive(Clone, Copy, Debug, PartialEq, Eq)]
#[repr(u8)]
pub enum Kind {
    /// Hears the bytes.
    Hear,
    Tick,
    /// Gives the next message of the slot.
    Give,
    /// Draws the bytes on the first page.
    Draw,
    Leave,
    /// Asks when something is next due. The plain agent can't tell.
    Due,
    /// Does nothing, while the time passes.
    Rest,
}

impl Kind {
    const ALL: [Kind; 7] =
        [Kind::Hear, Kind::Tick, Kind::Give, Kind::Draw, Kind::Leave, Kind::Due, Kind::Rest];
}

/// The settings of an agent.
#[derive(Clone, Copy)]
pub struct Setup {
    pub me: u8,
    pub members: u8,
    /// Bytes a second.
    pub rate: u32,
    /// Bytes.
    pub depth: u32,
}

impl Setup {
    /// A plain agent with these settings.
    pub fn plain_agent(self) -> Agent {
        let Setup { me, members, rate, depth } = self;
        let (rate, depth) = (rate.into(), depth.into());
        let config = Config { me, members, session: SESSION, rate, depth, c1: 2, c2: 2, d1: 1, d2: 1, least_distance: 1 };
        Agent::new(config, Pcg::new(1), 0)
    }
}

/// Calls of one agent, in order. A call is its kind, a slot, in two bytes how many bytes it hands in, in four how many microseconds
/// it comes after the one before, and the bytes.
#[derive(Clone, Default)]
pub struct Calls {
    bytes: Vec<u8>,
    count: u32,
}

impl Calls {
    /// Adds a call so many microseconds after the one before.
    pub fn add(&mut self, kind: Kind, slot: u8, after: u32, bytes: &[u8]) {
        let length = u16::try_from(bytes.len()).expect("a call hands in less than 65,536 bytes");
        self.bytes.extend([kind as u8, slot]);
        self.bytes.extend(length.to_be_bytes());
        self.bytes.extend(after.to_be_bytes());
        self.bytes.extend(bytes);
        self.count += 1;
    }

    /// Adds all calls of others.
    pub fn extend(&mut self, others: &Calls) {
        self.bytes.extend(&others.bytes);
        self.count += others.count;
    }

    /// As many calls, with the same bytes and at the same moments, that do nothing.
    pub fn resting(&self) -> Calls {
        let mut resting = self.clone();
        let mut start = 0;
        while start < resting.bytes.len() {
            resting.bytes[start] = Kind::Rest as u8;
            start += 8 + usize::from(u16::from_be_bytes([resting.bytes[start + 2], resting.bytes[start + 3]]));
        }
        resting
    }

    /// Has a proved agent make all calls. How many numbers it told, as far as there was room; with none it works none out.
    pub fn proved(&self, setup: Setup, told: &mut [u64]) -> usize {
        let Setup { me, members, rate, depth } = setup;
        // Sound: both slices live through the call, which reads the one and writes the other.
        let count = unsafe {
            srm_calls(me, members, rate, depth, self.count, self.bytes.as_ptr(), self.bytes.len(), told.as_mut_ptr(), told.len())
        };
        assert_ne!(count, usize::MAX, "memory ran out, or the calls aren't well formed");
        count
    }

    /// Has a plain agent make all calls. What it tells, if it does.
    pub fn plain(&self, setup: Setup, tells: bool) -> Vec<u64> {
        let mut agent = setup.plain_agent();
        let mut told = Vec::new();
        let mut now = 0;
        let mut rest = self.bytes.as_slice();
        while let Some(([kind, slot, high, low, a, b, c, d], behind)) = rest.split_first_chunk::<8>() {
            let (bytes, behind) = behind.split_at(u16::from_be_bytes([*high, *low]).into());
            rest = behind;
            now += u64::from(u32::from_be_bytes([*a, *b, *c, *d]));
            let words = call(&mut agent, Kind::ALL[usize::from(*kind)], *slot, bytes, now, tells);
            told.extend(words);
        }
        told
    }
}

/// One call of the plain agent, and what it tells, if it does.
fn call(agent: &mut Agent, kind: Kind, slot: u8, bytes: &[u8], now: u64, tells: bool) -> Vec<u64> {
    match kind {
        Kind::Hear => {
            let heard = agent.hear(bytes, now);
            told(&heard, tells, |(arms, outcome)| teller::heard(arms, *outcome))
        }
        Kind::Tick => told(&agent.tick(now), tells, teller::ticked),
        Kind::Give => told(&agent.give(slot.into()), tells, teller::given),
        Kind::Draw => told(&agent.draw(FIRST_PAGE, bytes, now), tells, |name| teller::drawn(*name)),
        Kind::Leave => {
            agent.leave(now);
            told(&(), tells, |()| teller::left())
        }
        Kind::Due | Kind::Rest => Vec::new(),
    }
}

/// What an answer is told in, if it is. Nothing of the answer may be left unmade where it isn't.
fn told<A>(answer: &A, tells: bool, words: impl FnOnce(&A) -> Vec<u64>) -> Vec<u64> {
    let answer = black_box(answer);
    if tells { words(answer) } else { Vec::new() }
}
