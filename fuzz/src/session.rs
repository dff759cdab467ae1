//! One agent under attack: its calls, and what the plain agent answers to the same.

use crate::hostile::{GAP, Hostile};
use crate::judge::{self, Judge, Wanted};
use crate::ran::{self, Ran};
use crate::spelled::Spelled;
use srm_bench::calls::{Calls, FIRST_PAGE, Kind, Setup};
use srm_bench::datagram::{Datagram, Drawop, Name, Page};
use srm_bench::plain::{Agent, Outcome, State};
use srm_bench::teller;
use std::collections::HashSet;

/// Calls with what they are to answer, and what the plain agent knows after them.
pub struct Attack {
    pub setup: Setup,
    pub plain: Agent,
    pub now: u64,
    calls: Calls,
    wanted: Vec<Wanted>,
    held: HashSet<Name>,
    /// Bytes of the bodies that are held.
    pub bodies: u64,
    /// Names that are known to exist.
    pub known: u64,
}

impl Attack {
    pub fn new(setup: Setup) -> Attack {
        Attack {
            setup,
            plain: setup.plain_agent(),
            now: 0,
            calls: Calls::default(),
            wanted: Vec::new(),
            held: HashSet::new(),
            bodies: 0,
            known: 0,
        }
    }

    /// After each call the proved agent also tells when something is next due.
    fn call(&mut self, kind: Kind, slot: u8, after: u32, bytes: &[u8]) {
        self.calls.add(kind, slot, after, bytes);
        self.calls.add(Kind::Due, 0, 0, &[]);
        self.now += u64::from(after);
    }

    pub fn hear(&mut self, after: u32, bytes: &[u8]) {
        self.call(Kind::Hear, 0, after, bytes);
        let spelled = Spelled::read(bytes);
        let streams: HashSet<(u8, Page)> =
            spelled.iter().flat_map(|spelled| &spelled.names).map(|name| (name.source, name.page)).collect();
        let known = |plain: &Agent| -> u64 { streams.iter().map(|stream| u64::from(plain.known(stream.0, stream.1))).sum() };
        let before = known(&self.plain);
        let (arms, outcome) = self.plain.hear(bytes, self.now);
        self.known += known(&self.plain) - before;
        self.wanted.push(judge::heard(bytes, &arms, outcome));
        if let (Outcome::Taken, Some(Spelled { drawop: Some(drawop), .. })) = (outcome, spelled) {
            self.hold(&drawop);
        }
    }

    fn hold(&mut self, drawop: &Drawop) {
        if self.held.insert(drawop.name) {
            self.bodies += drawop.body.len() as u64;
        }
    }

    /// Ticks, and answers how many datagrams went and whether data of its own was among them.
    pub fn tick(&mut self, after: u32) -> (usize, bool) {
        self.call(Kind::Tick, 0, after, &[]);
        let ticked = self.plain.tick(self.now);
        self.wanted.push(Wanted::Said(teller::ticked(&ticked)));
        let has_data = ticked.outs.iter().any(|(datagram, _)| matches!(datagram, Datagram::Data(_)));
        (ticked.outs.len(), has_data)
    }

    pub fn give(&mut self, slot: u8) {
        self.call(Kind::Give, slot, 0, &[]);
        self.wanted.push(Wanted::Said(teller::given(&self.plain.give(slot.into()))));
    }

    pub fn draw(&mut self, body: &[u8]) {
        self.call(Kind::Draw, 0, 0, body);
        let name = self.plain.draw(FIRST_PAGE, body, self.now).expect("room for a drawop");
        let drawop = Drawop { name, stamp: self.now, body: body.into() };
        self.known += 1;
        self.hold(&drawop);
        self.wanted.push(Wanted::Drew(drawop));
    }

    /// The member leaves, and ticks until it is gone.
    pub fn leave(&mut self) {
        self.call(Kind::Leave, 0, 0, &[]);
        self.plain.leave(self.now);
        self.wanted.push(Wanted::Said(teller::left()));
        loop {
            self.call(Kind::Tick, 0, 1_000_000, &[]);
            let ticked = self.plain.tick(self.now);
            self.wanted.push(Wanted::Said(teller::ticked(&ticked)));
            if ticked.state == State::Gone {
                break;
            }
        }
    }

    /// Hears a repair with another body for each name that is held.
    pub fn probe(&mut self) {
        let mut names: Vec<Name> = self.held.iter().copied().collect();
        names.sort_unstable();
        let sender = (self.setup.me + 1) % self.setup.members;
        for name in names {
            let drawop = Drawop { name, stamp: 1 << 48, body: b"another".as_slice().into() };
            let bytes = Datagram::Repair { sender, drawop }.encode(srm_bench::calls::SESSION);
            self.hear(0, &bytes);
        }
    }

    pub fn held(&self) -> u64 {
        self.held.len() as u64
    }

    pub fn missing(&self) -> u64 {
        self.known - self.held()
    }

    /// Whether a datagram's numbers lie at most so far ahead.
    pub fn is_near(&self, bytes: &[u8]) -> bool {
        let names = Spelled::read(bytes).map_or(Vec::new(), |spelled| spelled.names);
        names.iter().all(|name| name.number <= self.plain.known(name.source, name.page) + GAP)
    }

    /// A hostile datagram comes.
    pub fn hear_hostile(&mut self, hostile: &mut Hostile) {
        hostile.now = self.now;
        hostile.may_gap = hostile.is_far || self.missing() < MISSING;
        let after = hostile.random.below(2_000) as u32;
        let bytes = loop {
            let bytes = hostile.datagram(&self.plain);
            if hostile.is_far || self.is_near(&bytes) {
                break bytes;
            }
        };
        self.hear(after, &bytes);
    }

    /// How many numbers the proved agent may tell.
    fn room(&self) -> usize {
        let words = |wanted: &Wanted| match wanted {
            Wanted::Said(words) => words.len(),
            _ => 3,
        };
        self.wanted.iter().map(|wanted| words(wanted) + 1).sum::<usize>() + 1
    }

    /// Two proved agents make the calls; what they told is judged.
    pub fn run(&self) -> (Ran, Judge) {
        let mut ran = ran::run(&self.calls, self.setup, self.room());
        let again = ran::run(&self.calls, self.setup, self.room());
        assert!(ran.told == again.told, "a second agent answers the same");
        ran.most = ran.most.max(again.most);
        let mut judge = Judge::default();
        for (number, wanted) in self.wanted.iter().enumerate() {
            judge.judge(&ran.told, number, wanted);
        }
        judge.end(&ran.told);
        (ran, judge)
    }
}

/// So many names may be missing before no gap is made any more: each of them is asked for again and again.
const MISSING: u64 = 2_000;
