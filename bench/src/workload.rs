//! The calls that agents are measured at.

use crate::calls::{Calls, Kind, SESSION, Setup};
use crate::datagram::{Datagram, Drawop, Echo, Name, Page};

/// So many drawops, names or calls are measured at once.
pub const COUNT: u32 = 50_000;

/// Member 0 of three, with a rate that lets everything go.
pub const SETUP: Setup = Setup { me: 0, members: 3, rate: 100_000_000, depth: 1_000_000 };

const PAGE: Page = Page { creator: 0, number: 0 };

/// Microseconds from one call to the next.
const STEP: u32 = 10;

/// Calls whose cost is measured, behind others.
pub struct Workload {
    pub title: &'static str,
    before: Calls,
    measured: Calls,
    /// What the cost is divided by.
    pub each: u32,
}

/// All workloads.
pub fn workloads() -> Vec<Workload> {
    let heard = data(1..=COUNT);
    let missing = data([COUNT]);
    let late = (1..=COUNT).filter(|number| number % 10 != 0).chain((1..=COUNT / 10).map(|tenth| 10 * tenth));
    let workload = |title, before: &Calls, measured: Calls, each| Workload { title, before: before.clone(), measured, each };
    let nothing = Calls::default();
    vec![
        workload("hear, data in order", &nothing, heard.clone(), COUNT),
        workload("hear, one in ten lost and then sent again", &nothing, data(late), COUNT),
        workload("hear, the last number first, each name", &nothing, missing.clone(), COUNT),
        workload("give", &heard, repeated(Kind::Give, COUNT + 1, 0), COUNT + 1),
        workload("draw, and a tick that sends it", &nothing, drawn_and_sent(), COUNT),
        workload("tick with nothing due", &heard, repeated(Kind::Tick, COUNT, 1), COUNT),
        workload("tick that asks, each name", &missing, repeated(Kind::Tick, 1, 400_000), COUNT),
        workload("hear, repairs in order", &nothing, repairs(1..=COUNT), COUNT),
        workload("hear, repairs of 50,000 missing", &missing, repairs(1..=COUNT), COUNT),
        workload("hear, a request for 33 held names, each name", &heard, requests(), COUNT / 33 * 33),
        workload("hear, a session message of 3 members", &known_members(), reports(), COUNT),
    ]
}

impl Workload {
    /// The calls up to the end, and as many of which those that are measured do nothing.
    pub fn both(&self) -> [Calls; 2] {
        [&self.measured, &self.measured.resting()].map(|measured| {
            let mut calls = self.before.clone();
            calls.extend(measured);
            calls
        })
    }
}

fn body() -> crate::datagram::Body {
    [7u8; 64].as_slice().into()
}

fn drawop(source: u8, number: u32) -> Drawop {
    Drawop { name: Name { source, page: PAGE, number }, stamp: number.into(), body: body() }
}

/// The datagrams are heard one after the other.
fn heard(datagrams: impl IntoIterator<Item = Datagram>) -> Calls {
    let mut calls = Calls::default();
    for datagram in datagrams {
        calls.add(Kind::Hear, 0, STEP, &datagram.encode(SESSION));
    }
    calls
}

/// Data of member 1 with these numbers.
fn data(numbers: impl IntoIterator<Item = u32>) -> Calls {
    heard(numbers.into_iter().map(|number| Datagram::Data(drawop(1, number))))
}

/// Repairs by member 2 of what member 1 drew with these numbers.
fn repairs(numbers: impl IntoIterator<Item = u32>) -> Calls {
    heard(numbers.into_iter().map(|number| Datagram::Repair { sender: 2, drawop: drawop(1, number) }))
}

/// Requests by member 2, for 33 names each, of what member 1 drew.
fn requests() -> Calls {
    let first = (0..COUNT / 33).map(|place| 33 * place + 1);
    heard(first.map(|number| Datagram::Request { sender: 2, name: drawop(1, number).name, mask: u32::MAX }))
}

/// So many calls that hand in nothing.
fn repeated(kind: Kind, count: u32, after: u32) -> Calls {
    let mut calls = Calls::default();
    for _ in 0..count {
        calls.add(kind, 0, after, &[]);
    }
    calls
}

fn drawn_and_sent() -> Calls {
    let mut calls = Calls::default();
    for _ in 0..COUNT {
        calls.add(Kind::Draw, 0, STEP, &body());
        calls.add(Kind::Tick, 0, 0, &[]);
    }
    calls
}

/// A drawop of each member.
fn known_members() -> Calls {
    let mut calls = heard([1, 2].map(|source| Datagram::Data(drawop(source, 1))));
    calls.add(Kind::Draw, 0, STEP, &body());
    calls
}

/// Session messages of member 1, each of which changes its distance.
fn reports() -> Calls {
    let rows: Vec<Name> = [0, 1, 2].map(|source| drawop(source, 1).name).to_vec();
    heard((1..=COUNT).map(|number| {
        let sent = u64::from(number * STEP);
        let echoes = [0, 2].map(|member| Echo { member, t1: sent, delay: u64::from(number % 7) });
        Datagram::Session { sender: 1, sent, farewell: false, shown: PAGE, rows: rows.clone(), echoes: echoes.to_vec() }
    }))
}

/// How many drawops the agent has whose memory is counted, and the bytes of each body.
pub const DRAWOPS: u32 = 65_536;
pub const BODY: usize = 200;

/// What fills an agent with drawops, and how.
pub fn fillings() -> [(&'static str, Calls); 3] {
    let body = [7u8; BODY];
    let large = |number| Drawop { body: body.as_slice().into(), ..drawop(1, number) };
    let mut drawn = Calls::default();
    for _ in 0..DRAWOPS {
        drawn.add(Kind::Draw, 0, STEP, &body);
    }
    let data = heard((1..=DRAWOPS).map(|number| Datagram::Data(large(number))));
    let repairs = heard((1..=DRAWOPS).map(|number| Datagram::Repair { sender: 2, drawop: large(number) }));
    [("drawn and waiting", drawn), ("heard as data", data), ("heard as repairs", repairs)]
}
