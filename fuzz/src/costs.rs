//! What one hostile datagram costs at worst.

use crate::ran::{self, Ran};
use crate::session::Attack;
use srm_bench::calls::{Calls, Kind, SESSION, Setup};
use srm_bench::datagram::{DRAWOPS, Datagram, Echo, Name, Page};

/// The settings that an agent has where nothing else is said, in a roster of 32.
const USUAL: Setup = Setup { me: 1, members: 32, rate: 8_000, depth: 4_204 };

fn page(place: u16) -> Page {
    Page { creator: 0, number: place }
}

/// A session message with so many rows, each up to the greatest number.
fn rows(count: u16) -> Vec<u8> {
    let row = |place: u16| Name { source: (place / 8) as u8, page: page(place % 8), number: DRAWOPS };
    // The member's own streams would be beyond what it drew.
    let rows: Vec<Name> = (0..count + 8).map(row).filter(|row| row.source != USUAL.me).take(count.into()).collect();
    let echoes = Vec::new();
    Datagram::Session { sender: 0, sent: 1, farewell: false, shown: page(0), rows, echoes }.encode(SESSION)
}

/// A session message of member 0 that makes it look a microsecond away, with one row.
fn close_by(number: u32) -> Vec<u8> {
    let rows = vec![Name { source: 0, page: page(0), number }];
    let echoes = vec![Echo { member: USUAL.me, t1: 0, delay: 1 << 48 }];
    Datagram::Session { sender: 0, sent: 1, farewell: false, shown: page(0), rows, echoes }.encode(SESSION)
}

fn run(calls: &[(Kind, u32, Vec<u8>)]) -> Ran {
    let mut all = Calls::default();
    for (kind, after, bytes) in calls {
        all.add(*kind, 0, *after, bytes);
    }
    ran::run(&all, USUAL, 1 << 22)
}

fn print(title: &str, bytes: usize, ran: &Ran) {
    println!("{title}: {bytes} bytes, {:.6} s, {:.3} MB", ran.took.as_secs_f64(), ran.most as f64 / 1e6);
}

pub fn measure() {
    print("an agent that hears nothing", 0, &run(&[(Kind::Tick, 1, Vec::new())]));
    for count in [1, 16, 240] {
        let message = rows(count);
        let ran = run(&[(Kind::Hear, 1, message.clone())]);
        print(&format!("a session message with {count} rows"), message.len(), &ran);
    }
    let zero = vec![0u8; 1_051];
    for (title, bytes) in [("noise", zero), ("a session message that says nothing new", close_by(1))] {
        let calls: Vec<(Kind, u32, Vec<u8>)> = (0..100_000).map(|_| (Kind::Hear, 1, bytes.clone())).collect();
        print(&format!("100,000 times {title}"), bytes.len(), &run(&calls));
    }
    for number in [1, 33, 1_000, DRAWOPS] {
        let message = close_by(number);
        let mut calls = vec![(Kind::Hear, 1, message.clone())];
        calls.extend((0..100).map(|_| (Kind::Tick, 1_000, Vec::new())));
        let ran = run(&calls);
        print(&format!("{number} numbers that look a microsecond away, and 100 ticks"), message.len(), &ran);
    }
    for is_attacked in [false, true] {
        own_data(is_attacked);
    }
}

/// When a member's own drawop goes, with ticks each millisecond.
fn own_data(is_attacked: bool) {
    let mut attack = Attack::new(USUAL);
    let message = close_by(if is_attacked { 33 } else { 1 });
    let mut sent = 0;
    let mut went = None;
    if is_attacked {
        attack.hear(1, &message);
    }
    for number in 0..20_000 {
        if number == 5_000 {
            attack.draw(&[7; 64]);
        }
        let (count, has_data) = attack.tick(1_000);
        sent += count;
        if has_data {
            went.get_or_insert(number - 5_000);
        }
    }
    let (ran, _) = attack.run();
    println!(
        "20,000 ticks, a millisecond apart, {}: sent {sent} datagrams, own data went after {went:?} ms, {:.3} MB",
        if is_attacked { "after one such message with 33 numbers" } else { "not attacked" },
        ran.most as f64 / 1e6
    );
}
