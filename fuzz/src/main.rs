//! Hostile datagrams against the proved agent.

mod costs;
mod hostile;
mod judge;
#[path = "../../bench/src/memory.rs"]
mod memory;
mod random;
mod ran;
mod session;
mod spelled;

use hostile::Hostile;
use random::Random;
use session::Attack;
use srm_bench::calls::Setup;
use std::time::Instant;

/// Bytes of memory that a known name takes at most, beside its body, and that everything else does.
const EACH_NAME: u64 = 1_024;
const FIXED: u64 = 4 << 20;

fn main() {
    let arguments: Vec<String> = std::env::args().skip(1).collect();
    let seed = arguments.get(1).map_or(1, |seed| seed.parse().expect("a seed"));
    let count = arguments.get(2).map_or(1_000_000, |count| count.parse().expect("a count"));
    match arguments.first().map(String::as_str) {
        Some("near") => {
            attack("near, 32 members", seed, count, 32, false);
            attack("near, 5 members", seed, count / 10, 5, false);
        }
        Some("far") => attack("far, 32 members", seed, count.min(200), 32, true),
        Some("costs") => costs::measure(),
        _ => panic!("what to run: near, far or costs; a seed; how many datagrams"),
    }
}

fn attack(title: &str, seed: u64, count: u32, members: u8, is_far: bool) {
    let start = Instant::now();
    let mut attack = Attack::new(Setup { me: 1, members, rate: 100_000_000, depth: 1_000_000 });
    let mut hostile = Hostile { random: Random::new(seed), me: 1, members, is_far, may_gap: true, now: 0 };
    for number in 0..count {
        attack.hear_hostile(&mut hostile);
        if number % 10 == 0 {
            attack.give(hostile.random.below(8) as u8);
        }
        if number % 500 == 0 {
            attack.tick(1);
        }
        if number % 1_000 == 0 {
            attack.draw(&number.to_be_bytes());
        }
    }
    let under_attack = (attack.known, attack.held(), attack.bodies);
    attack.probe();
    attack.leave();
    for _ in 0..100 {
        attack.hear_hostile(&mut hostile);
    }
    let made = start.elapsed();
    let (ran, judge) = attack.run();
    let (known, held, bodies) = under_attack;
    let bound = FIXED + EACH_NAME * known + bodies;
    println!("{title}, seed {seed}: {count} datagrams, made in {:.1} s", made.as_secs_f64());
    println!("  known {known}, held {held}, bytes of bodies {bodies}, timers set {}", judge.arms);
    println!("  each proved agent took {:.1} s and at most {:.1} MB", ran.took.as_secs_f64(), ran.most as f64 / 1e6);
    println!("  {:.0} bytes a known name; the bound is {:.1} MB", ran.most as f64 / known as f64, bound as f64 / 1e6);
    for (outcome, count) in &judge.outcomes {
        println!("  {count:>8} {}", name_of(*outcome));
    }
    assert!(ran.most as u64 <= bound, "memory stays within the bound");
}

fn name_of(outcome: u64) -> String {
    const CAUSES: [&str; 8] =
        ["taken", "its own", "gone", "a conflict", "no room for a page", "beyond a final", "", "a stranger"];
    const FAULTS: [&str; 12] =
        ["", "short", "magic", "version", "kind", "session", "member", "number", "length", "order", "flags", "source"];
    match outcome / 256 {
        0 => CAUSES[outcome as usize].to_string(),
        fault => format!("noise: {}", FAULTS[fault as usize]),
    }
}
