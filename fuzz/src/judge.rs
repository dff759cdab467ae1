//! What a caller can see of an agent's answers, and whether it is as it has to be.

use crate::spelled::Spelled;
use srm_bench::datagram::{Drawop, Name};
use srm_bench::plain::{Arm, Outcome};
use srm_bench::teller::{of_arms, of_bytes, of_name};
use std::collections::{BTreeMap, HashMap};

/// What the plain agent answered, by which the proved one is judged.
pub enum Wanted {
    /// The datagram that the bytes spell, whether it was taken, and the timers.
    Heard(Option<Spelled>, bool, [u64; 2]),
    Said(Vec<u64>),
    /// What the member drew itself.
    Drew(Drawop),
}

pub fn heard(bytes: &[u8], arms: &[Arm], outcome: Outcome) -> Wanted {
    Wanted::Heard(Spelled::read(bytes), outcome == Outcome::Taken, of_arms(arms))
}

/// Reads what the proved agent told, call by call.
#[derive(Default)]
pub struct Judge {
    at: usize,
    /// The stamp and the body of each name that was taken first.
    held: HashMap<Name, (u64, [u64; 2])>,
    /// How many datagrams had each outcome: 0 where it was taken, else its cause, with 256 times its fault.
    pub outcomes: BTreeMap<u64, u64>,
    pub arms: u64,
}

impl Judge {
    /// The next words of what was told.
    fn next<const N: usize>(&mut self, told: &[u64]) -> [u64; N] {
        let words = told[self.at..self.at + N].try_into().expect("as many words");
        self.at += N;
        words
    }

    /// Judges the answer to the next call.
    pub fn judge(&mut self, told: &[u64], number: usize, wanted: &Wanted) {
        match wanted {
            Wanted::Heard(spelled, is_taken, arms) => {
                let [outcome, count, digest] = self.next(told);
                assert!((0..=7).contains(&(outcome % 256)), "call {number}: a cause is one of seven");
                assert_eq!(outcome % 256 == 6, outcome > 256, "call {number}: a fault comes with its cause");
                assert!((1..=11).contains(&(outcome / 256)) || outcome < 256, "call {number}: a fault is one of eleven");
                assert_eq!(outcome == 0, *is_taken, "call {number}: the plain agent takes the same");
                assert_eq!([count, digest], *arms, "call {number}: the plain agent sets the same timers");
                assert!(outcome == 0 || count == 0, "call {number}: what is ignored sets no timer");
                assert_eq!(outcome % 256 == 6, spelled.is_none() && outcome != 2, "call {number}: noise is what spells no datagram");
                *self.outcomes.entry(outcome).or_default() += 1;
                self.arms += count;
                if let Some(Spelled { drawop: Some(drawop), .. }) = spelled {
                    self.hold(drawop, outcome, number);
                }
            }
            Wanted::Drew(drawop) => {
                let [name] = self.next(told);
                assert_eq!(name, of_name(drawop.name), "call {number}: a draw has the next number");
                self.held.insert(drawop.name, (drawop.stamp, of_bytes(&drawop.body)));
            }
            Wanted::Said(words) => {
                let said = &told[self.at..self.at + words.len()];
                assert_eq!(said, words, "call {number}: the plain agent answers the same");
                self.at += words.len();
            }
        }
        let [_due] = self.next(told);
    }

    /// What is held stays: another drawop under its name is never taken, and it itself never conflicts.
    fn hold(&mut self, drawop: &Drawop, outcome: u64, number: usize) {
        let content = (drawop.stamp, of_bytes(&drawop.body));
        match self.held.get(&drawop.name) {
            Some(held) if outcome == 0 => assert_eq!(*held, content, "call {number}: what is held never changes"),
            Some(held) if outcome == 3 => assert_ne!(*held, content, "call {number}: what is held doesn't conflict"),
            None if outcome == 0 => {
                self.held.insert(drawop.name, content);
            }
            None => assert_ne!(outcome, 3, "call {number}: what isn't held doesn't conflict"),
            _ => {}
        }
    }

    pub fn end(&self, told: &[u64]) {
        assert_eq!(self.at, told.len(), "nothing else was told");
    }
}
