//! What the plain agent's calls answer, as the numbers that the proved one's are told in.

use crate::datagram::{Datagram, Name};
use crate::plain::{Arm, Outcome, PageMsg, Ticked};

/// The eight bytes that spell the name.
pub fn of_name(name: Name) -> u64 {
    let [p, q] = name.page.number.to_be_bytes();
    let [a, b, c, d] = name.number.to_be_bytes();
    u64::from_be_bytes([name.source, name.page.creator, p, q, a, b, c, d])
}

fn digest(numbers: impl IntoIterator<Item = u64>) -> u64 {
    numbers.into_iter().fold(1, |value: u64, number| value.wrapping_mul(31).wrapping_add(number))
}

/// How many bytes there are, and a number made of them.
pub fn of_bytes(bytes: &[u8]) -> [u64; 2] {
    [bytes.len() as u64, digest(bytes.iter().map(|byte| u64::from(*byte)))]
}

fn of_names(names: &[Name]) -> [u64; 2] {
    [names.len() as u64, digest(names.iter().map(|name| of_name(*name)))]
}

/// How many timers there are, and a number made of them.
pub fn of_arms(arms: &[Arm]) -> [u64; 2] {
    let each = arms.iter().flat_map(|arm| [u64::from(arm.is_fix), u64::from(arm.exponent), arm.distance, arm.wait]);
    [arms.len() as u64, digest(each)]
}

/// 0 where it was taken and 1 where it was ignored, whatever the cause, and the timers.
pub fn heard(arms: &[Arm], outcome: Outcome) -> Vec<u64> {
    let [count, arms] = of_arms(arms);
    vec![u64::from(outcome == Outcome::Ignored), count, arms]
}

pub fn ticked(ticked: &Ticked) -> Vec<u64> {
    let mut words = Vec::new();
    words.extend(of_names(&ticked.asks));
    words.extend(of_names(&ticked.fixes));
    words.extend(of_arms(&ticked.arms));
    words.push(ticked.outs.len() as u64);
    for (datagram, bytes) in &ticked.outs {
        words.push(match datagram {
            Datagram::Data(drawop) | Datagram::Repair { drawop, .. } => of_name(drawop.name),
            _ => 0,
        });
        words.extend(of_bytes(bytes));
    }
    words
}

pub fn given(message: &Option<PageMsg>) -> Vec<u64> {
    match message {
        None => vec![0],
        Some(PageMsg::Open(page)) => vec![1, of_name(Name { source: 0, page: *page, number: 0 })],
        Some(PageMsg::Draw(drawop)) => {
            let [length, body] = of_bytes(&drawop.body);
            vec![2, of_name(drawop.name), drawop.stamp, length, body]
        }
        Some(PageMsg::Left(source)) => vec![3, u64::from(*source)],
        Some(PageMsg::Close) => vec![4],
    }
}

pub fn drawn(name: Option<Name>) -> Vec<u64> {
    vec![name.map_or(0, of_name)]
}

pub fn left() -> Vec<u64> {
    vec![1]
}
