//! Losses whose moments follow from the protocol's rules: with `c2` and `d2` 0 nothing is left to chance. Moments are milliseconds from when the
//! next drawop is drawn.

use crate::cost::Cost;
use crate::figure::waits;
use crate::session::Session;
use crate::tree::Tree;

/// What it costs when one drawop is lost on a link.
fn lose(legs: &[u32], members: &[usize], link: usize, [c1, d1]: [u8; 2]) -> Cost {
    let links: Vec<(usize, u32)> = legs.iter().map(|millis| (0, millis * 1_000)).collect();
    let tree = Tree::new(&links);
    let session = Session::new(&tree, members.into());
    let seeds: Vec<u64> = (0..members.len() as u64).collect();
    session.lose_by(&seeds, link, waits([c1, 0, d1, 0]), 1).remove(0)
}

/// When each member that missed it found that and gained it.
fn recovered(cost: &Cost) -> Vec<(usize, u64, u64)> {
    let millis = |moment: u64| (moment - cost.shown) / 1_000;
    cost.recoveries.iter().map(|own| (own.member, millis(own.missed), millis(own.gained))).collect()
}

/// The member is 10 ms away: it hears the next at 10, waits twice that, and asks at 30. The source hears that at 40, waits once that, and repairs at
/// 50. Its own timer is set again for 40, to 70.
#[test]
fn one_member_asks_once() {
    let cost = lose(&[10], &[0, 1], 1, [2, 1]);
    assert_eq!((cost.requests, cost.repairs), (1, 1));
    let millis = |moment: u64| (moment - cost.shown) / 1_000;
    assert_eq!([millis(cost.first_request), millis(cost.first_heard), millis(cost.first_repair)], [30, 40, 50]);
    assert_eq!(recovered(&cost), [(1, 10, 60)]);
    assert_eq!(cost.last().delay().to_string(), "2.500");
}

/// It asks at 20, and again at 40, as the repair comes at 50. The source repaired at 40, and is held off until 70.
#[test]
fn one_member_asks_twice_where_it_waits_less_than_a_repair_takes() {
    let cost = lose(&[10], &[0, 1], 1, [1, 1]);
    assert_eq!((cost.requests, cost.repairs), (2, 1));
    assert_eq!(recovered(&cost), [(1, 10, 50)]);
    assert_eq!(cost.last().delay().to_string(), "2.000");
}

/// Legs of 10, 10 and 30 around a middle, and the source's fails. Member 1 is 20 from it and asks at 60; member 2, 40 from it, would at 120, and
/// hears that request at 100. The source hears it at 80 and repairs at 100, which comes at 120 and 140. Member 1 would ask again at 140.
#[test]
fn the_nearer_of_two_asks() {
    let cost = lose(&[10, 10, 30], &[1, 2, 3], 1, [2, 1]);
    assert_eq!((cost.requests, cost.repairs), (1, 1));
    assert_eq!(recovered(&cost), [(1, 20, 120), (2, 40, 140)]);
    assert_eq!((cost.last().member, cost.last().delay().to_string()), (2, "1.250".into()));
}

/// The same legs, and member 2's fails. It asks at 40 + 80. Both others hear that at 160, as each is 40 away, and repair at 200, when neither has
/// heard the other: so both do.
#[test]
fn two_that_are_as_near_repair_both() {
    let cost = lose(&[10, 10, 30], &[1, 2, 3], 3, [2, 1]);
    assert_eq!((cost.requests, cost.repairs), (1, 2));
    assert_eq!(recovered(&cost), [(2, 40, 240)]);
}

/// What is lost one after the other costs the same where nothing is left to chance.
#[test]
fn each_loss_is_by_itself() {
    let tree = Tree::new(&[(0, 10_000), (1, 10_000), (2, 10_000)]);
    let session = Session::new(&tree, vec![0, 1, 2, 3]);
    let costs = session.lose_by(&[1, 2, 3, 4], 2, waits([2, 0, 1, 0]), 3);
    let told: Vec<_> = costs.iter().map(|cost| (cost.requests, cost.repairs, recovered(cost))).collect();
    // Member 2 asks at 20 + 40, member 1 hears that at 70 and repairs at 80.
    assert_eq!(told, vec![(1, 1, vec![(2, 20, 90), (3, 30, 100)]); 3]);
}
