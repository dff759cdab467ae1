//! Outages whose moments follow from the protocol's rules: with `c2` and `d2` 0 nothing is left to chance, and with a tick each microsecond nothing waits for one.

use crate::figure::waits;
use crate::recovered::{ALL, Recovered, Setting};
use crate::session::Session;
use crate::tree::Tree;
use srm_bench::words::Pcg;

/// Two members, 10 ms apart, and all that crosses the link is lost for a second.
fn cut_off(setting: &Setting) -> Recovered {
    let tree = Tree::new(&[(0, 10_000)]);
    let session = Session::new(&tree, vec![0, 1]);
    Recovered::of(&session, 1, setting, 1_000_000, &mut Pcg::new(1))
}

const SETTING: Setting =
    Setting { waits: waits([2, 0, 1, 0]), rate: 1_000_000, depth: 100_000, least_distance: 1, tick: 1_000, lost: ALL };

/// The network loses all for a second, from 2.013 s on, and with it all four drawops and the session message of 3.000. The one of 4.000 comes at 4.010, 0.997 behind the end of the
/// loss. The member asks 20 ms later, which takes 10; the source waits 10, and its repairs take 10. Each waits for the next tick, a millisecond at most.
#[test]
fn what_was_lost_comes_with_the_next_session_message() {
    let recovered = cut_off(&SETTING);
    assert_eq!(recovered.losses, 4);
    assert!(recovered.is_met);
    let whole = recovered.whole.expect("all came");
    assert!((1_045_000..=1_051_000).contains(&whole), "{whole}");
    assert!(recovered.is_whole_within(recovered.bound.whole()));
    // The timer that was set last before all knew waits 20 ms: the member asks once.
    assert_eq!(recovered.waited, 20_000);
    assert!(recovered.is_whole_within(recovered.closer_bound()));
}

/// The delay is 10 ms, a hold-off 300 before the first echo; the bucket needs 0.448 ms for four requests and repairs. The member knows within 1.011 s, as it has to wait for a session
/// message. By then the wait of 20 ms can have doubled six times: after 0, 20, 60, 140, 300 and 620 ms. Where it may have learnt of a drawop as the network began to lose, 2.011 s
/// before, a seventh time: after 1,260 ms.
#[test]
fn the_bound_has_the_terms_of_the_laws() {
    let bound = cut_off(&SETTING).bound;
    assert_eq!((bound.timing.delay, bound.timing.hold_off, bound.timing.repair_wait), (10_000, 300_000, 10_000));
    assert_eq!((bound.timing.emptying, bound.interval), (1_448, 1_000_000));
    assert_eq!((bound.timing.settling_time(), bound.known()), (320_000, 1_011_000));
    assert_eq!(bound.request_wait, 64 * 20_000);
    assert_eq!(bound.whole(), 1_011_000 + 1_280_000 + 10_000 + 2 * (1_000 + 1_448 + 10_000));
    let most_lost = cut_off(&Setting { lost: 192, ..SETTING });
    assert_eq!(most_lost.bound.request_wait, 128 * 20_000);
}

/// A bound that is a microsecond shorter than what a session took isn't kept.
#[test]
fn what_lasts_longer_than_its_bound_is_told() {
    let mut recovered = cut_off(&SETTING);
    let whole = recovered.whole.expect("all came");
    assert!(recovered.is_whole_within(whole));
    assert!(!recovered.is_whole_within(whole - 1));
    recovered.whole = None;
    assert!(!recovered.is_whole_within(u64::MAX));
}
