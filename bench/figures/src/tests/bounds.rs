//! Bounds at the numbers that `crates/srm_recovery/specs/Examples.antt` proves, and exponents that are worked out by the rules.

use crate::figure::waits;
use crate::timing::{
    FIRST_DISTANCE, GREATEST_EXPONENT, Timing, emptying_time, exponent_within, longest_hold_off, longest_interval, longest_repair_wait,
    longest_request_wait, session_length,
};
use srm_bench::losses::Waits;

const DEFAULT: Waits = waits([2, 2, 1, 1]);

/// Before its first echo a member takes another one to be farther away than these are.
fn timing(delay: u64, distance: u64) -> Timing {
    Timing {
        delay,
        tick: 10_000,
        emptying: 10_000,
        repair_wait: longest_repair_wait(DEFAULT, distance),
        hold_off: longest_hold_off(distance.max(FIRST_DISTANCE)),
    }
}

#[test]
fn members_far_away_recover_as_is_proved() {
    let far = timing(60_000, 50_000);
    assert_eq!(far.settling_time(), 420_000);
    assert_eq!(far.repair_time(200_000), 460_000);
    assert_eq!(far.repair_time(longest_request_wait(DEFAULT, GREATEST_EXPONENT, 50_000)), 51_460_000);
    assert_eq!(far.sharing_time(1_000_000, 200_000), 1_530_000);
}

#[test]
fn members_on_a_lan_recover_as_is_proved() {
    let near = timing(1_000, 5_000);
    assert_eq!(near.settling_time(), 302_000);
    assert_eq!(near.repair_time(20_000), 72_000);
    assert_eq!(near.repair_time(longest_request_wait(DEFAULT, GREATEST_EXPONENT, 5_000)), 5_172_000);
    assert_eq!(near.sharing_time(1_000_000, 20_000), 1_083_000);
}

#[test]
fn session_messages_come_as_is_proved() {
    assert_eq!(longest_interval(8_000, 2, 56), 1_000_000);
    assert_eq!(longest_interval(8_000, 32, 806), 64_480_000);
}

/// Of 32 members that all draw: 23 + 8 * 32 + 17 * 31.
#[test]
fn a_session_message_has_rows_and_echoes() {
    assert_eq!(session_length(32, 32), 806);
    assert_eq!(session_length(2, 2), 56);
}

/// 1,051 bytes take 16.4 ms at 64,000 bytes a second.
#[test]
fn a_bucket_is_empty_a_tick_and_what_the_rate_takes_later() {
    assert_eq!(emptying_time(10_000, 64_000, 1_051), 26_422);
    assert_eq!(emptying_time(10_000, 64_000, 0), 10_000);
}

/// The least wait is 20 ms at first, and 40 once it was doubled at once; the next doublings come 20, 40, 80 .. behind each other.
#[test]
fn waits_are_doubled_at_half_of_them_at_the_earliest() {
    let after = |time| exponent_within(time, DEFAULT, 10_000);
    assert_eq!([0, 19_999].map(after), [1, 1]);
    assert_eq!([20_000, 59_999].map(after), [2, 2]);
    assert_eq!([60_000, 139_999].map(after), [3, 3]);
    assert_eq!(after(140_000), 4);
    assert_eq!(after(1_000_000_000), 8);
}

/// Without a least wait all doublings may come at once.
#[test]
fn a_wait_of_nothing_is_doubled_at_once() {
    assert_eq!(exponent_within(0, waits([0, 2, 1, 1]), 10_000), 8);
}
