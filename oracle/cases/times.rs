//! Entries 1, 2, 3, 16 and 18: clocks, and sums and differences of times.

use crate::support::{due, interval, raw, tick, Set, TOO_LARGE};
use std::task::Poll;
use std::time::Duration;
use wasmtimer::std::Instant;
use wasmtimer::timer::clock::Clock;
use wasmtimer::tokio::MissedTickBehavior::{Burst, Skip};

/// The longest duration of 64 bits of nanoseconds.
const LONGEST: Duration = Duration::from_nanos(u64::MAX);

/// A fresh clock at a raw counter.
fn fresh(counter: u64) -> Clock {
    raw(counter);
    Clock::new(false)
}

/// What a clock reads at a raw counter.
fn reading(clock: &Clock, counter: u64) -> u128 {
    raw(counter);
    clock.now().nanos()
}

/// The base of a clock.
fn base(clock: &Clock) -> u128 {
    clock.parts().0.nanos()
}

/// A clock at 2^64-1 that runs from raw 0.
fn at_the_top() -> Clock {
    let clock = fresh(0);
    clock.pause();
    clock.advance(LONGEST);
    clock.resume();
    clock
}

#[test]
fn entry_1_a_reading_behind_the_start_counts_as_no_time() {
    assert_eq!(reading(&fresh(1), 0), 1);
}

#[test]
fn entry_1_a_pause_behind_the_start_counts_as_no_time() {
    let clock = fresh(1);
    raw(0);
    clock.pause();
    assert!(clock.paused());
    assert_eq!(base(&clock), 1);
}

#[test]
fn entry_2_a_clock_advances_past_64_bits() {
    let clock = fresh(1);
    clock.pause();
    clock.advance(LONGEST);
    assert_eq!(base(&clock), TOO_LARGE);
}

#[test]
fn entry_2_a_clock_reads_past_64_bits() {
    assert_eq!(reading(&at_the_top(), 1), TOO_LARGE);
}

#[test]
fn entry_2_a_clock_pauses_past_64_bits() {
    let clock = at_the_top();
    raw(1);
    clock.pause();
    assert_eq!(base(&clock), TOO_LARGE);
}

#[test]
fn entry_2_an_interval_reset_goes_past_64_bits() {
    let set = Set::fresh();
    let mut interval = interval(set.add(0), LONGEST, Burst);
    raw(1);
    interval.reset();
    assert_eq!(due(&interval), TOO_LARGE);
}

#[test]
fn entry_2_a_tick_goes_past_64_bits() {
    let mut set = Set::fresh();
    let mut interval = interval(set.add(1), LONGEST, Burst);
    set.turn(1);
    assert_eq!(tick(&mut interval, 1), Poll::Ready(1));
    assert_eq!(due(&interval), TOO_LARGE);
}

#[test]
fn entry_3_a_late_skip_whose_sum_is_too_large_and_whose_result_is_not() {
    let period = 18_446_744_073_704_551_615;
    let mut set = Set::fresh();
    let mut interval = interval(set.add(0), Duration::from_nanos(period), Skip);
    set.turn(0);
    assert_eq!(tick(&mut interval, 5_000_001), Poll::Ready(0));
    assert_eq!(due(&interval), u128::from(period));
}

/// The published text reads milliseconds in a floating-point number and cuts them to microseconds. These two lines are its own; the
/// changed text does not have them.
#[test]
fn entry_16_the_published_counter_is_cut_to_microseconds() {
    let performance_now = 0.000001;
    let val = (performance_now * 1000.0) as u64;
    assert_eq!(Duration::from_micros(val), Duration::ZERO);
}

#[test]
fn entry_16_the_counter_handed_in_is_not_cut() {
    assert_eq!(reading(&fresh(1), 1), 1);
}

#[test]
fn entry_18_a_timer_that_is_overdue_has_zero_left() {
    let mut set = Set::fresh();
    let sleep = set.add(0);
    let reading = Instant::of_nanos(1);
    assert_eq!(sleep.deadline() - reading, Duration::ZERO);
    set.turn(1);
    assert!(sleep.is_elapsed());
    assert_eq!(sleep.deadline() - reading, Duration::ZERO);
}

#[test]
fn entry_18_what_is_left_may_have_64_bits() {
    let sleep = Set::fresh().add(1 << 63);
    let left = sleep.deadline() - Instant::of_nanos(0);
    assert_eq!(left.as_nanos(), 1 << 63);
}

#[test]
fn entry_18_the_deadline_is_told_after_the_close() {
    let mut set = Set::fresh();
    let sleep = set.add(0);
    set.close();
    assert_eq!(sleep.deadline() - Instant::of_nanos(0), Duration::ZERO);
}
