//! Entry 4: where the Rust stops. A test is named after the file and the line of the published text.

use crate::support::{interval, poll, raw, stops, tick, Set};
use std::time::Duration;
use wasmtimer::std::Instant;
use wasmtimer::timer::clock::Clock;
use wasmtimer::timer::heap::look::Seen::{self, Empty, Full};
use wasmtimer::timer::heap::{Heap, Slot};
use wasmtimer::tokio::Interval;
use wasmtimer::tokio::MissedTickBehavior::{Burst, Skip};

/// Why a peek of a heap stops.
fn peek(entries: &[(u64, usize)], slots: &[Seen]) -> String {
    let heap = Heap::of_parts(entries.to_vec(), slots, slots.len());
    stops(|| heap.peek().copied()).unwrap()
}

/// A heap in which a removal of an empty slot has stopped.
fn spoiled() -> Heap<u64> {
    let mut heap = Heap::new();
    heap.push(0);
    heap.pop();
    let why = stops(|| heap.remove(Slot::of(0)));
    assert_eq!(why.unwrap(), "explicit panic");
    heap
}

/// A fresh clock at raw 0.
fn fresh() -> Clock {
    raw(0);
    Clock::new(false)
}

#[test]
fn entry_4_heap_56_the_free_head_is_past_the_slots() {
    let mut heap = Heap::of_parts(vec![], &[], 1);
    assert!(stops(|| heap.push(0)).unwrap().contains("out of bounds"));
}

#[test]
fn entry_4_heap_58_the_free_head_names_a_full_slot() {
    let mut heap = Heap::of_parts(vec![(0, 0)], &[Full(0)], 0);
    assert_eq!(stops(|| heap.push(0)).unwrap(), "explicit panic");
}

#[test]
fn entry_4_heap_58_after_a_panic_that_was_caught() {
    let mut heap = spoiled();
    assert_eq!(heap.push(0).number(), 0);
    assert_eq!(stops(|| heap.push(0)).unwrap(), "explicit panic");
}

#[test]
fn entry_4_heap_88_the_slot_was_never_made() {
    let mut heap: Heap<u64> = Heap::new();
    let why = stops(|| heap.remove(Slot::of(0)));
    assert!(why.unwrap().contains("out of bounds"));
}

#[test]
fn entry_4_heap_90_the_slot_is_empty_and_then_names_itself() {
    let heap = spoiled();
    assert_eq!(heap.slots(), [Empty(0)]);
    assert_eq!(heap.free_head(), 0);
}

#[test]
fn entry_4_heap_164_counts_differ() {
    assert!(peek(&[(0, 0)], &[]).contains("left == right"));
}

#[test]
fn entry_4_heap_178_a_slot_that_was_never_made() {
    assert!(peek(&[(0, 1)], &[Full(0)]).contains("out of bounds"));
}

#[test]
fn entry_4_heap_180_a_slot_that_is_empty() {
    assert_eq!(peek(&[(0, 1)], &[Full(0), Empty(2)]), "explicit panic");
}

#[test]
fn entry_4_heap_183_a_slot_that_names_another_position() {
    assert!(peek(&[(0, 0)], &[Full(1)]).contains("self.index[j] != i"));
}

#[test]
fn entry_4_heap_192_a_left_child_is_smaller() {
    let slots = [Full(0), Full(1)];
    assert_eq!(peek(&[(1, 0), (0, 1)], &slots), "bad left at index: 0");
}

#[test]
fn entry_4_heap_195_a_right_child_is_smaller() {
    let slots = [Full(0), Full(1), Full(2)];
    let why = peek(&[(1, 0), (1, 1), (0, 2)], &slots);
    assert_eq!(why, "bad right at index: 0");
}

#[test]
fn entry_4_arc_list_95_the_head_is_not_marked() {
    let mut set = Set::fresh();
    let sleep = set.add(0);
    sleep.node().unwrap().mark_enqueued(false);
    let why = stops(|| set.drain()).unwrap();
    assert!(why.contains("head.enqueued.swap(false, SeqCst)"));
}

#[test]
fn entry_4_clock_73_a_resume_of_a_running_clock() {
    let clock = fresh();
    assert_eq!(stops(|| clock.resume()).unwrap(), "time is not frozen");
}

#[test]
fn entry_4_clock_91_a_pause_of_a_paused_clock() {
    let clock = fresh();
    clock.pause();
    assert_eq!(stops(|| clock.pause()).unwrap(), "time is already frozen");
}

#[test]
fn entry_4_clock_102_an_advance_of_a_running_clock() {
    let clock = fresh();
    let why = stops(|| clock.advance(Duration::ZERO));
    assert_eq!(why.unwrap(), "time is not frozen");
}

#[test]
fn entry_4_clock_113_every_call_after_a_pause_of_a_paused_clock() {
    let clock = fresh();
    clock.pause();
    stops(|| clock.pause()).unwrap();
    assert!(stops(|| clock.now()).unwrap().contains("PoisonError"));
    assert!(stops(|| clock.paused()).unwrap().contains("PoisonError"));
    assert!(stops(|| clock.resume()).unwrap().contains("PoisonError"));
}

#[test]
fn entry_4_clock_107_a_sum_above_the_largest_duration() {
    raw(1);
    let clock = Clock::new(true);
    let why = stops(|| clock.advance(Duration::MAX)).unwrap();
    assert_eq!(why, "overflow when adding duration to instant");
}

#[test]
fn entry_4_std_81_a_sum_above_the_largest_duration() {
    let last = Instant::of_duration(Duration::MAX);
    let why = stops(|| last + Duration::from_nanos(1)).unwrap();
    assert_eq!(why, "overflow when adding duration to instant");
}

#[test]
fn entry_4_sleep_163_a_timer_that_was_added_after_the_close() {
    let mut set = Set::fresh();
    set.close();
    let mut sleep = set.add(0);
    assert_eq!(stops(|| poll(&mut sleep)).unwrap(), "timer has gone away");
}

#[test]
fn entry_4_sleep_177_a_timer_that_the_close_has_met() {
    let mut set = Set::fresh();
    let mut sleep = set.add(0);
    set.close();
    assert_eq!(stops(|| poll(&mut sleep)).unwrap(), "Timer has gone away");
}

#[test]
fn entry_4_interval_59_a_tick_of_a_timer_that_the_close_has_met() {
    let mut set = Set::fresh();
    let mut interval = interval(set.add(0), Duration::from_nanos(1), Burst);
    set.close();
    let why = stops(|| tick(&mut interval, 0));
    assert_eq!(why.unwrap(), "Timer has gone away");
}

/// An interval with policy Skip whose timer has fired at 0.
fn skipping(period: Duration) -> (Set, Interval) {
    let mut set = Set::fresh();
    let interval = interval(set.add(0), period, Skip);
    set.turn(0);
    (set, interval)
}

#[test]
fn entry_4_interval_114_a_late_skip_with_period_0() {
    let (_set, mut interval) = skipping(Duration::ZERO);
    let why = stops(|| tick(&mut interval, 5_000_001)).unwrap();
    assert!(why.contains("divisor of zero"));
}

#[test]
fn entry_4_interval_123_a_remainder_of_more_than_64_bits() {
    let start = Instant::of_nanos(0);
    let one = Duration::from_nanos(1);
    let wide = Duration::from_nanos(u64::MAX) + one;
    let why = stops(|| Skip.after_late(start, start + wide, wide + one)).unwrap();
    assert!(why.contains("too much time has elapsed"));
}
