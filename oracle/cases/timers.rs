//! Entries 5, 9, 10, 11, 13 and 17: timers of an open set.

use crate::capacity::CAP;
use crate::support::{interval, poll_for, reset, tick, word, Set, Task};
use std::sync::atomic::Ordering::SeqCst;
use std::sync::Arc;
use std::task::Poll;
use std::time::Duration;
use wasmtimer::notes;
use wasmtimer::tokio::MissedTickBehavior::Burst;

#[test]
fn entry_5_a_tick_of_a_timer_that_has_not_fired_is_pending() {
    let set = Set::fresh();
    let mut interval = interval(set.add(0), Duration::from_nanos(1), Burst);
    assert_eq!(tick(&mut interval, 0), Poll::Pending);
}

#[test]
fn entry_9_a_cancelled_timer_popped_before_its_drain_is_woken() {
    let mut set = Set::fresh();
    let mut sleep = set.add(0);
    let node = sleep.node().unwrap();
    let task = Task::new();
    set.drain();
    assert_eq!(poll_for(&mut sleep, &task), Poll::Pending);
    drop(sleep);
    notes::take();
    set.advance(0);
    assert_eq!(node.state.load(SeqCst), 1);
    assert_eq!(task.count(), 1);
    let noted = notes::take();
    assert_eq!((noted.pops, noted.woken), (1, vec![node.waker.number()]));
}

#[test]
fn entry_10_a_set_takes_a_timer_more() {
    let mut set = Set::fresh();
    let sleeps: Vec<_> = (0..=CAP).map(|_| set.add(0)).collect();
    set.drain();
    assert!(sleeps.iter().all(|sleep| sleep.node().is_some()));
    assert_eq!(set.timer.as_ref().unwrap().entries().len(), CAP + 1);
}

#[test]
fn entry_11_timers_are_nodes_and_go_with_the_last_that_points_to_them() {
    let mut set = Set::fresh();
    let first = set.add(0);
    let node = Arc::downgrade(&first.node().unwrap());
    drop(first);
    let _second = set.add(0);
    assert!(node.upgrade().is_some());
    set.drain();
    assert!(node.upgrade().is_none());
    let _third = set.add(0);
    assert_eq!(set.timer.as_ref().unwrap().entries().len(), 1);
    assert_eq!(set.inner.list.nodes().len(), 1);
}

#[test]
fn entry_13_a_word_of_32_bits_wraps() {
    let set = Set::fresh();
    let mut sleep = set.add(0);
    sleep.node().unwrap().state.store(4_294_967_292, SeqCst);
    reset(&mut sleep, 0);
    assert_eq!(word(&sleep), 0);
}

/// The same sum as in the published text built for a host of 64 bits.
#[test]
fn entry_13_a_word_of_64_bits_does_not() {
    let bits: u64 = 4_294_967_292;
    assert_eq!(bits.wrapping_add(0b100) & !0b11, 4_294_967_296);
}

#[test]
fn entry_17_an_advance_answers_nothing_and_wakes_who_has_polled() {
    let mut set = Set::fresh();
    let (mut polled, silent) = (set.add(0), set.add(0));
    let task = Task::new();
    assert_eq!(poll_for(&mut polled, &task), Poll::Pending);
    set.turn(0);
    assert_eq!(task.count(), 1);
    assert_eq!((word(&polled), word(&silent)), (1, 1));
}
