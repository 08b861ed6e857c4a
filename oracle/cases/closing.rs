//! Entries 6, 7, 8 and 12: what the Rust does at the close and after it.

use crate::support::{due, interval, poll, poll_for, reset, stops, tick, word, Set, Task};
use std::sync::atomic::Ordering::SeqCst;
use std::task::Poll;
use std::time::Duration;
use wasmtimer::tokio::MissedTickBehavior::Burst;

#[test]
fn entry_6_a_reset_of_a_fired_timer_advances_its_word_and_then_fails() {
    let mut set = Set::fresh();
    let mut sleep = set.add(0);
    set.turn(0);
    set.close();
    let node = sleep.node().unwrap();
    assert_eq!(node.state.load(SeqCst), 1);
    reset(&mut sleep, 0);
    assert_eq!(node.state.load(SeqCst), 4);
    assert!(node.is_enqueued());
    assert!(sleep.node().is_none());
    assert_eq!(stops(|| poll(&mut sleep)).unwrap(), "timer has gone away");
}

#[test]
fn entry_6_a_reset_of_a_timer_that_the_close_met_leaves_its_word() {
    let mut set = Set::fresh();
    let mut sleep = set.add(0);
    set.close();
    let node = sleep.node().unwrap();
    reset(&mut sleep, 7);
    assert_eq!(node.state.load(SeqCst), 2);
    assert!(sleep.node().is_none());
    assert_eq!(sleep.deadline().nanos(), 7);
}

#[test]
fn entry_6_a_tick_of_a_fired_timer_answers_its_deadline() {
    let mut set = Set::fresh();
    let mut interval = interval(set.add(0), Duration::from_nanos(1), Burst);
    set.turn(0);
    set.close();
    let node = interval.timer().node().unwrap();
    assert_eq!(tick(&mut interval, 0), Poll::Ready(0));
    assert_eq!(node.state.load(SeqCst), 4);
    assert_eq!(due(&interval), 1);
    let polled = stops(|| poll(interval.timer_mut()));
    assert_eq!(polled.unwrap(), "timer has gone away");
}

#[test]
fn entry_6_an_add_makes_a_timer_without_state() {
    let mut set = Set::fresh();
    set.close();
    let mut sleep = set.add(0);
    assert!(sleep.node().is_none());
    assert_eq!(stops(|| poll(&mut sleep)).unwrap(), "timer has gone away");
}

#[test]
fn entry_6_a_cancel_makes_the_deadline_none() {
    let mut set = Set::fresh();
    let sleep = set.add(0);
    set.close();
    let node = sleep.node().unwrap();
    assert!(!node.is_enqueued());
    drop(sleep);
    assert!(node.at.lock().unwrap().is_none());
    assert!(node.is_enqueued());
    assert!(set.inner.list.nodes().is_empty());
}

#[test]
fn entry_7_slots_stay_set_after_the_close() {
    let mut set = Set::fresh();
    let sleep = set.add(0);
    set.drain();
    set.close();
    let node = sleep.node().unwrap();
    let slot = node.slot.lock().unwrap();
    assert_eq!(slot.as_ref().unwrap().number(), 0);
}

#[test]
fn entry_8_a_close_wakes_who_has_polled() {
    let mut set = Set::fresh();
    let mut sleep = set.add(0);
    let task = Task::new();
    assert_eq!(poll_for(&mut sleep, &task), Poll::Pending);
    set.close();
    assert_eq!(task.count(), 1);
    assert_eq!(word(&sleep), 2);
}

#[test]
fn entry_12_a_reset_when_the_last_inner_is_gone_does_nothing() {
    let mut set = Set::fresh();
    let mut sleep = set.add(0);
    set.turn(0);
    drop(set);
    reset(&mut sleep, 1);
    let node = sleep.node().expect("the reset has answered Ok");
    assert_eq!(word(&sleep), 1);
    assert_eq!(node.at.lock().unwrap().unwrap().nanos(), 0);
    assert!(!node.is_enqueued());
    assert_eq!(sleep.deadline().nanos(), 1);
}
