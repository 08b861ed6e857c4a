//! Entries 10, 14 and 15: the heap alone.

use crate::capacity::CAP;
use wasmtimer::notes;
use wasmtimer::timer::heap::look::Seen;
use wasmtimer::timer::heap::Heap;

#[test]
fn entry_10_a_heap_takes_an_entry_more() {
    let mut heap = Heap::new();
    let slots: Vec<usize> = (0..=CAP).map(|_| heap.push(0).number()).collect();
    assert_eq!(slots.last(), Some(&CAP));
    assert_eq!(heap.entries().len(), CAP + 1);
}

#[test]
fn entry_14_a_push_answers_the_slot_alone() {
    let mut heap = Heap::new();
    notes::take();
    assert_eq!(heap.push(1).number(), 0);
    assert_eq!(notes::take().swaps, 0);
    assert_eq!(heap.push(0).number(), 1);
    assert_eq!(notes::take().swaps, 1);
}

#[test]
fn entry_15_the_test_does_not_follow_the_free_chain() {
    let heap: Heap<u64> = Heap::of_parts(vec![], &[], 1);
    assert!(heap.is_consistent());
    assert_eq!(heap.peek(), None);
}

#[test]
fn entry_15_the_test_sees_what_else_is_broken() {
    let heap = Heap::of_parts(vec![(1, 0)], &[Seen::Full(1)], 1);
    assert!(!heap.is_consistent());
}
