//! Added for the oracle: what the text does by the way, noted for the harness. Swaps of the heap, pops of an advance, and who was
//! woken.

use std::cell::{Cell, RefCell};
use std::mem;

thread_local! {
    static SWAPS: Cell<u64> = const { Cell::new(0) };
    static POPS: Cell<u64> = const { Cell::new(0) };
    static WOKEN: RefCell<Vec<u64>> = const { RefCell::new(Vec::new()) };
    static WAKERS: Cell<u64> = const { Cell::new(0) };
}

/// What was noted since the last `take`; `woken` has the numbers of the wakers, in order.
#[derive(Debug, Default, PartialEq, Eq)]
pub struct Notes {
    pub swaps: u64,
    pub pops: u64,
    pub woken: Vec<u64>,
}

/// Hands out the notes and starts anew.
pub fn take() -> Notes {
    Notes {
        swaps: SWAPS.replace(0),
        pops: POPS.replace(0),
        woken: WOKEN.with_borrow_mut(mem::take),
    }
}

/// Hands out the notes into others, whose list is used again: nothing is allocated.
pub fn take_into(notes: &mut Notes) {
    notes.swaps = SWAPS.replace(0);
    notes.pops = POPS.replace(0);
    notes.woken.clear();
    WOKEN.with_borrow_mut(|woken| mem::swap(woken, &mut notes.woken));
}

/// A swap of two entries of a heap.
pub(crate) fn swap() {
    SWAPS.set(SWAPS.get() + 1);
}

/// An entry popped by an advance.
pub(crate) fn pop() {
    POPS.set(POPS.get() + 1);
}

/// A wake of the waker with this number.
pub(crate) fn woke(waker: u64) {
    WOKEN.with_borrow_mut(|woken| woken.push(waker));
}

/// The number of a new waker: no two of a thread are the same.
pub(crate) fn next_waker() -> u64 {
    WAKERS.replace(WAKERS.get() + 1)
}
