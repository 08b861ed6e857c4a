//! Added for the oracle: a window on a heap, for the harness and the cases.

use super::{Heap, SlabSlot, Slot};
use std::panic::{self, AssertUnwindSafe};

/// What a slot of the slab holds.
#[derive(Clone, Copy, Debug, PartialEq, Eq)]
pub enum Seen {
    /// The position of its entry.
    Full(usize),
    /// The next free slot.
    Empty(usize),
}

impl Slot {
    /// The slot with a number; the text alone makes none.
    pub fn of(number: usize) -> Slot {
        Slot { idx: number }
    }

    /// The number of a slot.
    pub fn number(&self) -> usize {
        self.idx
    }
}

impl<T: Ord> Heap<T> {
    /// The entries by position, each with the number of its slot.
    pub fn entries(&self) -> &[(T, usize)] {
        &self.items
    }

    /// The slots made so far, from 0 on.
    pub fn slots(&self) -> Vec<Seen> {
        self.index.iter().map(seen).collect()
    }

    /// The free head.
    pub fn free_head(&self) -> usize {
        self.next_index
    }

    /// Whether the text's own test passes.
    pub fn is_consistent(&self) -> bool {
        panic::catch_unwind(AssertUnwindSafe(|| self.assert_consistent())).is_ok()
    }

    /// A heap made of its parts, sound or not.
    pub fn of_parts(entries: Vec<(T, usize)>, slots: &[Seen], free_head: usize) -> Heap<T> {
        Heap {
            items: entries,
            index: slots.iter().map(held).collect(),
            next_index: free_head,
        }
    }
}

/// A slot of the text, as it is seen.
fn seen(slot: &SlabSlot<usize>) -> Seen {
    match *slot {
        SlabSlot::Full { value } => Seen::Full(value),
        SlabSlot::Empty { next } => Seen::Empty(next),
    }
}

/// A slot of the text that is seen so.
fn held(seen: &Seen) -> SlabSlot<usize> {
    match *seen {
        Seen::Full(value) => SlabSlot::Full { value },
        Seen::Empty(next) => SlabSlot::Empty { next },
    }
}
