//! Added for the oracle: a window on a `Timer`, for the harness and the cases.

use super::arc_list::Node;
use super::{ScheduledTimer, Timer};
use crate::std::Instant;
use std::sync::Arc;

/// What the heap holds for a timer.
pub struct Entry {
    pub at: Instant,
    pub gen: u32,
    pub node: *const Node<ScheduledTimer>,
    pub slot: usize,
}

impl Timer {
    /// The entries of the heap, by position.
    pub fn entries(&self) -> Vec<Entry> {
        let seen = |(timer, slot): &(super::HeapTimer, usize)| Entry {
            at: timer.at,
            gen: timer.gen,
            node: Arc::as_ptr(&timer.node),
            slot: *slot,
        };
        self.timer_heap.entries().iter().map(seen).collect()
    }
}
