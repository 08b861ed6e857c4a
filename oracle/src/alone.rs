//! A heap alone and a clock alone on the Rust. The refusals are decided here, from the table of the rules, and a call that is refused
//! is not made on the Rust.
//!
//! A difference that is levelled out here: a raw counter below the start counts as no time in the Rust; here it is refused with 7.

use crate::answer::{refusal, refuse_if, sum, Answer, Given, Popped};
use crate::capacity::CAP;
use std::time::Duration;
use wasmtimer::js::set_raw_counter;
use wasmtimer::notes;
use wasmtimer::std::Instant;
use wasmtimer::timer::clock::Clock;
use wasmtimer::timer::heap::look::Seen;
use wasmtimer::timer::heap::{Heap, Slot};

/// A heap of deadlines.
pub struct HeapAlone {
    pub heap: Heap<Instant>,
}

impl HeapAlone {
    /// A heap without entries and slots.
    pub fn fresh() -> HeapAlone {
        HeapAlone { heap: Heap::new() }
    }

    /// Pushes a deadline.
    pub fn push(&mut self, deadline: u64) -> Answer {
        refuse_if(self.heap.entries().len() >= CAP, refusal::FULL)?;
        notes::take();
        let slot = self.heap.push(Instant::of_nanos(deadline)).number();
        let swaps = notes::take().swaps;
        Ok(Given::Pushed { slot, swaps })
    }

    /// Removes the entry of a slot.
    pub fn remove(&mut self, slot: u16) -> Answer {
        let slot = usize::from(slot);
        let full = matches!(self.heap.slots().get(slot), Some(Seen::Full(_)));
        refuse_if(!full, refusal::VACANT_SLOT)?;
        notes::take();
        let deadline = self.heap.remove(Slot::of(slot)).nanos();
        let swaps = notes::take().swaps;
        Ok(Given::Removed { deadline, swaps })
    }

    /// Pops the head.
    pub fn pop(&mut self) -> Answer {
        let slot = self.heap.entries().first().map(|entry| entry.1);
        notes::take();
        let popped = self.heap.pop();
        let swaps = notes::take().swaps;
        Ok(Given::Popped(popped.map(|at| Popped {
            deadline: at.nanos(),
            slot: slot.expect("what is popped had a slot"),
            swaps,
        })))
    }

    /// Looks at the head.
    pub fn peek(&self) -> Answer {
        let slot = self.heap.entries().first().map(|entry| entry.1);
        let head = self.heap.peek().map(|at| at.nanos());
        Ok(Given::Peeked(head.zip(slot)))
    }

    /// The heap test: the Rust's own, and the free chain besides, which the Rust does not follow.
    pub fn test(&self) -> Answer {
        let passes = self.heap.is_consistent() && chain_is_right(&self.heap);
        Ok(Given::Test(passes))
    }
}

/// Whether the free chain visits each empty slot once and ends at the number of slots.
fn chain_is_right(heap: &Heap<Instant>) -> bool {
    let mut slots = heap.slots();
    let mut at = heap.free_head();
    while let Some(Seen::Empty(next)) = slots.get(at).copied() {
        slots[at] = Seen::Full(0);
        at = next;
    }
    at == slots.len() && slots.iter().all(|slot| matches!(slot, Seen::Full(_)))
}

/// A clock.
pub struct ClockAlone {
    clock: Clock,
}

impl ClockAlone {
    /// A running clock, base and start at the raw counter.
    pub fn fresh(raw: u64) -> ClockAlone {
        set_raw_counter(raw);
        ClockAlone {
            clock: Clock::new(false),
        }
    }

    /// The base, and the start of a running clock.
    pub fn parts(&self) -> (u128, Option<u128>) {
        let (base, start) = self.clock.parts();
        (base.nanos(), start.map(|start| start.nanos()))
    }

    /// The base and the start in 64 bits, which is all that calls lead to here.
    fn narrow(&self) -> (u64, Option<u64>) {
        let (base, start) = self.parts();
        (base as u64, start.map(|start| start as u64))
    }

    /// Refuses what a running clock refuses at a raw counter: 7 below the start, 6 where the sum is too large.
    fn refuse_elapsed(&self, raw: u64) -> Result<(), u32> {
        if let (base, Some(start)) = self.narrow() {
            refuse_if(raw < start, refusal::COUNTER_BEHIND)?;
            sum(base, raw - start)?;
        }
        Ok(())
    }

    /// Reads the clock.
    pub fn reading(&self, raw: u64) -> Answer {
        self.refuse_elapsed(raw)?;
        set_raw_counter(raw);
        Ok(Given::Reading(self.clock.now().nanos()))
    }

    /// Pauses the clock.
    pub fn pause(&self, raw: u64) -> Answer {
        refuse_if(self.clock.paused(), refusal::WRONG_MODE)?;
        self.refuse_elapsed(raw)?;
        set_raw_counter(raw);
        self.clock.pause();
        Ok(Given::Nothing)
    }

    /// Lets the clock run again.
    pub fn resume(&self, raw: u64) -> Answer {
        refuse_if(!self.clock.paused(), refusal::WRONG_MODE)?;
        set_raw_counter(raw);
        self.clock.resume();
        Ok(Given::Nothing)
    }

    /// Moves a paused clock on.
    pub fn advance(&self, duration: u64) -> Answer {
        refuse_if(!self.clock.paused(), refusal::WRONG_MODE)?;
        sum(self.narrow().0, duration)?;
        self.clock.advance(Duration::from_nanos(duration));
        Ok(Given::Nothing)
    }
}
