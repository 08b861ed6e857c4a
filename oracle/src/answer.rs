//! What a call answers: a refusal by its number, or values.

use crate::record::Handle;

/// The refusals of the table that can be met here, by their numbers. No state here is unsound (1), and a list lent here always has
/// room (5).
pub mod refusal {
    pub const CLOSED: u32 = 2;
    pub const DEAD_HANDLE: u32 = 3;
    pub const FULL: u32 = 4;
    pub const TIME_OVERFLOW: u32 = 6;
    pub const COUNTER_BEHIND: u32 = 7;
    pub const WRONG_MODE: u32 = 8;
    pub const ZERO_PERIOD: u32 = 9;
    pub const NOT_FIRED: u32 = 10;
    pub const VACANT_SLOT: u32 = 11;
}

/// The values of an accepted call. Times are as wide as the Rust's own.
#[derive(Debug, PartialEq, Eq)]
pub enum Given {
    Nothing,
    Handle(Handle),
    Reports { popped: u64, handles: Vec<Handle> },
    Wake(Option<u128>),
    Poll(u8),
    Deadline(u128),
    Pushed { slot: usize, swaps: u64 },
    Removed { deadline: u128, swaps: u64 },
    Popped(Option<Popped>),
    Peeked(Option<(u128, usize)>),
    Test(bool),
    Reading(u128),
}

/// An entry that a pop answers.
#[derive(Debug, PartialEq, Eq)]
pub struct Popped {
    pub deadline: u128,
    pub slot: usize,
    pub swaps: u64,
}

/// The values, or the number of the refusal.
pub type Answer = Result<Given, u32>;

/// Refuses with a number where it holds.
pub fn refuse_if(holds: bool, number: u32) -> Result<(), u32> {
    if holds {
        Err(number)
    } else {
        Ok(())
    }
}

/// A sum of times, refused with 6 above 2^64-1.
pub fn sum(a: u64, b: u64) -> Result<u64, u32> {
    a.checked_add(b).ok_or(refusal::TIME_OVERFLOW)
}
