//! What the programs have in common: each makes rounds of one side, as many as it is told, and prints the checksum and the time.

use std::env;
use std::ffi::c_long;

#[path = "../../oracle/src/capacity.rs"]
mod capacity;
pub mod rounds;

extern "C" {
    /// C's processor time of this process, on Linux in microseconds.
    fn clock() -> c_long;
}

/// The number that the arguments have at a position.
fn number(position: usize) -> Option<u64> {
    env::args().nth(position)?.parse().ok()
}

/// The two numbers that a program is given: how many timers are due in each turn, and how many turns are made.
fn numbers() -> Option<(u64, u64)> {
    Some((number(1)?, number(2)?))
}

/// Makes the rounds of one side, and prints the checksum and the microseconds of processor time that they took.
pub fn tell(rounds: impl Fn(u64, u64) -> u64) {
    let (due, turns) = numbers().expect("two numbers: how many timers are due, and how many turns");
    let begun = unsafe { clock() };
    let sum = rounds(due, turns);
    let ended = unsafe { clock() };
    println!("{sum} {}", ended - begun);
}
