//! The rounds of crates/rounds on the Rust: the same calls with the same times, and the same checksum.
//!
//! An add is `Sleep::new_handle`, a drain a poll of the `Timer`, an advance `advance_to`, and a reset `Sleep::reset`. Who is
//! reported is read from the oracle's notes: the numbers of the wakers that the advance calls. Those of the timers are in a row, so
//! a place is found by a subtraction.

use crate::capacity;
use std::pin::Pin;
use std::task::{Context, Waker};
use wasmtimer::notes::{self, Notes};
use wasmtimer::prelude::Future;
use wasmtimer::std::Instant;
use wasmtimer::timer::Timer;
use wasmtimer::tokio::Sleep;

/// How many timers there are.
const CAP: u64 = capacity::CAP as u64;

/// What is carried from one call to the next: the timers, the deadline that was given last, the checksum so far, and the notes.
struct Run {
    timer: Timer,
    sleeps: Vec<Sleep>,
    first: u64,
    last: u64,
    sum: u64,
    notes: Notes,
}

/// Makes `turns` rounds with `due` of the timers due in each, all of them where `due` is more, and answers the checksum.
pub fn run(due: u64, turns: u64) -> u64 {
    let step = due.min(CAP);
    let mut run = Run::started();
    let mut reading = 0u64;
    for _ in 0..turns {
        reading = reading.wrapping_add(step);
        assert_eq!(
            run.round(reading),
            step,
            "as many are due as were asked for"
        );
    }
    run.sum
}

/// The number of the waker of a timer.
fn waker_number(sleep: &Sleep) -> u64 {
    let node = sleep.node().expect("an open set takes the timer");
    node.waker.number()
}

impl Run {
    /// All timers, due at 1, 2, 3 and so on, and drained.
    fn started() -> Run {
        let timer = Timer::new();
        let add = |due| Sleep::new_handle(Instant::of_nanos(due), timer.handle());
        let sleeps: Vec<Sleep> = (1..=CAP).map(add).collect();
        let first = waker_number(&sleeps[0]);
        let in_a_row = |(place, sleep)| waker_number(sleep) == first + place;
        assert!((0..).zip(&sleeps).all(in_a_row), "wakers are in a row");
        let mut run = Run {
            timer,
            sleeps,
            first,
            last: CAP,
            sum: 0,
            notes: Notes::default(),
        };
        run.drain();
        run
    }

    /// A turn at a reading: its counts go into the checksum, and whoever is reported is reset. Answers how many were reported.
    fn round(&mut self, reading: u64) -> u64 {
        self.drain();
        notes::take_into(&mut self.notes);
        self.timer.advance_to(Instant::of_nanos(reading));
        notes::take_into(&mut self.notes);
        let reported = self.notes.woken.len();
        self.mix(reported as u64);
        self.mix(self.notes.pops);
        for report in 0..reported {
            self.reset(self.notes.woken[report] - self.first);
        }
        reported as u64
    }

    /// Polls the `Timer`, which makes the waiting updates.
    fn drain(&mut self) {
        let polled = Pin::new(&mut self.timer).poll(&mut Context::from_waker(Waker::noop()));
        assert!(polled.is_pending(), "a Timer never ends");
    }

    /// Resets the timer at a place to the deadline after the last one. Every use number is 0, so its word is the place.
    fn reset(&mut self, place: u64) {
        self.last = self.last.wrapping_add(1);
        Pin::new(&mut self.sleeps[place as usize]).reset(Instant::of_nanos(self.last));
        self.mix(place);
    }

    /// The checksum with one more number: three times what it was, and the number, so that the order counts.
    fn mix(&mut self, number: u64) {
        self.sum = self.sum.wrapping_mul(3).wrapping_add(number);
    }
}
