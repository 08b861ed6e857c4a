//! Short sequences, all of them: a theme has a few calls to begin with and a small alphabet of calls, and its sequences are the
//! beginning followed by each word over the alphabet. First come all words of 4 calls, then all of 5, and so on. What a shorter
//! word does is seen on the way.
//!
//! A seed takes the next piece of its theme. The pieces of seeds that follow each other are without a gap.

use super::maker::Maker;
use crate::record::{op, Handle, Policy, Record};

/// The shortest words that are made.
const SHORTEST: u32 = 4;

/// A theme: what every sequence begins with, and the alphabet.
pub struct Theme {
    opening: Vec<Record>,
    alphabet: Vec<Record>,
}

/// The handle of a place that is used for the first time.
fn first(place: u16) -> Handle {
    Handle { place, uses: 0 }
}

/// A call with a time.
fn timed(op: u8, a: u64) -> Record {
    Record::timed(op, a)
}

/// One timer, due at 2, and what can be done to it before and after a drain.
pub fn one_timer() -> Theme {
    Theme {
        opening: vec![timed(op::ADD, 2)],
        alphabet: vec![
            Record::on(op::RESET, first(0), 1),
            Record::on(op::RESET, first(0), 3),
            Record::on(op::CANCEL, first(0), 0),
            Record::plain(op::DRAIN),
            timed(op::ADVANCE, 1),
            timed(op::ADVANCE, 3),
            timed(op::TURN, 2),
            timed(op::ADD, 2),
            Record::plain(op::CLOSE),
        ],
    }
}

/// Two timers, due at 2 and at 1.
pub fn two_timers() -> Theme {
    Theme {
        opening: vec![timed(op::ADD, 2), timed(op::ADD, 1)],
        alphabet: vec![
            Record::on(op::RESET, first(0), 1),
            Record::on(op::RESET, first(1), 2),
            Record::on(op::CANCEL, first(0), 0),
            Record::on(op::CANCEL, first(1), 0),
            Record::plain(op::DRAIN),
            timed(op::ADVANCE, 1),
            timed(op::TURN, 2),
            timed(op::ADD, 1),
        ],
    }
}

/// A timer that has fired at 5, and its ticks.
pub fn ticks() -> Theme {
    let late = 5_000_006;
    Theme {
        opening: vec![timed(op::ADD, 5), timed(op::TURN, 5)],
        alphabet: vec![
            Record::tick(first(0), Policy::Burst, 2, 6),
            Record::tick(first(0), Policy::Delay, 2, late),
            Record::tick(first(0), Policy::Skip, 2, late),
            Record::restart(first(0), 1, 6),
            timed(op::TURN, 7),
            timed(op::TURN, 6_000_000),
            timed(op::ADVANCE, 6_000_000),
        ],
    }
}

/// A heap with a tie.
pub fn heap() -> Theme {
    Theme {
        opening: vec![timed(op::PUSH, 2), timed(op::PUSH, 2)],
        alphabet: vec![
            timed(op::PUSH, 1),
            timed(op::PUSH, 2),
            timed(op::PUSH, 3),
            Record::remove(0),
            Record::remove(1),
            Record::remove(2),
            Record::plain(op::POP),
        ],
    }
}

/// A clock that starts at 1.
pub fn clock() -> Theme {
    Theme {
        opening: vec![timed(op::FRESH, 1)],
        alphabet: vec![
            timed(op::READING, 0),
            timed(op::READING, 2),
            timed(op::PAUSE, 0),
            timed(op::PAUSE, 2),
            timed(op::RESUME, 1),
            timed(op::CLOCK_ADVANCE, 1),
            timed(op::CLOCK_ADVANCE, u64::MAX - 2),
        ],
    }
}

impl Theme {
    /// How many calls a sequence has whose word has `length` calls; a begin is one of them.
    fn calls(&self, length: u32) -> u64 {
        1 + self.opening.len() as u64 + u64::from(length)
    }

    /// How many words of `length` calls there are.
    fn words(&self, length: u32) -> u64 {
        (self.alphabet.len() as u64).saturating_pow(length)
    }

    /// Makes the sequences that begin among the calls from `start` up to `end`, all sequences being laid end to end.
    pub fn make(&self, maker: &mut Maker, start: u64, end: u64) {
        let mut length = SHORTEST;
        let mut base = 0;
        while base < end {
            let calls = self.calls(length);
            let words = self.words(length);
            let first = start.saturating_sub(base).div_ceil(calls);
            let last = (end - base).div_ceil(calls).min(words);
            for word in first..last {
                self.sequence(maker, length, word);
            }
            base = calls.saturating_mul(words).saturating_add(base);
            length += 1;
        }
    }

    /// Makes the sequence of one word; its calls are the digits of a number in the base of the alphabet.
    fn sequence(&self, maker: &mut Maker, length: u32, word: u64) {
        let base = self.alphabet.len() as u64;
        maker.begin();
        for record in &self.opening {
            maker.call(*record);
        }
        for digit in (0..length).rev() {
            let letter = word / base.saturating_pow(digit) % base;
            maker.call(self.alphabet[letter as usize]);
        }
    }
}
