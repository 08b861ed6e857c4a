//! All that the records speak of: a set of timers, a heap alone and a clock alone; and the line that is printed for a record.

use crate::alone::{ClockAlone, HeapAlone};
use crate::answer::{Answer, Given};
use crate::record::{op, Handle, Record};
use crate::set::{due_of, word_of, Life, Place, Set};
use std::fmt::Display;
use std::fmt::Write;
use wasmtimer::timer::heap::look::Seen;

/// A set, a heap and a clock, none of which knows of the others.
pub struct World {
    pub set: Set,
    pub heap: HeapAlone,
    pub clock: ClockAlone,
}

impl World {
    /// The state before any record, and after a begin.
    pub fn fresh() -> World {
        World {
            set: Set::fresh(),
            heap: HeapAlone::fresh(),
            clock: ClockAlone::fresh(0),
        }
    }

    /// Makes the call of a record. An operation that there is not has no answer.
    pub fn call(&mut self, r: &Record) -> Option<Answer> {
        let handle = r.handle();
        Some(match r.op {
            op::ADD => self.set.add(r.a),
            op::RESET => self.set.reset(handle, r.a),
            op::CANCEL => self.set.cancel(handle),
            op::DRAIN => self.set.drain(),
            op::ADVANCE => self.set.advance(r.a),
            op::TURN => self.set.turn(r.a),
            op::NEXT_WAKE => self.set.next_wake(),
            op::POLL => self.set.poll(handle),
            op::CLOSE => self.set.close(),
            op::TICK => self.set.tick(handle, r.policy(), r.a, r.b),
            op::RESTART => self.set.restart(handle, r.a, r.b),
            op::SET_WORD => self.set.set_word(handle, r.a),
            op::PUSH => self.heap.push(r.a),
            op::REMOVE => self.heap.remove(r.place),
            op::POP => self.heap.pop(),
            op::PEEK => self.heap.peek(),
            op::TEST => self.heap.test(),
            op::FRESH => self.begin_clock(r.a),
            op::READING => self.clock.reading(r.a),
            op::PAUSE => self.clock.pause(r.a),
            op::RESUME => self.clock.resume(r.a),
            op::CLOCK_ADVANCE => self.clock.advance(r.a),
            op::BEGIN => self.begin(),
            _ => return None,
        })
    }

    /// Puts a fresh clock in the place of the old one.
    fn begin_clock(&mut self, raw: u64) -> Answer {
        self.clock = ClockAlone::fresh(raw);
        Ok(Given::Nothing)
    }

    /// Begins anew.
    fn begin(&mut self) -> Answer {
        *self = World::fresh();
        Ok(Given::Nothing)
    }

    /// Makes the call of a record and writes its line.
    pub fn line(&mut self, r: &Record) -> String {
        let Some(answer) = self.call(r) else {
            return "?".into();
        };
        let mut line = Line::start(r.op);
        match &answer {
            Ok(given) => line.accepted(given),
            Err(number) => line.part(number),
        }
        match r.op {
            op::ADD..=op::SET_WORD => line.set(&self.set, r.c),
            op::PUSH..=op::TEST => line.heap(&self.heap),
            op::FRESH..=op::CLOCK_ADVANCE => line.clock(&self.clock),
            _ => {}
        }
        line.text
    }
}

/// A line that is being written; its parts are separated by one blank.
struct Line {
    text: String,
}

impl Line {
    /// A line that has the operation.
    fn start(op: u8) -> Line {
        Line {
            text: op.to_string(),
        }
    }

    /// Writes one part.
    fn part(&mut self, part: impl Display) {
        write!(self.text, " {part}").expect("a string takes what is written");
    }

    /// Writes a part, or `-` for none.
    fn part_or_none(&mut self, part: Option<impl Display>) {
        self.part(or_none(part));
    }

    /// Writes the 0 of an accepted call and its values.
    fn accepted(&mut self, given: &Given) {
        self.part(0);
        match given {
            Given::Nothing => {}
            Given::Handle(handle) => {
                self.part(handle.place);
                self.part(handle.uses);
            }
            Given::Reports { popped, handles } => self.reports(*popped, handles),
            Given::Wake(wake) => self.part_or_none(*wake),
            Given::Poll(number) => self.part(number),
            Given::Deadline(at) => self.part(at),
            Given::Pushed { slot, swaps } => {
                self.part(slot);
                self.part(swaps);
            }
            Given::Removed { deadline, swaps } => {
                self.part(deadline);
                self.part(swaps);
            }
            Given::Popped(None) | Given::Peeked(None) => self.part('-'),
            Given::Popped(Some(popped)) => {
                self.part(popped.deadline);
                self.part(popped.slot);
                self.part(popped.swaps);
            }
            Given::Peeked(Some((deadline, slot))) => {
                self.part(deadline);
                self.part(slot);
            }
            Given::Test(yes) => self.part(u8::from(*yes)),
            Given::Reading(at) => self.part(at),
        }
    }

    /// Writes the counts of an advance and the handles reported.
    fn reports(&mut self, popped: u64, handles: &[Handle]) {
        self.part(handles.len());
        self.part(popped);
        for handle in handles {
            self.part(format_args!("{}:{}", handle.place, handle.uses));
        }
    }

    /// Writes the state of a set, with how long is left at a reading.
    fn set(&mut self, set: &Set, reading: u64) {
        self.part('|');
        self.part_or_none(set.wake());
        self.part(or_refused(set.least_left(reading).map(or_none)));
        self.part('|');
        for place in set.waiting() {
            self.part(place);
        }
        self.part('|');
        for (index, place) in set.places.iter().enumerate() {
            self.place(set, index, place, reading);
        }
        self.part('|');
        for (at, gen, place, slot) in set.entries() {
            self.part(format_args!("{at}:{gen}:{place}:{slot}"));
        }
    }

    /// Writes a place, but for a free one that nobody had yet.
    fn place(&mut self, set: &Set, index: usize, place: &Place, reading: u64) {
        let life = match place.life {
            Life::Free if place.uses == 0 => return,
            Life::Free => 'F',
            Life::Live { .. } => 'L',
            Life::Cancelled { .. } => 'C',
            Life::Retired => 'R',
        };
        let shared = place.shared();
        let word = or_none(shared.map(word_of));
        let due = or_none(shared.and_then(due_of));
        let slot = or_none(shared.and_then(|shared| set.slot_of(shared)));
        let uses = place.uses;
        let handle = Handle {
            place: index as u16,
            uses,
        };
        let left = or_refused(set.time_left(handle, reading));
        self.part(format_args!(
            "{index}:{uses}:{life}:{word}:{due}:{slot}:{left}"
        ));
    }

    /// Writes the state of a heap alone.
    fn heap(&mut self, alone: &HeapAlone) {
        let heap = &alone.heap;
        self.part('|');
        for (at, slot) in heap.entries() {
            self.part(format_args!("{}:{slot}", at.nanos()));
        }
        let slots = heap.slots();
        self.part('|');
        self.part(heap.free_head());
        self.part(slots.len());
        for slot in slots {
            match slot {
                Seen::Full(position) => self.part(format_args!("F{position}")),
                Seen::Empty(next) => self.part(format_args!("E{next}")),
            }
        }
    }

    /// Writes the state of a clock.
    fn clock(&mut self, clock: &ClockAlone) {
        self.part('|');
        match clock.parts() {
            (base, Some(start)) => self.part(format_args!("r {base} {start}")),
            (base, None) => self.part(format_args!("p {base}")),
        }
    }
}

/// A number, or `-` for none.
fn or_none(part: Option<impl Display>) -> String {
    part.map_or("-".into(), |part| part.to_string())
}

/// What was answered, or `!` and the number of the refusal.
fn or_refused(answer: Result<impl Display, u32>) -> String {
    match answer {
        Ok(answer) => answer.to_string(),
        Err(number) => format!("!{number}"),
    }
}
