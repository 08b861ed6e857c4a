//! Whoever makes calls: it runs them on the Rust as it goes, so it knows what is live, fired, waiting and vacant.

use super::dice::Dice;
use crate::answer::{Answer, Given};
use crate::capacity::CAP;
use crate::record::{op, Handle, Policy, Record, POLICIES};
use crate::set::{due_of, word_of, Life};
use crate::world::World;
use wasmtimer::timer::heap::look::Seen;

/// The first place, and the first slot, that there is not.
pub const PAST: u16 = CAP as u16;

/// A maker of calls and what it has made so far.
pub struct Maker {
    pub dice: Dice,
    /// For the readings at which is asked how long is left; the calls do not go by them.
    asking: Dice,
    pub world: World,
    pub records: Vec<Record>,
    /// The time at which a session has arrived.
    pub now: u64,
    /// The raw counter that the clock was given last.
    raw: u64,
}

impl Maker {
    /// A maker that has made nothing.
    pub fn new(seed: u64) -> Maker {
        Maker {
            dice: Dice::new(seed),
            asking: Dice::new(!seed),
            world: World::fresh(),
            records: Vec::new(),
            now: 0,
            raw: 0,
        }
    }

    /// Makes a call, and tells what it answers. How long is left is asked at a reading of the maker's choice.
    pub fn call(&mut self, record: Record) -> Option<Answer> {
        let answer = self.world.call(&record);
        let c = if record.is_on_set() { self.asked() } else { 0 };
        self.records.push(Record { c, ..record });
        answer
    }

    /// Makes a call after which is asked how long is left at a given reading.
    pub fn call_at(&mut self, record: Record, reading: u64) {
        self.world.call(&record);
        self.records.push(Record {
            c: reading,
            ..record
        });
    }

    /// A reading at which so much is left until a deadline of the set: nothing, little, about as much as a number with a sign can be, or
    /// anything. Where no reading is so far away it is the first or the last of all.
    fn asked(&mut self) -> u64 {
        let Some(due) = self.some_due() else {
            return self.asking.any();
        };
        let few = i128::from(self.asking.below(4));
        let left = match self.asking.below(16) {
            0..=2 => 0,
            3..=5 => few,
            6..=8 => -few,
            9 => i128::from(i64::MIN),
            10 => i128::from(i64::MIN) - few,
            11 => i128::from(i64::MAX),
            12 => i128::from(i64::MAX) + few,
            13 => return self.asking.any(),
            _ => i128::from(self.asking.below(20_000_000)) - 10_000_000,
        };
        let reading = i128::from(due) - left;
        reading.clamp(0, i128::from(u64::MAX)) as u64
    }

    /// The deadline of a live timer; in half of the cases the earliest of those that have not fired.
    fn some_due(&mut self) -> Option<u64> {
        let pending = self.live_where(|word| word & 1 == 0);
        let earliest = pending.iter().filter_map(|handle| self.due(*handle)).min();
        if earliest.is_some() && self.asking.percent(50) {
            return earliest;
        }
        let live = self.live();
        let one = (!live.is_empty()).then(|| self.asking.one_of(&live));
        one.and_then(|handle| self.due(handle))
    }

    /// Begins a sequence.
    pub fn begin(&mut self) {
        self.now = 0;
        self.raw = 0;
        self.call(Record::plain(op::BEGIN));
    }

    /// Adds a timer, and tells its handle where there is room.
    pub fn add(&mut self, deadline: u64) -> Option<Handle> {
        match self.call(Record::timed(op::ADD, deadline)) {
            Some(Ok(Given::Handle(handle))) => Some(handle),
            _ => None,
        }
    }

    /// The live handles whose state word passes a test.
    fn live_where(&self, test: impl Fn(u32) -> bool) -> Vec<Handle> {
        let places = self.world.set.places.iter().enumerate();
        let live = places.filter_map(|(index, place)| match &place.life {
            Life::Live { shared, .. } if test(word_of(shared)) => Some(Handle {
                place: index as u16,
                uses: place.uses,
            }),
            _ => None,
        });
        live.collect()
    }

    /// The live handles.
    pub fn live(&self) -> Vec<Handle> {
        self.live_where(|_| true)
    }

    /// The live handles of timers that have fired.
    pub fn fired(&self) -> Vec<Handle> {
        self.live_where(|word| word & 1 == 1)
    }

    /// A handle that is most likely dead: of any place, of another use, or of a place that there is not.
    fn made_up(&mut self) -> Handle {
        let place = match self.dice.below(4) {
            0 => self
                .dice
                .one_of(&[PAST, PAST + 1, 2 * PAST - 1, 4095, 65535]),
            1 => self.dice.below(CAP as u64) as u16,
            _ => self.dice.below(8) as u16,
        };
        let known = self.world.set.places.get(usize::from(place));
        let uses = known.map_or(0, |place| place.uses);
        let uses = match self.dice.below(4) {
            0 => uses.wrapping_sub(1),
            1 => uses.wrapping_add(1),
            2 => u32::MAX,
            _ => uses,
        };
        Handle { place, uses }
    }

    /// A handle, mostly one of those given.
    pub fn mostly(&mut self, good: &[Handle]) -> Handle {
        if good.is_empty() || self.dice.percent(6) {
            self.made_up()
        } else {
            self.dice.one_of(good)
        }
    }

    /// A handle, mostly live.
    pub fn handle(&mut self) -> Handle {
        let live = self.live();
        self.mostly(&live)
    }

    /// The deadline of a handle, where it is live.
    pub fn due(&self, handle: Handle) -> Option<u64> {
        let place = self.world.set.places.get(usize::from(handle.place))?;
        let due = place.shared().and_then(due_of);
        due.map(|due| due as u64)
    }

    /// A deadline that a timer or an entry has.
    pub fn known_time(&mut self) -> Option<u64> {
        let entries = self.world.set.entries();
        let in_heap = entries.iter().map(|entry| entry.0 as u64);
        let live = self.live();
        let in_places = live.iter().filter_map(|handle| self.due(*handle));
        let all: Vec<u64> = in_heap.chain(in_places).collect();
        (!all.is_empty()).then(|| self.dice.one_of(&all))
    }

    /// A tick, mostly of a timer that has fired, on time or late, with sums that fit or do not.
    pub fn tick(&mut self) {
        let fired = self.fired();
        let handle = if self.dice.percent(8) {
            self.handle()
        } else {
            self.mostly(&fired)
        };
        let due = self.due(handle).unwrap_or(0);
        let (policy, period) = match self.dice.below(20) {
            0 => (Policy::Skip, 0),
            _ => (self.dice.one_of(&POLICIES), self.period(due)),
        };
        let reading = self.tick_reading(due, period);
        self.call(Record::tick(handle, policy, period, reading));
    }

    /// A period: common, odd, 0, or so that the deadline and it come out at the end of the time range.
    fn period(&mut self, due: u64) -> u64 {
        match self.dice.below(16) {
            0 => 0,
            1 => 1,
            2 => u64::MAX - due,
            3 => (u64::MAX - due).saturating_add(1),
            4 => self.dice.any(),
            5 => self.dice.between(1, 10),
            6 => 5_000_000,
            7 => 5_000_001,
            _ => self.dice.between(1, 300) * 1_000_000,
        }
    }

    /// A reading for a tick: about the deadline, about 5 ms after it, about a whole number of periods after it, or far away.
    fn tick_reading(&mut self, due: u64, period: u64) -> u64 {
        let periods = period.saturating_mul(self.dice.below(4));
        let after = match self.dice.below(10) {
            0 => 0,
            1 => 4_999_999,
            2 => 5_000_000,
            3 | 4 => 5_000_001,
            5 => self.dice.below(20_000_000),
            6 => return self.dice.any(),
            7 => return due.wrapping_sub(self.dice.below(3)),
            _ => 5_000_000u64.saturating_add(periods),
        };
        match self.dice.below(8) {
            0 => due.wrapping_add(after),
            1 => (u64::MAX - period).saturating_add(self.dice.below(2)),
            _ => due.saturating_add(after),
        }
    }

    /// An interval reset, mostly of a live timer.
    pub fn restart(&mut self) {
        let handle = self.handle();
        let reading = match self.dice.below(6) {
            0 => u64::MAX - self.dice.below(3),
            _ => self.dice.below(100_000_000),
        };
        let period = match self.dice.below(6) {
            0 => u64::MAX - reading,
            1 => (u64::MAX - reading).saturating_add(1),
            2 => self.dice.below(3),
            _ => self.dice.below(100_000_000),
        };
        self.call(Record::restart(handle, period, reading));
    }

    /// A word near a wrap, near 0, any, or the one that the timer's entry in the heap expects.
    pub fn set_word(&mut self) {
        let handle = self.handle();
        let word = match self.dice.below(8) {
            0..=3 => 0xffff_fff0 + self.dice.below(16),
            4 => self.dice.below(16),
            5 => self.dice.any(),
            _ => self.entry_word(handle) | u64::from(self.dice.percent(20)),
        };
        self.call(Record::on(op::SET_WORD, handle, word));
    }

    /// The word that the entry of a timer expects: its generation times 4.
    fn entry_word(&self, handle: Handle) -> u64 {
        let entries = self.world.set.entries();
        let own = entries.iter().find(|e| e.2 == usize::from(handle.place));
        own.map_or(0, |entry| u64::from(entry.1) * 4)
    }

    /// The removal of a slot of the heap alone, mostly a full one.
    pub fn remove(&mut self) {
        let slots = self.world.heap.heap.slots();
        let full: Vec<u16> = (0..slots.len() as u16)
            .filter(|slot| matches!(slots[usize::from(*slot)], Seen::Full(_)))
            .collect();
        let slot = if full.is_empty() || self.dice.percent(8) {
            let made = slots.len() as u16;
            let some = self.dice.below(u64::from(made) + 2) as u16;
            self.dice.one_of(&[some, some, made, PAST, 65535])
        } else {
            self.dice.one_of(&full)
        };
        self.call(Record::remove(slot));
    }

    /// A call on the heap alone, with a push as likely as `pushes` of a hundred.
    pub fn heap_call(&mut self, pushes: u64, deadline: u64) {
        if self.dice.percent(pushes) {
            self.call(Record::timed(op::PUSH, deadline));
            return;
        }
        match self.dice.below(16) {
            0..=7 => self.remove(),
            8..=12 => drop(self.call(Record::plain(op::POP))),
            13 => drop(self.call(Record::plain(op::PEEK))),
            _ => drop(self.call(Record::plain(op::TEST))),
        }
    }

    /// A call on the clock alone, mostly one that its mode and its start admit.
    pub fn clock_call(&mut self) {
        let (base, start) = self.world.clock.parts();
        let (base, start) = (base as u64, start.map(|start| start as u64));
        let raw = self.raw(base, start);
        let fitting = match start {
            Some(_) => &[op::READING, op::READING, op::READING, op::PAUSE][..],
            None => &[op::READING, op::RESUME, op::CLOCK_ADVANCE][..],
        };
        let any = [op::READING, op::PAUSE, op::RESUME, op::CLOCK_ADVANCE];
        let op = match self.dice.below(20) {
            0 => op::FRESH,
            1 | 2 => self.dice.one_of(&any),
            _ => self.dice.one_of(fitting),
        };
        let a = match op {
            op::FRESH => self.dice.one_of(&[0, 1, raw, u64::MAX]),
            op::CLOCK_ADVANCE => self.duration(base),
            _ => raw,
        };
        self.call(Record::timed(op, a));
    }

    /// A raw counter: mostly a little after the start, sometimes at it or before, sometimes where the sum is about 2^64.
    fn raw(&mut self, base: u64, start: Option<u64>) -> u64 {
        let start = start.unwrap_or(self.raw);
        let raw = match self.dice.below(16) {
            0 => start.wrapping_sub(self.dice.between(1, 3)),
            1 => start,
            2 => start.saturating_add(u64::MAX - base),
            3 => start.saturating_add(u64::MAX - base).saturating_add(1),
            4 => self.dice.any(),
            _ => start.saturating_add(self.dice.below(1000)),
        };
        self.raw = raw;
        raw
    }

    /// A duration: mostly small, sometimes so that the sum is about 2^64.
    fn duration(&mut self, base: u64) -> u64 {
        match self.dice.below(12) {
            0 => u64::MAX - base,
            1 => (u64::MAX - base).saturating_add(1),
            2 => self.dice.any(),
            3 => 0,
            _ => self.dice.below(10_000),
        }
    }
}
