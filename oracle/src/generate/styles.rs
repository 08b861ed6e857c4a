//! Long sequences by styles: which calls are made how often, how each sequence opens, and where deadlines and readings come from.

use super::maker::Maker;
use crate::capacity::CAP;
use crate::record::{op, Record};

/// A kind of call.
#[derive(Clone, Copy)]
pub enum Kind {
    Add,
    Reset,
    Storm,
    Cancel,
    Drain,
    Advance,
    Turn,
    NextWake,
    Poll,
    Tick,
    Restart,
    SetWord,
    Heap,
    Clock,
    NoCall,
}

/// How many places there are.
const PLACES: u64 = CAP as u64;

/// A source of times.
type Times = fn(&mut Maker) -> u64;

/// A style of sequences.
pub struct Style {
    opening: fn(&mut Maker),
    /// The fewest and the most calls after the opening.
    length: (u64, u64),
    kinds: &'static [(u64, Kind)],
    deadline: Times,
    reading: Times,
    /// What is done last.
    ending: fn(&mut Maker, Times),
}

impl Style {
    /// Makes one sequence.
    pub fn make(&self, maker: &mut Maker) {
        maker.begin();
        (self.opening)(maker);
        let length = maker.dice.between(self.length.0, self.length.1);
        for _ in 0..length {
            let kind = maker.dice.weighted(self.kinds);
            self.call(maker, kind);
        }
        (self.ending)(maker, self.reading);
    }

    /// Makes a call of a kind.
    fn call(&self, maker: &mut Maker, kind: Kind) {
        match kind {
            Kind::Add => timed(maker, op::ADD, self.deadline),
            Kind::Reset => reset(maker, self.deadline),
            Kind::Storm => storm(maker, self.deadline),
            Kind::Cancel => on_handle(maker, op::CANCEL),
            Kind::Drain => plain(maker, op::DRAIN),
            Kind::Advance => timed(maker, op::ADVANCE, self.reading),
            Kind::Turn => timed(maker, op::TURN, self.reading),
            Kind::NextWake => plain(maker, op::NEXT_WAKE),
            Kind::Poll => on_handle(maker, op::POLL),
            Kind::Tick => maker.tick(),
            Kind::Restart => maker.restart(),
            Kind::SetWord => maker.set_word(),
            Kind::Heap => {
                let deadline = (self.deadline)(maker);
                maker.heap_call(50, deadline);
            }
            Kind::Clock => maker.clock_call(),
            Kind::NoCall => {
                let op = maker
                    .dice
                    .one_of(&[11, 13, 14, 15, 21, 23, 29, 30, 32, 255]);
                plain(maker, op);
            }
        }
    }
}

/// Makes a call without fields.
fn plain(maker: &mut Maker, op: u8) {
    maker.call(Record::plain(op));
}

/// Makes a call with a time.
fn timed(maker: &mut Maker, op: u8, times: Times) {
    let time = times(maker);
    maker.call(Record::timed(op, time));
}

/// Makes a call on a handle.
fn on_handle(maker: &mut Maker, op: u8) {
    let handle = maker.handle();
    maker.call(Record::on(op, handle, 0));
}

/// Makes a reset.
fn reset(maker: &mut Maker, deadline: Times) {
    let handle = maker.handle();
    let deadline = deadline(maker);
    maker.call(Record::on(op::RESET, handle, deadline));
}

/// Makes many resets of few timers.
fn storm(maker: &mut Maker, deadline: Times) {
    for _ in 0..maker.dice.between(3, 20) {
        reset(maker, deadline);
    }
}

// Where times come from.

/// Few different times, so that there are ties.
fn few(maker: &mut Maker) -> u64 {
    maker.dice.below(4)
}

/// Times below 100.
fn span(maker: &mut Maker) -> u64 {
    maker.dice.below(100)
}

/// A little after the time at which the session has arrived.
fn ahead(maker: &mut Maker) -> u64 {
    maker.now.saturating_add(maker.dice.below(60))
}

/// The session goes on by a little; one reading in ten goes back.
fn onward(maker: &mut Maker) -> u64 {
    if maker.dice.percent(10) {
        return maker.now.saturating_sub(maker.dice.below(40));
    }
    maker.now = maker.now.saturating_add(maker.dice.below(25));
    maker.now
}

/// At a deadline that is known, one before or one after; or below 100.
fn near(maker: &mut Maker) -> u64 {
    match maker.known_time() {
        Some(time) if maker.dice.percent(80) => {
            let off = maker.dice.below(3);
            time.wrapping_add(off).wrapping_sub(1)
        }
        _ => span(maker),
    }
}

/// Times at both ends of the range, in the middle of it, and anywhere.
fn extreme(maker: &mut Maker) -> u64 {
    let low = maker.dice.below(4);
    match maker.dice.below(8) {
        0..=3 => u64::MAX - low,
        4 | 5 => low,
        6 => (1 << 63) - 2 + low,
        _ => maker.dice.any(),
    }
}

/// Whole milliseconds below 100, and a nanosecond more at times.
fn milliseconds(maker: &mut Maker) -> u64 {
    let more = u64::from(maker.dice.percent(20));
    maker.dice.below(100) * 1_000_000 + more
}

/// Whole milliseconds, or a time at the upper end of the range.
fn milliseconds_or_top(maker: &mut Maker) -> u64 {
    if maker.dice.percent(15) {
        return u64::MAX
            - maker
                .dice
                .one_of(&[0, 1, 4_999_999, 5_000_000, 5_000_001, 9_000_000]);
    }
    milliseconds(maker)
}

// How sequences open and end.

/// Nothing first.
fn at_once(_: &mut Maker) {}

/// A few timers, drained or not.
fn several(maker: &mut Maker) {
    for _ in 0..maker.dice.between(2, 10) {
        let deadline = span(maker);
        maker.add(deadline);
    }
    if maker.dice.percent(70) {
        plain(maker, op::DRAIN);
    }
}

/// A few timers whose words are near the end of their range.
fn near_the_wrap(maker: &mut Maker) {
    several(maker);
    for handle in maker.live() {
        let word = 0xffff_fff0 + maker.dice.below(16);
        maker.call(Record::on(op::SET_WORD, handle, word));
    }
}

/// A few timers that have fired.
fn gone_off(maker: &mut Maker) {
    for _ in 0..maker.dice.between(2, 8) {
        let deadline = milliseconds_or_top(maker);
        maker.add(deadline);
    }
    maker.call(Record::timed(op::TURN, u64::MAX));
}

/// As many timers as there are places, one more, a cancel that frees nothing yet, and a drain that does.
fn to_the_brim(maker: &mut Maker) {
    let ties = maker.dice.percent(40);
    for _ in 0..=CAP {
        let deadline = if ties { few(maker) } else { span(maker) };
        maker.add(deadline);
    }
    if maker.dice.percent(50) {
        plain(maker, op::DRAIN);
    }
    for _ in 0..maker.dice.between(1, 6) {
        on_handle(maker, op::CANCEL);
    }
    maker.add(1);
    if maker.dice.percent(30) {
        timed(maker, op::ADVANCE, span);
    }
    plain(maker, op::DRAIN);
    maker.add(2);
}

/// Nothing last.
fn no_more(_: &mut Maker, _: Times) {}

/// A close, polls, and calls that a closed set refuses.
fn shut(maker: &mut Maker, reading: Times) {
    if maker.dice.percent(30) {
        plain(maker, op::DRAIN);
    }
    plain(maker, op::CLOSE);
    for handle in maker.live() {
        maker.call(Record::on(op::POLL, handle, 0));
    }
    plain(maker, op::NEXT_WAKE);
    for _ in 0..maker.dice.below(6) {
        refused_when_closed(maker, reading);
    }
    on_handle(maker, op::POLL);
    plain(maker, op::NEXT_WAKE);
}

/// A call that a closed set refuses.
fn refused_when_closed(maker: &mut Maker, reading: Times) {
    match maker.dice.below(11) {
        0 => timed(maker, op::ADD, span),
        1 | 2 => reset(maker, span),
        3 => on_handle(maker, op::CANCEL),
        4 => plain(maker, op::DRAIN),
        5 => timed(maker, op::ADVANCE, reading),
        6 => timed(maker, op::TURN, reading),
        7 => plain(maker, op::CLOSE),
        8 => maker.tick(),
        9 => maker.restart(),
        _ => maker.set_word(),
    }
}

// The styles.

/// Everything, as it comes.
pub const MIXED: Style = Style {
    opening: at_once,
    length: (40, 200),
    kinds: &[
        (14, Kind::Add),
        (12, Kind::Reset),
        (7, Kind::Cancel),
        (8, Kind::Drain),
        (6, Kind::Advance),
        (10, Kind::Turn),
        (2, Kind::NextWake),
        (5, Kind::Poll),
        (6, Kind::Tick),
        (3, Kind::Restart),
        (2, Kind::SetWord),
        (8, Kind::Heap),
        (6, Kind::Clock),
        (1, Kind::NoCall),
    ],
    deadline: ahead,
    reading: onward,
    ending: no_more,
};

/// One long session, in which places are used many times and words grow.
pub const LONG: Style = Style {
    opening: several,
    length: (3_000, 6_000),
    kinds: &[
        (15, Kind::Add),
        (20, Kind::Reset),
        (14, Kind::Cancel),
        (6, Kind::Drain),
        (5, Kind::Advance),
        (16, Kind::Turn),
        (2, Kind::NextWake),
        (5, Kind::Poll),
        (6, Kind::Tick),
        (3, Kind::Restart),
        (4, Kind::Heap),
        (4, Kind::Clock),
    ],
    deadline: ahead,
    reading: onward,
    ending: no_more,
};

/// Deadlines that are often equal.
pub const TIES: Style = Style {
    opening: at_once,
    length: (40, 150),
    kinds: &[
        (30, Kind::Add),
        (12, Kind::Reset),
        (8, Kind::Cancel),
        (10, Kind::Drain),
        (4, Kind::Advance),
        (10, Kind::Turn),
    ],
    deadline: few,
    reading: few,
    ending: no_more,
};

/// Many resets of a few timers between drains.
pub const STORMS: Style = Style {
    opening: several,
    length: (10, 40),
    kinds: &[
        (2, Kind::Add),
        (6, Kind::Storm),
        (1, Kind::Cancel),
        (3, Kind::Drain),
        (3, Kind::Advance),
        (4, Kind::Turn),
        (1, Kind::Poll),
    ],
    deadline: span,
    reading: span,
    ending: no_more,
};

/// Cancels before and after a drain, and places that are used again and again.
pub const CANCELS: Style = Style {
    opening: several,
    length: (40, 150),
    kinds: &[
        (24, Kind::Add),
        (4, Kind::Reset),
        (20, Kind::Cancel),
        (10, Kind::Drain),
        (10, Kind::Advance),
        (6, Kind::Turn),
        (4, Kind::Poll),
    ],
    deadline: span,
    reading: span,
    ending: no_more,
};

/// Advances without drains over entries that resets and cancels have left behind.
pub const STALE: Style = Style {
    opening: several,
    length: (30, 100),
    kinds: &[
        (10, Kind::Add),
        (20, Kind::Reset),
        (5, Kind::Cancel),
        (6, Kind::Drain),
        (20, Kind::Advance),
        (2, Kind::Turn),
        (2, Kind::NextWake),
        (4, Kind::Poll),
    ],
    deadline: near,
    reading: near,
    ending: no_more,
};

/// Sets that are full, or nearly so.
pub const FULL: Style = Style {
    opening: to_the_brim,
    length: (PLACES / 3, PLACES * 5 / 4),
    kinds: &[
        (16, Kind::Add),
        (12, Kind::Reset),
        (9, Kind::Cancel),
        (8, Kind::Drain),
        (4, Kind::Advance),
        (4, Kind::Turn),
        (3, Kind::Tick),
    ],
    deadline: span,
    reading: near,
    ending: no_more,
};

/// Times at the ends of the range, readings in any order.
pub const EXTREMES: Style = Style {
    opening: at_once,
    length: (30, 120),
    kinds: &[
        (20, Kind::Add),
        (12, Kind::Reset),
        (5, Kind::Cancel),
        (8, Kind::Drain),
        (6, Kind::Advance),
        (10, Kind::Turn),
        (2, Kind::NextWake),
        (10, Kind::Tick),
        (5, Kind::Restart),
        (3, Kind::Heap),
    ],
    deadline: extreme,
    reading: extreme,
    ending: no_more,
};

/// State words that wrap, and words that an old entry expects.
pub const WRAPS: Style = Style {
    opening: near_the_wrap,
    length: (20, 80),
    kinds: &[
        (3, Kind::Add),
        (24, Kind::Reset),
        (2, Kind::Cancel),
        (8, Kind::Drain),
        (12, Kind::Advance),
        (6, Kind::Turn),
        (6, Kind::Poll),
        (8, Kind::Tick),
        (3, Kind::Restart),
        (14, Kind::SetWord),
    ],
    deadline: near,
    reading: near,
    ending: no_more,
};

/// Ticks and interval resets.
pub const TICKS: Style = Style {
    opening: gone_off,
    length: (30, 100),
    kinds: &[
        (5, Kind::Add),
        (3, Kind::Reset),
        (1, Kind::Cancel),
        (2, Kind::Drain),
        (2, Kind::Advance),
        (14, Kind::Turn),
        (30, Kind::Tick),
        (6, Kind::Restart),
        (2, Kind::Poll),
        (6, Kind::SetWord),
    ],
    deadline: milliseconds_or_top,
    reading: extreme,
    ending: no_more,
};

/// Sets that are closed early, and what can be asked of them then.
pub const CLOSES: Style = Style {
    opening: several,
    length: (2, 20),
    kinds: &[
        (8, Kind::Add),
        (8, Kind::Reset),
        (6, Kind::Cancel),
        (3, Kind::Drain),
        (6, Kind::Advance),
        (5, Kind::Turn),
        (2, Kind::Tick),
        (2, Kind::SetWord),
    ],
    deadline: near,
    reading: near,
    ending: shut,
};

/// The clock alone.
pub const CLOCK: Style = Style {
    opening: at_once,
    length: (20, 80),
    kinds: &[(1, Kind::Clock)],
    deadline: span,
    reading: span,
    ending: no_more,
};

/// Makes one sequence on the heap alone: it grows and shrinks by turns, at times until it is full or empty.
pub fn heap(maker: &mut Maker) {
    maker.begin();
    let deadline = maker.dice.one_of(&[few as Times, span, extreme]);
    for _ in 0..maker.dice.between(1, 6) {
        let pushes = maker.dice.one_of(&[10, 40, 55, 75, 95]);
        for _ in 0..maker.dice.between(20, PLACES * 7 / 5) {
            let deadline = deadline(maker);
            maker.heap_call(pushes, deadline);
        }
    }
}
