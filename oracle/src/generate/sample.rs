//! The sample: a fixed list of calls of all kinds, chosen to be telling. The rows are those of the bench sheet.

use super::maker::{Maker, PAST};
use crate::capacity::CAP;
use crate::record::{op, Handle, Policy, Record, POLICIES};

const MS: u64 = 1_000_000;

/// The calls of the sample.
pub fn records() -> Vec<Record> {
    let mut maker = Maker::new(0);
    let pieces = [
        nothing_yet,
        row_1_to_3,
        row_4_to_7,
        row_8,
        row_9,
        row_10,
        row_11,
        row_12,
        row_13,
        last_in_first_out,
        ties,
        cancels,
        dead_handles,
        popped_before_its_drain,
        same_word_again,
        whole_word,
        ticks_refused,
        edge_of_late,
        end_of_time,
        interval_resets,
        closed,
        closed_early,
        left_by_sign,
        left_at_the_edges,
        left_until_the_close,
        heap_full,
        heap_refusals,
        heap_ties,
        clock_modes,
        clock_sums,
        no_calls,
    ];
    for piece in pieces {
        maker.begin();
        piece(&mut maker);
    }
    maker.records
}

/// A handle.
fn at(place: u16, uses: u32) -> Handle {
    Handle { place, uses }
}

/// The handle of the first timer of a set.
const FIRST: Handle = Handle { place: 0, uses: 0 };

/// Calls without fields.
fn plain(m: &mut Maker, ops: &[u8]) {
    for op in ops {
        m.call(Record::plain(*op));
    }
}

/// Calls of one operation, one for each time.
fn timed(m: &mut Maker, op: u8, times: &[u64]) {
    for time in times {
        m.call(Record::timed(op, *time));
    }
}

/// Adds, one for each deadline.
fn add(m: &mut Maker, deadlines: &[u64]) {
    timed(m, op::ADD, deadlines);
}

/// A reset.
fn reset(m: &mut Maker, handle: Handle, deadline: u64) {
    m.call(Record::on(op::RESET, handle, deadline));
}

/// A cancel.
fn cancel(m: &mut Maker, handle: Handle) {
    m.call(Record::on(op::CANCEL, handle, 0));
}

/// A poll.
fn poll(m: &mut Maker, handle: Handle) {
    m.call(Record::on(op::POLL, handle, 0));
}

/// The word of a timer set.
fn word(m: &mut Maker, handle: Handle, word: u64) {
    m.call(Record::on(op::SET_WORD, handle, word));
}

/// How long is left, asked at some readings after calls that change nothing.
fn left(m: &mut Maker, readings: &[u64]) {
    for reading in readings {
        m.call_at(Record::plain(op::NEXT_WAKE), *reading);
    }
}

/// Removals of slots of the heap alone.
fn remove(m: &mut Maker, slots: &[u16]) {
    for slot in slots {
        m.call(Record::remove(*slot));
    }
}

/// Every call on what is fresh.
fn nothing_yet(m: &mut Maker) {
    plain(m, &[op::DRAIN, op::NEXT_WAKE]);
    timed(m, op::ADVANCE, &[0]);
    timed(m, op::TURN, &[u64::MAX]);
    reset(m, FIRST, 0);
    cancel(m, FIRST);
    poll(m, FIRST);
    m.call(Record::tick(FIRST, Policy::Burst, 1, 1));
    m.call(Record::restart(FIRST, 1, 1));
    word(m, FIRST, 1);
    plain(m, &[op::POP, op::PEEK, op::TEST]);
    remove(m, &[0]);
    timed(m, op::READING, &[0, 5]);
}

/// Words 0, 5 and 4,294,967,293 go to 4, 8 and 0.
fn row_1_to_3(m: &mut Maker) {
    add(m, &[7]);
    reset(m, FIRST, 8);
    word(m, FIRST, 5);
    reset(m, FIRST, 8);
    word(m, FIRST, 4_294_967_293);
    reset(m, FIRST, 8);
    word(m, FIRST, u64::MAX);
    reset(m, FIRST, 9);
    plain(m, &[op::DRAIN]);
}

/// Ticks with T 1,000 ms and period 100 ms.
fn row_4_to_7(m: &mut Maker) {
    for reading in [1005 * MS, 1005 * MS + 1, 1250 * MS, 1200 * MS] {
        for policy in POLICIES {
            m.begin();
            add(m, &[1000 * MS]);
            timed(m, op::TURN, &[1000 * MS]);
            m.call(Record::tick(FIRST, policy, 100 * MS, reading));
        }
    }
}

/// A removal after which the moved entry goes up.
fn row_8(m: &mut Maker) {
    timed(m, op::PUSH, &[1, 10, 2, 11, 12, 3]);
    remove(m, &[3]);
    plain(m, &[op::TEST, op::PEEK]);
}

/// A pop with a tie between children.
fn row_9(m: &mut Maker) {
    timed(m, op::PUSH, &[1, 5, 5, 9]);
    plain(m, &[op::POP, op::POP, op::POP, op::POP, op::POP]);
}

/// Slots come back last in, first out.
fn row_10(m: &mut Maker) {
    timed(m, op::PUSH, &[7, 7, 7]);
    remove(m, &[1, 2, 0]);
    timed(m, op::PUSH, &[7, 7, 7, 7]);
}

/// An entry that a reset has left behind is popped and not reported.
fn row_11(m: &mut Maker) {
    add(m, &[10]);
    plain(m, &[op::DRAIN]);
    reset(m, FIRST, 20);
    timed(m, op::ADVANCE, &[10]);
    plain(m, &[op::DRAIN, op::NEXT_WAKE]);
    timed(m, op::TURN, &[19, 20]);
}

/// A set is full when every place is taken; a cancel makes room only with the next drain.
fn row_12(m: &mut Maker) {
    let places = CAP as u64;
    for add_number in 0..=places {
        add(m, &[add_number * 7 % places]);
    }
    cancel(m, at(5, 0));
    add(m, &[1]);
    plain(m, &[op::DRAIN]);
    add(m, &[1, 2]);
    timed(m, op::TURN, &[places / 2 - 1]);
}

/// The example of the replay program.
fn row_13(m: &mut Maker) {
    add(m, &[10, 5, 10]);
    timed(m, op::TURN, &[10]);
    poll(m, at(1, 0));
    cancel(m, at(1, 0));
    poll(m, at(1, 0));
}

/// The list is last in, first out, and a timer that waits does not move.
fn last_in_first_out(m: &mut Maker) {
    add(m, &[3, 3, 3]);
    reset(m, at(0, 0), 3);
    plain(m, &[op::DRAIN]);
    reset(m, at(1, 0), 3);
    reset(m, at(0, 0), 3);
    cancel(m, at(2, 0));
    reset(m, at(1, 0), 2);
    plain(m, &[op::DRAIN]);
    timed(m, op::TURN, &[3]);
}

/// Equal deadlines: the heap decides the order.
fn ties(m: &mut Maker) {
    add(m, &[5, 5, 5, 4, 5, 4, 5]);
    timed(m, op::TURN, &[4, 5]);
    reset(m, at(6, 0), 6);
    reset(m, at(2, 0), 6);
    reset(m, at(4, 0), 6);
    timed(m, op::TURN, &[5, 6]);
}

/// Cancels before and after a drain; a place is used again with the next number.
fn cancels(m: &mut Maker) {
    add(m, &[4, 4]);
    cancel(m, FIRST);
    add(m, &[9]);
    plain(m, &[op::DRAIN]);
    add(m, &[2]);
    timed(m, op::TURN, &[2]);
    cancel(m, at(0, 1));
    timed(m, op::TURN, &[4]);
    add(m, &[1]);
    cancel(m, at(0, 2));
    plain(m, &[op::DRAIN]);
    poll(m, at(0, 2));
    poll(m, at(1, 0));
}

/// Handles of places that there are not, that are free, cancelled, or of another use.
fn dead_handles(m: &mut Maker) {
    add(m, &[1, 1]);
    cancel(m, at(1, 0));
    for handle in [at(PAST, 0), at(65535, 0), at(2, 0), at(1, 0), at(0, 1)] {
        reset(m, handle, 1);
        cancel(m, handle);
        poll(m, handle);
        m.call(Record::tick(handle, Policy::Delay, 1, 1));
        m.call(Record::restart(handle, u64::MAX, 1));
        word(m, handle, 0);
    }
}

/// A cancelled timer that is popped before its drain has fired, and is not reported.
fn popped_before_its_drain(m: &mut Maker) {
    add(m, &[1, 1]);
    plain(m, &[op::DRAIN]);
    cancel(m, FIRST);
    timed(m, op::ADVANCE, &[1]);
    plain(m, &[op::DRAIN]);
    add(m, &[0]);
}

/// A word that has come round to what an old entry expects.
fn same_word_again(m: &mut Maker) {
    add(m, &[10]);
    plain(m, &[op::DRAIN]);
    reset(m, FIRST, 20);
    word(m, FIRST, 0);
    timed(m, op::ADVANCE, &[10]);
    timed(m, op::TURN, &[20]);
}

/// Only a whole word that is right lets a timer go off.
fn whole_word(m: &mut Maker) {
    add(m, &[3]);
    plain(m, &[op::DRAIN]);
    word(m, FIRST, 1);
    timed(m, op::ADVANCE, &[3]);
    word(m, FIRST, 4_294_967_292);
    reset(m, FIRST, 4);
    timed(m, op::TURN, &[4]);
}

/// The refusals of a tick, in their order: 3, 10, 9, 6.
fn ticks_refused(m: &mut Maker) {
    add(m, &[1]);
    m.call(Record::tick(at(0, 7), Policy::Skip, 0, u64::MAX));
    m.call(Record::tick(FIRST, Policy::Skip, 0, u64::MAX));
    timed(m, op::TURN, &[1]);
    m.call(Record::tick(FIRST, Policy::Skip, 0, 5_000_002));
    m.call(Record::tick(FIRST, Policy::Skip, u64::MAX, 5_000_002));
    m.call(Record::tick(FIRST, Policy::Delay, u64::MAX, 5_000_002));
    m.call(Record::tick(FIRST, Policy::Burst, u64::MAX, 5_000_002));
    m.call(Record::tick(FIRST, Policy::Skip, 0, 5_000_001));
    m.call(Record::tick(FIRST, Policy::Skip, 0, 5_000_001));
}

/// Five milliseconds after the deadline is on time, and one nanosecond more is late.
fn edge_of_late(m: &mut Maker) {
    for (policy, reading) in [
        (Policy::Delay, 5_000_010),
        (Policy::Delay, 5_000_011),
        (Policy::Skip, 5_000_011),
        (Policy::Burst, 50_000_000),
    ] {
        m.begin();
        add(m, &[10]);
        timed(m, op::TURN, &[10]);
        m.call(Record::tick(FIRST, policy, 3, reading));
    }
}

/// Within five milliseconds of the end of the time range nothing is late, and the sums still have their limit.
fn end_of_time(m: &mut Maker) {
    let top = u64::MAX;
    add(m, &[top, top - 1]);
    timed(m, op::TURN, &[top - 2, top - 1]);
    m.call(Record::tick(at(1, 0), Policy::Skip, 2, top));
    m.call(Record::tick(at(1, 0), Policy::Skip, 1, top));
    timed(m, op::TURN, &[top]);
    m.call(Record::tick(FIRST, Policy::Delay, 0, 0));
    plain(m, &[op::DRAIN, op::NEXT_WAKE]);
}

/// Interval resets, of timers that have fired and that have not.
fn interval_resets(m: &mut Maker) {
    add(m, &[1, 2]);
    timed(m, op::TURN, &[1]);
    m.call(Record::restart(FIRST, 5, 3));
    m.call(Record::restart(at(1, 0), 0, 3));
    m.call(Record::restart(at(1, 0), u64::MAX, 1));
    m.call(Record::restart(at(1, 0), u64::MAX, 0));
    timed(m, op::TURN, &[8]);
}

/// A close, with timers that have fired, wait, are in the heap, and are cancelled.
fn closed(m: &mut Maker) {
    add(m, &[1, 5, 6]);
    timed(m, op::TURN, &[1]);
    add(m, &[7]);
    cancel(m, at(2, 0));
    plain(m, &[op::CLOSE]);
    for place in 0..5 {
        poll(m, at(place, 0));
    }
    plain(m, &[op::NEXT_WAKE, op::DRAIN, op::CLOSE]);
    reset(m, FIRST, 1);
    reset(m, at(PAST, 0), 1);
    cancel(m, FIRST);
    add(m, &[1]);
    timed(m, op::ADVANCE, &[9]);
    timed(m, op::TURN, &[9]);
    m.call(Record::tick(FIRST, Policy::Burst, 1, 1));
    m.call(Record::restart(FIRST, 1, 1));
    word(m, FIRST, 0);
}

/// A close of a set with nothing in it, and of one whose fired timer waits again.
fn closed_early(m: &mut Maker) {
    plain(m, &[op::CLOSE, op::NEXT_WAKE]);
    poll(m, FIRST);
    m.begin();
    add(m, &[1]);
    timed(m, op::TURN, &[1]);
    word(m, FIRST, 5);
    m.call(Record::tick(FIRST, Policy::Burst, 1, 1));
    word(m, FIRST, 5);
    plain(m, &[op::CLOSE]);
    poll(m, FIRST);
}

/// What is left is below zero once a timer is overdue, fired or not; the least counts those that have not fired, drained or not.
fn left_by_sign(m: &mut Maker) {
    left(m, &[0, u64::MAX]);
    add(m, &[10, 20]);
    left(m, &[0, 9, 10, 11, 20, 25]);
    timed(m, op::TURN, &[10]);
    left(m, &[10, 12, 20, 21]);
    add(m, &[15]);
    left(m, &[12, 15, 16]);
    cancel(m, at(1, 0));
    left(m, &[12]);
    cancel(m, at(2, 0));
    left(m, &[12]);
    plain(m, &[op::DRAIN]);
    left(m, &[12]);
    reset(m, FIRST, 11);
    left(m, &[12]);
}

/// What is left has 64 bits with a sign: beyond them it is refused on either side, and the least only where it is itself beyond them.
fn left_at_the_edges(m: &mut Maker) {
    let (half, top) = (1 << 63, u64::MAX);
    add(m, &[0, top]);
    left(m, &[0, half - 2, half - 1, half, half + 1, top]);
    timed(m, op::TURN, &[0]);
    left(m, &[0, half - 1, half, half + 1, top]);
    reset(m, at(1, 0), half);
    left(m, &[0, 1, half, top]);
    reset(m, at(1, 0), half - 1);
    left(m, &[0, top]);
    reset(m, at(1, 0), half - 2);
    left(m, &[0, top - 1, top]);
}

/// A closed set refuses to say what is left, of live timers and of dead ones.
fn left_until_the_close(m: &mut Maker) {
    add(m, &[1, 2, 3]);
    timed(m, op::TURN, &[1]);
    cancel(m, at(1, 0));
    plain(m, &[op::DRAIN]);
    left(m, &[2]);
    plain(m, &[op::CLOSE]);
    left(m, &[0, 2, u64::MAX]);
}

/// The heap is full when every slot is.
fn heap_full(m: &mut Maker) {
    for step in 0..=u64::from(PAST) {
        timed(m, op::PUSH, &[(6 + 12 * step) % 13]);
    }
    remove(m, &[PAST - 1, 0, PAST / 2 - 1]);
    plain(m, &[op::POP, op::TEST]);
}

/// Removals of slots that are empty or were never made.
fn heap_refusals(m: &mut Maker) {
    remove(m, &[0, 65535]);
    timed(m, op::PUSH, &[3]);
    remove(m, &[1, 0, 0]);
    timed(m, op::PUSH, &[4, 2]);
    plain(m, &[op::POP]);
    remove(m, &[1, 2]);
    plain(m, &[op::TEST]);
}

/// Ties in the heap, and removals from its middle.
fn heap_ties(m: &mut Maker) {
    timed(m, op::PUSH, &[2, 2, 1, 2, 1, 1, 2, 1]);
    remove(m, &[1, 4]);
    plain(m, &[op::POP, op::POP]);
    timed(m, op::PUSH, &[1, 0, 2]);
    plain(m, &[op::POP, op::POP, op::POP]);
}

/// A clock that is paused, moved on and resumed; the wrong mode and a counter behind its start.
fn clock_modes(m: &mut Maker) {
    timed(m, op::FRESH, &[100]);
    timed(m, op::READING, &[100, 130, 99]);
    timed(m, op::RESUME, &[130]);
    timed(m, op::CLOCK_ADVANCE, &[1]);
    timed(m, op::PAUSE, &[99, 150, 160]);
    timed(m, op::READING, &[0, u64::MAX]);
    timed(m, op::CLOCK_ADVANCE, &[0, 25]);
    timed(m, op::RESUME, &[20]);
    timed(m, op::READING, &[20, 30, 19]);
    timed(m, op::PAUSE, &[20]);
}

/// The sums of a clock at the end of the time range.
fn clock_sums(m: &mut Maker) {
    timed(m, op::FRESH, &[1]);
    timed(m, op::PAUSE, &[1]);
    timed(m, op::CLOCK_ADVANCE, &[u64::MAX, u64::MAX - 1, 1, 0]);
    timed(m, op::RESUME, &[5]);
    timed(m, op::READING, &[5, 6, 4]);
    timed(m, op::PAUSE, &[6, 5]);
    timed(m, op::FRESH, &[u64::MAX]);
    timed(m, op::READING, &[u64::MAX, 0]);
}

/// Operations that there are not.
fn no_calls(m: &mut Maker) {
    plain(m, &[11, 13, 15, 21, 23, 29, 30, 32, 255]);
    add(m, &[1]);
}
