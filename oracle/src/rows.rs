//! Tests: the rows of the bench sheet, the lines of FORMAT.md, and what the driver promises. What is awaited comes from those pages.

use crate::capacity::CAP;
use crate::generate::{self, CALLS};
use crate::queries::{self, Outcome, Query, OUTCOMES};
use crate::record::{op, Handle, Policy, Record, POLICIES};
use crate::world::World;

const MS: u64 = 1_000_000;
const FIRST: Handle = Handle { place: 0, uses: 0 };

/// The lines of some calls from the beginning.
fn lines(records: &[Record]) -> Vec<String> {
    let mut world = World::fresh();
    records.iter().map(|record| world.line(record)).collect()
}

/// The last line of some calls from the beginning.
fn last(records: &[Record]) -> String {
    lines(records).pop().unwrap()
}

/// What a line has before its first `|`.
fn answer(line: &str) -> &str {
    line.split(" |").next().unwrap()
}

/// A call with a time.
fn timed(op: u8, a: u64) -> Record {
    Record::timed(op, a)
}

/// Calls of one operation, one for each time.
fn each(op: u8, times: &[u64]) -> Vec<Record> {
    times.iter().map(|time| timed(op, *time)).collect()
}

/// The deadlines of a heap alone, as a line has them.
fn deadlines(line: &str) -> Vec<u64> {
    let heap = line.split(" |").nth(1).unwrap();
    let entries = heap.split_whitespace();
    entries
        .map(|entry| entry.split(':').next().unwrap().parse().unwrap())
        .collect()
}

/// The part of a line that stands behind some text, up to the next colon.
fn part_after(line: &str, text: &str) -> String {
    let (_, rest) = line.split_once(text).unwrap();
    rest.split(':').next().unwrap().into()
}

/// The word of the first timer after a reset of one whose word was set.
fn word_after_reset(word: u64) -> String {
    let line = last(&[
        timed(op::ADD, 7),
        Record::on(op::SET_WORD, FIRST, word),
        Record::on(op::RESET, FIRST, 7),
    ]);
    part_after(&line, "0:0:L:")
}

/// What a tick with T 1,000 ms and period 100 ms makes the next deadline.
fn next_deadline(policy: Policy, reading: u64) -> String {
    let line = last(&[
        timed(op::ADD, 1000 * MS),
        timed(op::TURN, 1000 * MS),
        Record::tick(FIRST, policy, 100 * MS, reading),
    ]);
    assert_eq!(answer(&line), "9 0 1000000000");
    part_after(&line, "0:0:L:4:")
}

#[test]
fn rows_1_to_3_words_after_a_reset() {
    assert_eq!(word_after_reset(0), "4");
    assert_eq!(word_after_reset(5), "8");
    assert_eq!(word_after_reset(4_294_967_293), "0");
}

#[test]
fn row_4_a_tick_on_time() {
    for policy in POLICIES {
        assert_eq!(next_deadline(policy, 1005 * MS), "1100000000");
    }
}

#[test]
fn rows_5_to_7_late_ticks() {
    let at = |reading| POLICIES.map(|policy| next_deadline(policy, reading));
    assert_eq!(
        at(1005 * MS + 1),
        ["1100000000", "1105000001", "1100000000"]
    );
    assert_eq!(at(1250 * MS), ["1100000000", "1350000000", "1300000000"]);
    assert_eq!(at(1200 * MS)[2], "1300000000");
}

#[test]
fn row_8_a_removal_that_is_repaired_upward() {
    let mut calls = each(op::PUSH, &[1, 10, 2, 11, 12, 3]);
    assert_eq!(deadlines(&last(&calls)), [1, 10, 2, 11, 12, 3]);
    calls.push(Record::remove(3));
    let line = last(&calls);
    assert_eq!(answer(&line), "17 0 11 1");
    assert_eq!(deadlines(&line), [1, 3, 2, 10, 12]);
}

#[test]
fn row_9_a_pop_with_a_tie() {
    let mut calls = each(op::PUSH, &[1, 5, 5, 9]);
    calls.push(Record::plain(op::POP));
    assert_eq!(last(&calls), "18 0 1 0 1 | 5:1 9:3 5:2 | 0 4 E4 F0 F2 F1");
}

#[test]
fn row_10_slots_are_used_again() {
    let mut calls = each(op::PUSH, &[7, 7, 7]);
    calls.extend([1, 2, 0].map(Record::remove));
    calls.extend(each(op::PUSH, &[7, 7, 7, 7]));
    let lines = lines(&calls);
    let slots: Vec<&str> = lines[6..].iter().map(|line| answer(line)).collect();
    assert_eq!(slots, ["16 0 0 0", "16 0 2 0", "16 0 1 0", "16 0 3 0"]);
}

#[test]
fn row_11_an_entry_that_a_reset_has_left_behind() {
    let lines = lines(&[
        timed(op::ADD, 10),
        Record::plain(op::DRAIN),
        Record::on(op::RESET, FIRST, 20),
        timed(op::ADVANCE, 10),
        Record::plain(op::DRAIN),
        Record::plain(op::NEXT_WAKE),
    ]);
    assert_eq!(answer(&lines[3]), "4 0 0 1");
    assert_eq!(answer(&lines[5]), "6 0 20");
}

#[test]
fn row_12_a_full_set() {
    let mut calls = each(op::ADD, &[10; CAP + 1]);
    calls.push(Record::on(op::CANCEL, FIRST, 0));
    calls.push(timed(op::ADD, 10));
    calls.push(Record::plain(op::DRAIN));
    calls.push(timed(op::ADD, 10));
    let lines = lines(&calls);
    let answers: Vec<&str> = lines[CAP - 1..].iter().map(|line| answer(line)).collect();
    let last = format!("0 0 {} 0", CAP - 1);
    let then = ["0 4", "2 0", "0 4", "3 0", "0 0 0 1"];
    assert_eq!((answers[0], &answers[1..]), (last.as_str(), &then[..]));
}

#[test]
fn row_13_a_short_session() {
    let second = Handle { place: 1, uses: 0 };
    let mut calls = each(op::ADD, &[10, 5, 10]);
    calls.push(timed(op::TURN, 10));
    calls.push(Record::on(op::POLL, second, 0));
    calls.push(Record::on(op::CANCEL, second, 0));
    calls.push(Record::on(op::POLL, second, 0));
    let lines = lines(&calls);
    let answers: Vec<&str> = lines.iter().map(|line| answer(line)).collect();
    let turn = "5 0 3 3 1:0 0:0 2:0";
    assert_eq!(
        answers,
        ["0 0 0 0", "0 0 1 0", "0 0 2 0", turn, "7 0 1", "2 0", "7 3"]
    );
    assert!(lines[3].starts_with("5 0 3 3 1:0 0:0 2:0 | - - |"));
}

#[test]
fn the_example_of_the_format() {
    let lines = lines(&[Record::plain(op::BEGIN), timed(op::ADD, 10)]);
    assert_eq!(lines, ["31 0", "0 0 0 0 | - 10 | 0 | 0:0:L:0:10:-:10 |"]);
}

/// The same call, after which is asked how long is left at a reading.
fn left_at(record: Record, reading: u64) -> Record {
    Record {
        c: reading,
        ..record
    }
}

/// The least that is left, and what is left of each place, at a reading after some calls.
fn left(calls: &[Record], reading: u64) -> Vec<String> {
    let asking = left_at(Record::plain(op::NEXT_WAKE), reading);
    let line = last(&[calls, &[asking]].concat());
    let parts: Vec<&str> = line.split(" |").collect();
    let least = parts[1].rsplit(' ').next().unwrap();
    let places = parts[3].split_whitespace();
    let each = places.map(|place| place.rsplit(':').next().unwrap());
    [least].into_iter().chain(each).map(String::from).collect()
}

#[test]
fn what_is_left_has_a_sign() {
    let calls = each(op::ADD, &[10, 20]);
    assert_eq!(left(&calls, 4), ["6", "6", "16"]);
    assert_eq!(left(&calls, 10), ["0", "0", "10"]);
    assert_eq!(left(&calls, 25), ["-15", "-15", "-5"]);
    assert_eq!(left(&[], 25), ["-"]);
}

#[test]
fn what_is_left_has_64_bits() {
    let calls = each(op::ADD, &[0, u64::MAX]);
    let (low, high) = ("-9223372036854775808", "9223372036854775807");
    assert_eq!(left(&calls, 1 << 63), [low, low, high]);
    let below = ["!6", "!6", "9223372036854775806"];
    assert_eq!(left(&calls, (1 << 63) + 1), below);
    let above = ["-9223372036854775807", "-9223372036854775807", "!6"];
    assert_eq!(left(&calls, (1 << 63) - 1), above);
    assert_eq!(left(&calls[1..], (1 << 63) - 1), ["!6", "!6"]);
}

#[test]
fn the_least_counts_who_waits_and_not_who_has_fired() {
    let mut calls = each(op::ADD, &[10, 20]);
    calls.push(timed(op::TURN, 10));
    assert_eq!(left(&calls, 12), ["8", "-2", "8"]);
    calls.push(timed(op::ADD, 15));
    assert_eq!(left(&calls, 12), ["3", "-2", "8", "3"]);
    calls.push(Record::on(op::CANCEL, Handle { place: 2, uses: 0 }, 0));
    assert_eq!(left(&calls, 12), ["8", "-2", "8", "!3"]);
    calls.push(Record::on(op::RESET, FIRST, 11));
    assert_eq!(left(&calls, 12), ["-1", "-1", "8", "!3"]);
    calls.push(Record::plain(op::CLOSE));
    assert_eq!(left(&calls, 12), ["!2", "!2", "!2", "!2"]);
}

#[test]
fn the_answers_of_the_queries_are_told_apart() {
    let all = |calls: &[Record], c| {
        let asking = left_at(Record::plain(op::NEXT_WAKE), c);
        queries::answers(&last(&[calls, &[asking]].concat()))
    };
    let mut calls = each(op::ADD, &[0, u64::MAX]);
    calls.push(timed(op::TURN, 0));
    use {Outcome::*, Query::*};
    assert_eq!(
        all(&calls, 1 << 63),
        [
            (Least, Highest),
            (Place, Lowest),
            (Fired, Lowest),
            (Place, Highest)
        ]
    );
    assert_eq!(
        all(&calls, 0),
        [
            (Least, TooHigh),
            (Place, Zero),
            (Fired, Zero),
            (Place, TooHigh)
        ]
    );
    assert_eq!(
        all(&calls, u64::MAX),
        [
            (Least, Zero),
            (Place, TooLow),
            (Fired, TooLow),
            (Place, Zero)
        ]
    );
}

#[test]
fn an_operation_that_there_is_not() {
    assert_eq!(last(&[Record::plain(11)]), "?");
}

#[test]
fn a_place_is_retired_when_its_use_numbers_run_out() {
    let mut world = World::fresh();
    world.set.places[0].uses = u32::MAX;
    let last_use = Handle {
        place: 0,
        uses: u32::MAX,
    };
    let lines = [
        timed(op::ADD, 1),
        Record::on(op::CANCEL, last_use, 0),
        Record::plain(op::DRAIN),
        timed(op::ADD, 1),
    ]
    .map(|record| world.line(&record));
    assert_eq!(answer(&lines[0]), "0 0 0 4294967295");
    assert_eq!(lines[2], "3 0 | - - | | 0:4294967295:R:-:-:-:!3 |");
    assert_eq!(answer(&lines[3]), "0 0 1 0");
}

#[test]
fn records_are_what_they_were_written_as() {
    let record = Record {
        op: 9,
        policy: 2,
        place: 0x0102,
        uses: 0x0304_0506,
        a: 0x0708_090a_0b0c_0d0e,
        b: 0x0f10_1112_1314_1516,
        c: 0x1718_191a_1b1c_1d1e,
    };
    let bytes = record.encode();
    assert_eq!(bytes[..8], [9, 2, 1, 2, 3, 4, 5, 6]);
    assert_eq!((bytes[16], bytes[24], bytes[31]), (0x0f, 0x17, 0x1e));
    assert_eq!(Record::decode(&bytes), record);
}

#[test]
fn a_seed_always_makes_the_same_calls() {
    for seed in 0..20 {
        let records = generate::records(seed, 300);
        assert_eq!(records[0], Record::plain(op::BEGIN));
        assert_eq!(records, generate::records(seed, 300));
    }
}

#[test]
fn more_than_half_of_the_calls_are_accepted() {
    let (mut calls, mut accepted) = (0, 0);
    for seed in 0..20 {
        let mut world = World::fresh();
        for record in generate::records(seed, CALLS) {
            let answer = world.call(&record);
            if record.op != op::BEGIN {
                calls += 1;
                accepted += u32::from(matches!(answer, Some(Ok(_))));
            }
        }
    }
    assert!(2 * accepted > calls, "{accepted} of {calls}");
}

/// But for what cannot be: there is no none of one timer, a timer that has fired is not dead, and a set is not dead.
#[test]
fn the_queries_are_answered_with_everything() {
    let mut seen = Vec::new();
    for seed in 0..20 {
        for line in lines(&generate::records(seed, CALLS)) {
            seen.extend(queries::answers(&line));
        }
    }
    let cannot_be = [
        (Query::Place, Outcome::Nothing),
        (Query::Fired, Outcome::Nothing),
        (Query::Fired, Outcome::Dead),
        (Query::Least, Outcome::Dead),
    ];
    for query in [Query::Place, Query::Fired, Query::Least] {
        for (outcome, name) in OUTCOMES {
            let answer = (query, outcome);
            let can_be = !cannot_be.contains(&answer);
            assert_eq!(seen.contains(&answer), can_be, "{query:?}: {name}");
        }
    }
}

#[test]
fn the_sample_is_up_to_date() {
    let records = generate::sample::records();
    let bytes: Vec<u8> = records.iter().flat_map(|record| record.encode()).collect();
    assert!(bytes == include_bytes!("../sample.calls"), "run sample.sh");
    let answers: String = lines(&records)
        .iter()
        .map(|line| format!("{line}\n"))
        .collect();
    assert!(
        answers == include_str!("../sample.answers"),
        "run sample.sh"
    );
}
