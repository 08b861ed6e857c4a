//! How many calls of each kind were accepted, and how many refused with each number; and what the queries answered.

use crate::queries::{self, OUTCOMES, QUERIES};
use crate::record::op;
use std::collections::BTreeMap;
use std::io::{self, BufRead, Write};

/// Stands for every operation that there is not; its line is `?`.
const NO_CALL: u8 = 255;

/// The queries stand for operations from this number on, in their order, and what they answer for outcomes.
const FIRST_QUERY: u8 = 128;

/// The names of the calls, by operation.
const NAMES: [(u8, &str); 24] = [
    (op::ADD, "add"),
    (op::RESET, "reset"),
    (op::CANCEL, "cancel"),
    (op::DRAIN, "drain"),
    (op::ADVANCE, "advance"),
    (op::TURN, "turn"),
    (op::NEXT_WAKE, "next wake"),
    (op::POLL, "poll"),
    (op::CLOSE, "close"),
    (op::TICK, "tick"),
    (op::RESTART, "interval reset"),
    (op::SET_WORD, "word set"),
    (op::PUSH, "heap push"),
    (op::REMOVE, "heap remove"),
    (op::POP, "heap pop"),
    (op::PEEK, "heap peek"),
    (op::TEST, "heap test"),
    (op::FRESH, "clock fresh"),
    (op::READING, "clock reading"),
    (op::PAUSE, "clock pause"),
    (op::RESUME, "clock resume"),
    (op::CLOCK_ADVANCE, "clock advance"),
    (op::BEGIN, "begin"),
    (NO_CALL, "no such call"),
];

/// The refusals that have a column.
const REFUSALS: [u32; 9] = [2, 3, 4, 6, 7, 8, 9, 10, 11];

/// How many calls of a family and an operation had an outcome: 0 or the number of the refusal.
type Counts = BTreeMap<(String, u8, u32), u64>;

/// The operation and the outcome of a line.
fn outcome(line: &str) -> Option<(u8, u32)> {
    if line == "?" {
        return Some((NO_CALL, 0));
    }
    let mut parts = line.split(' ');
    let op = parts.next()?.parse().ok()?;
    let outcome = parts.next()?.parse().ok()?;
    Some((op, outcome))
}

/// Reads lines from standard input and writes the counts of a family, one to a line.
pub fn tally(family: &str) -> io::Result<()> {
    let mut counts: BTreeMap<(u8, u32), u64> = BTreeMap::new();
    for line in io::stdin().lock().lines() {
        let line = line?;
        let asked = queries::answers(&line).into_iter();
        let asked = asked.map(|(query, outcome)| (FIRST_QUERY + query as u8, outcome as u32));
        for key in outcome(&line).into_iter().chain(asked) {
            *counts.entry(key).or_default() += 1;
        }
    }
    let mut out = io::stdout().lock();
    for ((op, outcome), count) in counts {
        writeln!(out, "{op} {outcome} {count} {family}")?;
    }
    Ok(())
}

/// A line that `tally` has written.
fn counted(line: &str) -> Option<((String, u8, u32), u64)> {
    let mut parts = line.splitn(4, ' ');
    let op = parts.next()?.parse().ok()?;
    let outcome = parts.next()?.parse().ok()?;
    let count = parts.next()?.parse().ok()?;
    Some(((parts.next()?.into(), op, outcome), count))
}

/// Reads what `tally` has written from standard input and prints the tables. A begin is no call on anything, so it has no part in the
/// totals of the families, nor has an operation that there is not, nor a query.
pub fn table() -> io::Result<()> {
    let mut counts = Counts::new();
    for line in io::stdin().lock().lines() {
        let line = line?;
        let (key, count) = counted(&line).ok_or(io::Error::other("no line of a tally"))?;
        *counts.entry(key).or_default() += count;
    }
    let mut out = io::stdout().lock();
    by_call(&counts, &mut out)?;
    writeln!(out)?;
    by_query(&counts, &mut out)?;
    writeln!(out)?;
    by_family(&counts, &mut out)
}

/// The sum of the counts that pass a test.
fn total(counts: &Counts, test: impl Fn(&str, u8, u32) -> bool) -> u64 {
    let passing = counts.iter().filter(|((f, op, o), _)| test(f, *op, *o));
    passing.map(|(_, count)| count).sum()
}

/// Prints a row for each call: how many were accepted, and how many refused with each number.
fn by_call(counts: &Counts, out: &mut impl Write) -> io::Result<()> {
    write!(out, "{:16}{:>10}", "call", "accepted")?;
    for number in REFUSALS {
        write!(out, "{:>9}", format!("ref. {number}"))?;
    }
    writeln!(out)?;
    for (op, name) in NAMES {
        let accepted = total(counts, |_, o, outcome| o == op && outcome == 0);
        write!(out, "{name:16}{accepted:>10}")?;
        for number in REFUSALS {
            let refused = total(counts, |_, o, outcome| o == op && outcome == number);
            write!(out, "{:>9}", or_blank(refused))?;
        }
        writeln!(out)?;
    }
    Ok(())
}

/// Prints a row for each query: how often it was answered with what.
fn by_query(counts: &Counts, out: &mut impl Write) -> io::Result<()> {
    write!(out, "{:16}", "query")?;
    for (_, name) in OUTCOMES {
        write!(out, "{name:>9}")?;
    }
    writeln!(out)?;
    for (query, name) in QUERIES {
        write!(out, "{name:16}")?;
        for (answer, _) in OUTCOMES {
            let asked = total(counts, |_, op, outcome| {
                op == FIRST_QUERY + query as u8 && outcome == answer as u32
            });
            write!(out, "{:>9}", or_blank(asked))?;
        }
        writeln!(out)?;
    }
    Ok(())
}

/// A count, and nothing for 0.
fn or_blank(count: u64) -> String {
    if count == 0 {
        String::new()
    } else {
        count.to_string()
    }
}

/// Prints a row for each family and one for all: how many calls, and which share of them was accepted.
fn by_family(counts: &Counts, out: &mut impl Write) -> io::Result<()> {
    let mut families: Vec<&str> = counts
        .keys()
        .map(|(family, _, _)| family.as_str())
        .collect();
    families.dedup();
    writeln!(
        out,
        "{:20}{:>10}{:>10}{:>8}",
        "family", "calls", "accepted", "share"
    )?;
    for family in families {
        share(counts, family, |f| f == family, out)?;
    }
    share(counts, "all", |_| true, out)
}

/// Prints the row of the families that pass a test.
fn share(
    counts: &Counts,
    name: &str,
    test: impl Fn(&str) -> bool,
    out: &mut impl Write,
) -> io::Result<()> {
    let is_call = |op| op < op::BEGIN;
    let calls = total(counts, |f, op, _| test(f) && is_call(op));
    let accepted = total(counts, |f, op, o| test(f) && is_call(op) && o == 0);
    let percent = 100.0 * accepted as f64 / calls.max(1) as f64;
    writeln!(out, "{name:20}{calls:>10}{accepted:>10}{percent:>7.1}%")
}
