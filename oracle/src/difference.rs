//! The first difference between what the two sides printed, told so that it can be followed.

use crate::record::{self, op, Record};
use std::fs;
use std::io;

/// Tells the first difference: the number of the record, the call in words, the line of each side, and the calls before it.
pub fn tell(calls: &str, rust: &str, rattle: &str) -> io::Result<()> {
    let records = record::decode_all(&fs::read(calls)?);
    let (rust, rattle) = (lines(rust)?, lines(rattle)?);
    let longest = rust.len().max(rattle.len());
    let Some(at) = (0..longest).find(|at| rust.get(*at) != rattle.get(*at)) else {
        println!("The lines are the same; the two differ in how their last line ends.");
        return Ok(());
    };
    println!(
        "The two differ at record {}: {}",
        at + 1,
        call(&records, at)
    );
    println!("  the Rust   {}", line(&rust, at));
    println!("  the Rattle {}", line(&rattle, at));
    println!("Its sequence up to there:");
    for record in &records[sequence_start(&records, at)..records.len().min(at + 1)] {
        println!("  {}", record.words());
    }
    Ok(())
}

/// The lines of a file; a byte that is no text is shown as such.
fn lines(path: &str) -> io::Result<Vec<String>> {
    let bytes = fs::read(path)?;
    let lines = bytes.split_inclusive(|byte| *byte == b'\n');
    Ok(lines
        .map(|line| {
            String::from_utf8_lossy(line)
                .trim_end_matches('\n')
                .to_string()
        })
        .collect())
}

/// A call in words.
fn call(records: &[Record], at: usize) -> String {
    let record = records.get(at);
    record.map_or("there is no such record".into(), Record::words)
}

/// The line of one side.
fn line(lines: &[String], at: usize) -> &str {
    lines.get(at).map_or("(no line)", String::as_str)
}

/// Where the sequence of a record begins.
fn sequence_start(records: &[Record], at: usize) -> usize {
    let upto = &records[..records.len().min(at + 1)];
    let begin = upto.iter().rposition(|record| record.op == op::BEGIN);
    begin.unwrap_or(0)
}
