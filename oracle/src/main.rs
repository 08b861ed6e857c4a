//! The Rust's side of the comparison. FORMAT.md says what is read and what is printed.

mod alone;
mod answer;
mod capacity;
mod difference;
mod generate;
mod panics;
mod queries;
mod record;
#[cfg(test)]
mod rows;
mod set;
mod tally;
mod world;

use record::Record;
use std::env;
use std::io::{self, BufWriter, Read, Write};
use std::process::ExitCode;
use world::World;

const USAGE: &str = "\
oracle                                reads records and prints the line of each
oracle generate SEED [CALLS]          writes the records of a seed
oracle family SEED                    prints the name of the seed's family of calls
oracle sample                         writes the records of the sample
oracle words                          reads records and prints each in words
oracle difference CALLS RUST RATTLE   tells the first difference of two outputs
oracle tally FAMILY                   reads lines and prints how many calls had which outcome
oracle table                          reads what tally printed and prints the tables";

/// Does what the arguments ask for.
fn main() -> ExitCode {
    panics::keep_quiet();
    let words: Vec<String> = env::args().skip(1).collect();
    let words: Vec<&str> = words.iter().map(String::as_str).collect();
    let done = match words[..] {
        [] => answer_all(),
        ["generate", seed] => write_seed(seed, None),
        ["generate", seed, calls] => write_seed(seed, Some(calls)),
        ["family", seed] => number(seed).map(|seed| println!("{}", generate::name(seed))),
        ["sample"] => write_all(&generate::sample::records()),
        ["words"] => words_all(),
        ["difference", calls, rust, rattle] => difference::tell(calls, rust, rattle),
        ["tally", family] => tally::tally(family),
        ["table"] => tally::table(),
        ["help"] => {
            println!("{USAGE}");
            Ok(())
        }
        _ => Err(io::Error::other("see 'oracle help'")),
    };
    match done {
        Ok(()) => ExitCode::SUCCESS,
        Err(error) => {
            eprintln!("oracle: {error}");
            ExitCode::FAILURE
        }
    }
}

/// The number that an argument is.
fn number(word: &str) -> io::Result<u64> {
    let wrong = |_| io::Error::other(format!("'{word}' is no number"));
    word.parse().map_err(wrong)
}

/// The records on standard input.
fn read_records() -> io::Result<Vec<Record>> {
    let mut bytes = Vec::new();
    io::stdin().read_to_end(&mut bytes)?;
    Ok(record::decode_all(&bytes))
}

/// Reads records and prints the line of each.
fn answer_all() -> io::Result<()> {
    let mut world = World::fresh();
    let mut out = BufWriter::new(io::stdout().lock());
    for record in read_records()? {
        writeln!(out, "{}", world.line(&record))?;
    }
    out.flush()
}

/// Reads records and prints each in words.
fn words_all() -> io::Result<()> {
    let mut out = BufWriter::new(io::stdout().lock());
    for record in read_records()? {
        writeln!(out, "{}", record.words())?;
    }
    out.flush()
}

/// Writes the records of a seed.
fn write_seed(seed: &str, calls: Option<&str>) -> io::Result<()> {
    let calls = calls.map_or(Ok(generate::CALLS), number)?;
    write_all(&generate::records(number(seed)?, calls))
}

/// Writes records.
fn write_all(records: &[Record]) -> io::Result<()> {
    let mut out = BufWriter::new(io::stdout().lock());
    for record in records {
        out.write_all(&record.encode())?;
    }
    out.flush()
}
