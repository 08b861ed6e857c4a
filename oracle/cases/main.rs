//! The Rust's side of the differences that docs/DIFFERENCES.md lists, run. A test has the number of its entry in its name; those of
//! entry 4 have the file and the line of the published text that docs/ANSWERS.md has in its tables.

#[path = "../src/capacity.rs"]
mod capacity;
mod closing;
mod heaps;
mod stops;
mod support;
mod timers;
mod times;
