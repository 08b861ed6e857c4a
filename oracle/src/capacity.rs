//! How many places a set has and how many entries a heap: the number that the Rattle's code says, read from that code by the compiler.

/// The capacity.
pub const CAP: usize = number_behind(
    b"pub const CAP: usize = ",
    include_bytes!("../../crates/heap/src/lib.rt"),
);

/// The number that a text has behind some words, up to a semicolon. A text without the words, or without a number there, is not compiled.
const fn number_behind(words: &[u8], text: &[u8]) -> usize {
    let mut at = 0;
    while !stands_at(words, text, at) {
        at += 1;
    }
    at += words.len();
    let mut number = 0;
    while text[at] != b';' {
        assert!(text[at].is_ascii_digit(), "the capacity is not a number");
        number = number * 10 + (text[at] - b'0') as usize;
        at += 1;
    }
    number
}

/// Whether the words stand in the text at a position.
const fn stands_at(words: &[u8], text: &[u8], at: usize) -> bool {
    let mut i = 0;
    while i < words.len() {
        if text[at + i] != words[i] {
            return false;
        }
        i += 1;
    }
    true
}
