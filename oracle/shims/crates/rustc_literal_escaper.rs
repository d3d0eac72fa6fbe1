//! Stands in for the crate `rustc-literal-escaper` inside the domain, where nothing is escaped: a string's value is what
//! stands between its quotes. Outside the domain the harness either says so or applies the document's rule, which is the same.

use std::ops::Range;

/// Never made: inside the domain no escape is faulty.
#[derive(Debug, Clone, Copy, PartialEq, Eq)]
pub enum EscapeError {}

pub fn unescape_str(text: &str, mut each: impl FnMut(Range<usize>, Result<char, EscapeError>)) {
    for (place, c) in text.char_indices() {
        each(place..place + c.len_utf8(), Ok(c));
    }
}

pub fn unescape_byte_str(text: &str, mut each: impl FnMut(Range<usize>, Result<u8, EscapeError>)) {
    for (place, byte) in text.bytes().enumerate() {
        each(place..place + 1, Ok(byte));
    }
}
