//! Stands in for the crate `text-size`: 32-bit places and ranges of a text.

use std::{fmt, ops};

#[derive(Clone, Copy, PartialEq, Eq, PartialOrd, Ord, Hash, Default)]
pub struct TextSize(u32);

impl fmt::Debug for TextSize {
    fn fmt(&self, f: &mut fmt::Formatter<'_>) -> fmt::Result {
        write!(f, "{}", self.0)
    }
}

impl From<u32> for TextSize {
    fn from(place: u32) -> Self {
        TextSize(place)
    }
}

impl From<TextSize> for u32 {
    fn from(size: TextSize) -> Self {
        size.0
    }
}

impl From<TextSize> for usize {
    fn from(size: TextSize) -> Self {
        size.0 as usize
    }
}

impl TryFrom<usize> for TextSize {
    type Error = std::num::TryFromIntError;
    fn try_from(place: usize) -> Result<Self, Self::Error> {
        u32::try_from(place).map(TextSize)
    }
}

#[derive(Clone, Copy, PartialEq, Eq, Hash, Default)]
pub struct TextRange {
    start: TextSize,
    end: TextSize,
}

impl fmt::Debug for TextRange {
    fn fmt(&self, f: &mut fmt::Formatter<'_>) -> fmt::Result {
        write!(f, "{:?}..{:?}", self.start, self.end)
    }
}

impl TextRange {
    /// Panics where the end comes before the start, as the real one does.
    pub fn new(start: TextSize, end: TextSize) -> TextRange {
        assert!(start <= end, "a range ends before its start");
        TextRange { start, end }
    }

    pub fn empty(place: TextSize) -> TextRange {
        TextRange { start: place, end: place }
    }

    pub fn start(self) -> TextSize {
        self.start
    }

    pub fn end(self) -> TextSize {
        self.end
    }
}

impl ops::Index<TextRange> for str {
    type Output = str;
    fn index(&self, range: TextRange) -> &str {
        &self[usize::from(range.start)..usize::from(range.end)]
    }
}
