//! Locations, from the original, and the two helpers of Display.

use std::fmt;

mod locatable;

pub use self::locatable::Locatable;

pub trait Indent {
    fn indent(&self, width: usize) -> String;
}

impl<T: fmt::Display + ?Sized> Indent for T {
    fn indent(&self, width: usize) -> String {
        let margin = " ".repeat(width);
        let lines: Vec<String> = self.to_string().lines().map(|line| format!("{margin}{line}")).collect();
        lines.join("\n")
    }
}

/// A float, ordered and compared by its bits.
#[derive(Debug, Clone, Copy, PartialEq, Eq, PartialOrd, Ord, Hash)]
pub struct Float(u64);

impl From<f64> for Float {
    fn from(value: f64) -> Self {
        Float(value.to_bits())
    }
}

impl fmt::Display for Float {
    fn fmt(&self, f: &mut fmt::Formatter<'_>) -> fmt::Result {
        write!(f, "{}", f64::from_bits(self.0))
    }
}
