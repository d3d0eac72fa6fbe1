//! Stands in for the crate `itertools`: `join` alone.

use std::fmt::Display;

pub trait Itertools: Iterator {
    fn join(&mut self, separator: &str) -> String
    where
        Self::Item: Display,
    {
        let parts: Vec<String> = self.map(|item| item.to_string()).collect();
        parts.join(separator)
    }
}

impl<I: Iterator> Itertools for I {}
