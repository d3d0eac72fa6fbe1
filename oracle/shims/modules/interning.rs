//! An interner that interns nothing: a name is its own text.

use std::fmt::Display;

pub trait StringInterner {
    type String: Clone + Display;
    fn intern(&mut self, name: &str) -> Self::String;
}

pub struct Plain;

impl StringInterner for Plain {
    type String = String;
    fn intern(&mut self, name: &str) -> String {
        name.to_owned()
    }
}
