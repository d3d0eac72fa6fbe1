//! The parts of the compiler that the parser needs.

pub mod ast;
pub mod bare;
pub mod error;
pub mod index;
pub mod interning;
pub mod lexer;
pub mod parser;
pub mod token;
pub mod value;
