//! bundle: a text on standard input, on standard output its bundle, with the tokens that the original's lexer cuts.

use std::io::{self, Read, Write};

use lucia::answer::cut;

fn main() -> io::Result<()> {
    let mut text = String::new();
    io::stdin().read_to_string(&mut text)?;
    io::stdout().write_all(&cut(&text).to_bytes())
}
