//! Cuts Rust source into tokens, well enough for parser.rs: words, single marks, strings, characters and lifetimes.

pub struct Token {
    pub start: usize,
    pub end: usize,
    /// For an opening bracket the index of its closing one, and the other way round.
    pub partner: usize,
}

fn is_word(b: u8) -> bool {
    b == b'_' || b.is_ascii_alphanumeric()
}

/// Where the token that starts at `i` ends.
fn end_of(s: &[u8], i: usize) -> usize {
    let mut j = i + 1;
    match s[i] {
        b'"' => {
            while s[j] != b'"' {
                j += if s[j] == b'\\' { 2 } else { 1 };
            }
            j + 1
        }
        b'\'' if s[j] == b'\\' => j + 3,
        b'\'' if s[j + 1] == b'\'' => j + 2,
        b if is_word(b) || b == b'\'' => {
            while j < s.len() && is_word(s[j]) {
                j += 1;
            }
            j
        }
        _ => j,
    }
}

pub fn cut(source: &str) -> Vec<Token> {
    let s = source.as_bytes();
    let (mut tokens, mut open, mut i) = (Vec::new(), Vec::new(), 0);
    while i < s.len() {
        if s[i].is_ascii_whitespace() {
            i += 1;
        } else if s[i..].starts_with(b"//") {
            i += source[i..].find('\n').unwrap_or(s.len() - i);
        } else {
            let end = end_of(s, i);
            let index = tokens.len();
            let mut partner = index;
            match s[i] {
                b'(' | b'[' | b'{' => open.push(index),
                b')' | b']' | b'}' => partner = open.pop().expect("brackets match"),
                _ => {}
            }
            tokens.push(Token { start: i, end, partner });
            tokens[partner].partner = index;
            i = end;
        }
    }
    tokens
}
