//! Bundles and streams, as bytes.
//!
//! A bundle is a text after its length and tokens of nine bytes (kind, start, end) after their count. A stream is a row of
//! pieces, each after its length. All numbers are little-endian, four bytes where not said otherwise.

use std::io::{self, Read, Write};

#[derive(Debug, Clone, Copy, PartialEq, Eq)]
pub struct Word {
    pub kind: u8,
    pub start: u32,
    pub end: u32,
}

/// A text and its tokens, not yet checked.
#[derive(Debug, Clone, Default, PartialEq, Eq)]
pub struct Bundle {
    pub text: Vec<u8>,
    pub words: Vec<Word>,
}

pub fn number(bytes: &[u8]) -> u32 {
    u32::from_le_bytes([bytes[0], bytes[1], bytes[2], bytes[3]])
}

impl Bundle {
    /// The tokens as the library takes them: kind, start, end.
    pub fn triples(&self) -> Vec<[u32; 3]> {
        self.words.iter().map(|word| [word.kind.into(), word.start, word.end]).collect()
    }

    pub fn to_bytes(&self) -> Vec<u8> {
        let mut bytes = (self.text.len() as u32).to_le_bytes().to_vec();
        bytes.extend_from_slice(&self.text);
        bytes.extend((self.words.len() as u32).to_le_bytes());
        for word in &self.words {
            bytes.push(word.kind);
            bytes.extend(word.start.to_le_bytes());
            bytes.extend(word.end.to_le_bytes());
        }
        bytes
    }

    /// None where the bytes are cut short, are left over, or pass the lister's buffers (refusal 12).
    pub fn from_bytes(bytes: &[u8]) -> Option<Bundle> {
        Bundle::within(bytes, 16_384, 1_500)
    }

    /// The same with room for other lengths of the text and of the list of tokens.
    pub fn within(bytes: &[u8], text: usize, tokens: usize) -> Option<Bundle> {
        let (head, rest) = bytes.split_at_checked(4)?;
        let length = number(head) as usize;
        if length > text {
            return None;
        }
        let (text, rest) = rest.split_at_checked(length)?;
        let (head, rest) = rest.split_at_checked(4)?;
        let count = number(head) as usize;
        if count > tokens || rest.len() != count * 9 {
            return None;
        }
        let words = rest
            .chunks_exact(9)
            .map(|w| Word { kind: w[0], start: number(&w[1..]), end: number(&w[5..]) })
            .collect();
        Some(Bundle { text: text.to_vec(), words })
    }
}

pub fn read_stream(mut from: impl Read) -> io::Result<Vec<Vec<u8>>> {
    let mut bytes = Vec::new();
    from.read_to_end(&mut bytes)?;
    let (mut pieces, mut rest) = (Vec::new(), bytes.as_slice());
    while !rest.is_empty() {
        let cut = || io::Error::other("a stream cut short");
        let (head, tail) = rest.split_at_checked(4).ok_or_else(cut)?;
        let (piece, tail) = tail.split_at_checked(number(head) as usize).ok_or_else(cut)?;
        pieces.push(piece.to_vec());
        rest = tail;
    }
    Ok(pieces)
}

pub fn write_piece(mut to: impl Write, piece: &[u8]) -> io::Result<()> {
    to.write_all(&(piece.len() as u32).to_le_bytes())?;
    to.write_all(piece)
}
