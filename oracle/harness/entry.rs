//! What stands before the parser: refusals 1 to 6 of the document, the token list handed over, and the domain's conditions.
//! None of this comes from the original.

use text_size::TextRange;

use crate::bundle::Bundle;
use crate::compiler::token::{Token, TokenKind, TokenKind::*};

/// All kinds in the order in which token.rs declares them.
pub const KINDS: [TokenKind; 79] = [
    LineComment, BlockComment, Whitespace, EscapedNewline, Ident, Int, Float, Str, RawStr, ByteStr, If, Else, Match, Loop,
    While, For, In, Break, Continue, Return, Glo, Import, As, Is, Not, And, Or, Try, With, Fn, Do, Effect, Null, True, False,
    Ellipsis, DoubleColon, Arrow, FatArrow, Eq, NotEq, LtEq, GtEq, AddAssign, SubAssign, MulAssign, DivAssign, RemAssign,
    Comma, Dot, OpenParen, CloseParen, OpenBrace, CloseBrace, OpenBracket, CloseBracket, Pound, Question, Exclamation, Colon,
    Assign, Lt, Gt, VBar, Add, Sub, Mul, Div, Rem, Eol, Eof, Unknown, UnterminatedBlockComment, EmptyInt, EmptyExponentFloat,
    NonDecimalFloat, UnterminatedStr, UnterminatedRawStr, UnterminatedByteStr,
];

/// A token list that passed the entry check.
pub struct Sheet<'a> {
    pub text: &'a str,
    pub tokens: Vec<Token>,
}

fn quoted(bytes: &[u8]) -> bool {
    matches!(bytes, [first @ (b'"' | b'\''), .., last] if first == last)
}

/// Refusal 6: a Str, RawStr or ByteStr is spelled between two quotes of one sort.
fn spelled(kind: TokenKind, bytes: &[u8]) -> bool {
    match kind {
        Str => quoted(bytes),
        RawStr => bytes.strip_prefix(b"r").is_some_and(quoted),
        ByteStr => bytes.strip_prefix(b"b").is_some_and(quoted),
        _ => true,
    }
}

fn check(text: &str, previous_end: u32, [kind, from, to]: [u32; 3]) -> Result<Token, u8> {
    let kind = *KINDS.get(kind as usize).filter(|kind| **kind != Eof).ok_or(4)?;
    let (start, end) = (from as usize, to as usize);
    if start >= end || from < previous_end {
        return Err(5);
    }
    let spelling = text.get(start..end).ok_or(5)?;
    if !spelled(kind, spelling.as_bytes()) {
        return Err(6);
    }
    Ok(Token::new(kind, TextRange::new(from.into(), to.into())))
}

/// The entry check of a text and its tokens (kind, start, end), or the refusal's number.
pub fn enter_words<'a>(text: &'a [u8], words: &[[u32; 3]]) -> Result<Sheet<'a>, u8> {
    if text.len() > 65_535 {
        return Err(1);
    }
    if words.len() > 4_096 {
        return Err(2);
    }
    let text = std::str::from_utf8(text).map_err(|_| 3)?;
    let (mut tokens, mut end) = (Vec::new(), 0);
    for word in words {
        tokens.push(check(text, end, *word)?);
        end = word[2];
    }
    Ok(Sheet { text, tokens })
}

/// The same of a bundle, whose own limits lie below those of refusals 1 and 2.
pub fn enter(bundle: &Bundle) -> Result<Sheet<'_>, u8> {
    enter_words(&bundle.text, &bundle.triples())
}

/// The domain's conditions on one literal.
fn plain(token: Token, spelling: &str) -> bool {
    let inside = |from: usize| &spelling.as_bytes()[from..spelling.len() - 1];
    let unescaped = |bytes: &[u8]| !bytes.iter().any(|b| matches!(b, b'\\' | b'\r' | b'"'));
    match token.kind {
        Str => unescaped(inside(1)),
        ByteStr => unescaped(inside(2)) && inside(2).is_ascii(),
        Float => spelling.replace('_', "").parse::<f64>().is_ok(),
        _ => true,
    }
}

impl Sheet<'_> {
    /// Every literal of the list, read or not, meets the domain's conditions.
    pub fn literals_plain(&self) -> bool {
        self.tokens.iter().all(|token| plain(*token, &self.text[token.range]))
    }

    /// The start of a list of trivia only that starts above 0: there the original panics.
    pub fn trivia_start(&self) -> Option<u32> {
        let start = u32::from(self.tokens.first()?.range.start());
        let only = self.tokens.iter().all(|token| token.kind.is_trivia());
        (only && start > 0).then_some(start)
    }
}
