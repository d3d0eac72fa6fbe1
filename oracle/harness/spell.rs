//! Spellings for kinds, and pieces laid out as a bundle that passes the entry check.

use crate::bundle::{Bundle, Word};
use crate::chance::Chance;
use crate::compiler::token::{TokenKind, TokenKind::*};

#[derive(Clone)]
pub struct Piece {
    pub kind: TokenKind,
    pub text: String,
}

/// How odd spellings may be.
#[derive(Clone, Copy, PartialEq, Eq)]
pub enum Taste {
    /// Every Int is read.
    Plain,
    /// An Int may be faulty, an Ident may be a word of any sort.
    Odd,
    /// A Str, ByteStr or Float may leave the domain.
    Wild,
}

const NAMES: [&str; 14] =
    ["a", "b", "c", "x", "y", "z", "f", "points", "tier_2", "é", "名", "_", "int", "str"];

const TYPE_WORDS: [&str; 12] =
    ["bool", "int", "float", "str", "bytes", "table", "function", "effect", "userdata", "Int", "in", "strx"];

const INTS: [&str; 12] = [
    "0", "1", "7", "42", "1_000", "0x1f", "0o17", "0b101", "9223372036854775807", "0xFF_ff", "007", "0x7fffffffffffffff",
];

/// Spellings that a lexer would not cut, or that are faulty.
const ODD_INTS: [&str; 36] = [
    "9223372036854775808", "0x", "_", "-", "+", "+5", "-9223372036854775808", "-9223372036854775809", "0_x1", "0b2", "0o8",
    "12ab", "0x8000000000000000", "0xfffffffffffffffff", "é", "1é", "0x-1", "0o-", "0x_", "99999999999999999999z", "0b+", "0X1",
    "-0", "--1", "9_223_372_036_854_775_808", "0x-8000000000000000", "0x-8000000000000001", "92233720368547758070", "__", "0b",
    "9223372036854775808a", "922337203685477581a", "-922337203685477581a", "-9223372036854775809a", "0b_0_2", "1-1",
];

const FLOATS: [&str; 8] = ["1.5", "0.25", "1e3", "2.5e-3", "1_0.5_0", "1.", "9e999", "inf"];
const ODD_FLOATS: [&str; 4] = ["1.5x", "_", "e", "1e"];
const STRS: [&str; 7] = ["\"a\"", "'b'", "\"\"", "''", "\"tier é\"", "'it is'", "\"it's\""];
const ODD_STRS: [&str; 4] = ["\"\\n\"", "'\"'", "\"a\rb\"", "'\\'"];
const RAW_STRS: [&str; 4] = ["r\"a\"", "r'\\'", "r\"\"", "r'\"'"];
const BYTE_STRS: [&str; 3] = ["b\"a\"", "b''", "b'bc'"];
const ODD_BYTE_STRS: [&str; 3] = ["b\"é\"", "b'\\x'", "b'\"'"];
const COMMENTS: [&str; 3] = ["/**/", "/* é */", "/* 12 */"];

/// The one spelling of a kind that has only one.
fn fixed(kind: TokenKind) -> &'static str {
    match kind {
        If => "if", Else => "else", Match => "match", Loop => "loop", While => "while", For => "for", In => "in",
        Break => "break", Continue => "continue", Return => "return", Glo => "glo", Import => "import", As => "as", Is => "is",
        Not => "not", And => "and", Or => "or", Try => "try", With => "with", Fn => "fn", Do => "do", Effect => "effect",
        Null => "null", True => "true", False => "false", Ellipsis => "...", DoubleColon => "::", Arrow => "->",
        FatArrow => "=>", Eq => "==", NotEq => "!=", LtEq => "<=", GtEq => ">=", AddAssign => "+=", SubAssign => "-=",
        MulAssign => "*=", DivAssign => "/=", RemAssign => "%=", Comma => ",", Dot => ".", OpenParen => "(",
        CloseParen => ")", OpenBrace => "{", CloseBrace => "}", OpenBracket => "[", CloseBracket => "]", Pound => "#",
        Question => "?", Exclamation => "!", Colon => ":", Assign => "=", Lt => "<", Gt => ">", VBar => "|", Add => "+",
        Sub => "-", Mul => "*", Div => "/", Rem => "%", Eol => "\n", EscapedNewline => "\\\n", LineComment => "// c",
        Unknown => "@", UnterminatedBlockComment => "/*", EmptyInt => "0x", EmptyExponentFloat => "1e",
        NonDecimalFloat => "0x1.0", UnterminatedStr => "\"", UnterminatedRawStr => "r\"", UnterminatedByteStr => "b\"",
        _ => "",
    }
}

pub fn spell(kind: TokenKind, taste: Taste, chance: &mut Chance) -> Piece {
    let odd = taste != Taste::Plain && chance.one_in(3);
    let wild = taste == Taste::Wild && chance.one_in(2);
    let text = match kind {
        Ident if odd => chance.pick(&TYPE_WORDS),
        Ident => chance.pick(&NAMES),
        Int if odd => chance.pick(&ODD_INTS),
        Int => chance.pick(&INTS),
        Float if wild => chance.pick(&ODD_FLOATS),
        Float => chance.pick(&FLOATS),
        Str if wild => chance.pick(&ODD_STRS),
        Str => chance.pick(&STRS),
        RawStr => chance.pick(&RAW_STRS),
        ByteStr if wild => chance.pick(&ODD_BYTE_STRS),
        ByteStr => chance.pick(&BYTE_STRS),
        BlockComment => chance.pick(&COMMENTS),
        Whitespace => chance.pick(&[" ", "  ", "\t"]),
        other => fixed(other),
    };
    Piece { kind, text: text.to_owned() }
}

/// A list of pieces with nothing between.
pub fn row(words: &[(TokenKind, &str)]) -> Bundle {
    let mut bundle = Bundle::default();
    for (kind, text) in words {
        push(&mut bundle, &Piece { kind: *kind, text: (*text).to_owned() });
    }
    bundle
}

/// Short lists that no lexer cuts: each spelling of a literal alone, each type word after `is`, trivia and gaps at the start.
pub fn odd() -> Vec<Bundle> {
    let mut lists = Vec::new();
    let alone: [(TokenKind, &[&str]); 10] = [
        (Int, &INTS), (Int, &ODD_INTS), (Float, &FLOATS), (Float, &ODD_FLOATS), (Str, &STRS), (Str, &ODD_STRS), (RawStr, &RAW_STRS),
        (ByteStr, &BYTE_STRS), (ByteStr, &ODD_BYTE_STRS), (Ident, &NAMES),
    ];
    for (kind, texts) in alone {
        lists.extend(texts.iter().map(|text| row(&[(kind, text)])));
    }
    lists.extend(TYPE_WORDS.iter().map(|word| row(&[(Ident, "a"), (Is, "is"), (Ident, word)])));
    let starts: [&[(TokenKind, &str)]; 4] = [
        &[(Whitespace, " ")],
        &[(Whitespace, " "), (BlockComment, "/**/"), (EscapedNewline, "\\\n"), (LineComment, "//")],
        &[(Whitespace, " "), (Ident, "a")],
        &[(Eol, "\n"), (Whitespace, " ")],
    ];
    for start in starts {
        let mut bundle = row(start);
        lists.push(bundle.clone());
        bundle.text.insert(0, b'x');
        bundle.words.iter_mut().for_each(|word| *word = Word { start: word.start + 1, end: word.end + 1, ..*word });
        lists.push(bundle);
    }
    lists
}

fn needs_space(before: &str, after: &str) -> bool {
    let word = |c: char| c == '_' || c.is_alphanumeric();
    before.chars().last().is_some_and(word) && after.chars().next().is_some_and(|c| word(c) || c == '"' || c == '\'')
}

/// Puts pieces one after the other, now and then with trivia, with bytes that belong to no token, or with nothing between.
pub fn lay(pieces: &[Piece], chance: &mut Chance) -> Bundle {
    let mut bundle = Bundle::default();
    let mut before = String::new();
    for piece in pieces {
        let between = if needs_space(&before, &piece.text) { 0 } else { chance.below(24) };
        match between {
            0 | 1 => push(&mut bundle, &spell(Whitespace, Taste::Plain, chance)),
            2 => push(&mut bundle, &spell(BlockComment, Taste::Plain, chance)),
            3 if chance.one_in(3) => push(&mut bundle, &spell(EscapedNewline, Taste::Plain, chance)),
            4 if piece.kind == Eol => push(&mut bundle, &spell(LineComment, Taste::Plain, chance)),
            5 if chance.one_in(4) => bundle.text.extend("·".bytes()),
            _ => {}
        }
        push(&mut bundle, piece);
        before.clone_from(&piece.text);
    }
    bundle
}

pub fn push(bundle: &mut Bundle, piece: &Piece) {
    let start = bundle.text.len() as u32;
    bundle.text.extend(piece.text.bytes());
    bundle.words.push(Word { kind: piece.kind as u8, start, end: bundle.text.len() as u32 });
}
