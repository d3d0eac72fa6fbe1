//! The scheme reader for Rust: [`parse`], a safe call of the proved library `libparser.a` (x86-64 Linux), and views of what it leaves in the
//! buffers.
//!
//! Make the library with `tools/library`; it then is `target/staticlib/libparser.a`. `bindings/run.sh` shows how this file is compiled
//! with it, by `rustc` alone. `docs/LAYOUT.md` says what each word of a record means; the numbers here are its numbers, and `bindings/run.sh`
//! holds them to the library's sources.
//!
//! Only `core` is used, and no memory is taken but stack. How much of that the call needs stands in `bindings/c/lucia_parse.h`.
#![no_std]
#![deny(missing_docs)]

use core::fmt;
use core::ops::Range;

/// The words of a token.
pub const TOKEN_WORDS: usize = 3;
/// The words of a node record.
pub const NODE_WORDS: usize = 8;
/// The words of an error record.
pub const ERROR_WORDS: usize = 6;

/// The most bytes of text.
pub const MAX_TEXT: usize = 65_535;
/// The most tokens, trivia among them.
pub const MAX_TOKENS: usize = 4_096;
/// The most node records: a buffer with room for more is of no use.
pub const MAX_NODES: usize = 8_192;
/// The most error records.
pub const MAX_ERRORS: usize = 64;
/// The most expected kinds: as many as 64 errors can list.
pub const MAX_EXPECTED: usize = 65_536;

/// A token: its kind (a constant of [`token`]) and its range in bytes of the text.
#[derive(Clone, Copy, Debug, PartialEq, Eq, Hash)]
pub struct Token {
    /// The kind.
    pub kind: u32,
    /// Where it starts.
    pub start: u32,
    /// Where it ends, the first byte after it.
    pub end: u32,
}

impl Token {
    /// A token of that kind and range.
    pub const fn new(kind: u32, start: u32, end: u32) -> Token {
        Token { kind, start, end }
    }

    /// Its three words. `as_flattened` makes the words for [`parse`] of an array of these.
    pub const fn words(self) -> [u32; TOKEN_WORDS] {
        [self.kind, self.start, self.end]
    }
}

/// What a reading reports.
#[repr(C)]
#[derive(Clone, Copy, Debug, Default, PartialEq, Eq, Hash)]
pub struct Reading {
    /// Readings: tokens taken, those of undone attempts too.
    pub reads: u32,
    /// Node records. The root is the last one.
    pub nodes: u32,
    /// Error records.
    pub errors: u32,
    /// Bytes of the expected buffer in use.
    pub expected: u32,
}

/// Why a sheet was not read. The first six leave the buffers as they were, the others leave them all zero.
#[repr(u8)]
#[derive(Clone, Copy, Debug, PartialEq, Eq, Hash)]
pub enum Refusal {
    /// The text is over 65,535 bytes.
    TextTooLong = 1,
    /// There are more than 4,096 tokens.
    TooManyTokens = 2,
    /// The text is not UTF-8.
    NotUtf8 = 3,
    /// A token kind is above 78, or is Eof, which the list must not hold.
    BadKind = 4,
    /// A token is empty, ends before its start, leaves the text, starts before the previous end or cuts a character.
    BadRange = 5,
    /// A Str, RawStr or ByteStr is without its two equal quotes.
    BadQuotes = 6,
    /// There is no room for another node record.
    NodesFull = 7,
    /// There is no room for another error record or for its expected kinds.
    ErrorsFull = 8,
    /// The sheet is nested deeper than 64.
    TooDeep = 9,
    /// More readings would be needed than were allowed.
    Allowance = 10,
    /// More than 1,024 kinds would be expected at one place.
    LiveFull = 11,
}

impl Refusal {
    /// The document's number, 1 to 11.
    pub const fn number(self) -> u8 {
        self as u8
    }

    /// The refusal of that number.
    pub const fn of(number: u8) -> Option<Refusal> {
        Some(match number {
            1 => Refusal::TextTooLong,
            2 => Refusal::TooManyTokens,
            3 => Refusal::NotUtf8,
            4 => Refusal::BadKind,
            5 => Refusal::BadRange,
            6 => Refusal::BadQuotes,
            7 => Refusal::NodesFull,
            8 => Refusal::ErrorsFull,
            9 => Refusal::TooDeep,
            10 => Refusal::Allowance,
            11 => Refusal::LiveFull,
            _ => return None,
        })
    }
}

impl fmt::Display for Refusal {
    fn fmt(&self, f: &mut fmt::Formatter<'_>) -> fmt::Result {
        write!(f, "refused {}: {:?}", self.number(), self)
    }
}

impl core::error::Error for Refusal {}

extern "C" {
    // As bindings/c/lucia_parse.h has it.
    fn lucia_parse(
        text: *const u8,
        text_len: usize,
        tokens: *const u32,
        token_words: usize,
        allowance: u32,
        nodes: *mut u32,
        node_words: usize,
        errors: *mut u32,
        error_words: usize,
        expected: *mut u8,
        expected_len: usize,
        counts: *mut Reading,
    ) -> u8;
}

/// Reads a sheet: its text, the words of its tokens (kind, start and end of each; trivia belong in the list, Eof does not) and the most
/// readings that may be spent, into the buffers of node records, error records and expected kinds.
///
/// Where the sheet is read, its errors may be listed all the same; the records are in the buffers, [`Nodes`] and [`Errors`] show them, and
/// everything past the counts is zero. What the buffers held before does not matter. Any arguments get an answer, and every call ends.
///
/// # Panics
///
/// If the library answers a number that it has not: it then is not the library that this file was written for.
pub fn parse(
    text: &[u8],
    tokens: &[u32],
    allowance: u32,
    nodes: &mut [u32],
    errors: &mut [u32],
    expected: &mut [u8],
) -> Result<Reading, Refusal> {
    let mut counts = Reading::default();
    // SAFETY: the library reads and writes only the elements of its slices and `counts`, which it is proved to do for any contents and lengths.
    // It requires pointers that are not null, are aligned and lead to as many elements as the lengths say: those of slices are and do, also
    // of empty ones. It requires that what it writes overlaps nothing else and that nobody else touches it meanwhile: the borrows say so.
    // `Reading` is laid out as C lays out lucia_reading.
    let answer = unsafe {
        lucia_parse(
            text.as_ptr(),
            text.len(),
            tokens.as_ptr(),
            tokens.len(),
            allowance,
            nodes.as_mut_ptr(),
            nodes.len(),
            errors.as_mut_ptr(),
            errors.len(),
            expected.as_mut_ptr(),
            expected.len(),
            &mut counts,
        )
    };
    if answer == 0 {
        return Ok(counts);
    }
    match Refusal::of(answer) {
        Some(refusal) => Err(refusal),
        None => panic!("lucia_parse answered {answer}, which is no refusal"),
    }
}

// The places of a node record's words.
const KIND: usize = 0;
const START: usize = 1;
const END: usize = 2;
const FIRST: usize = 3;
const NEXT: usize = 4;
const ONE: usize = 5;
const TWO: usize = 6;
const FLAGS: usize = 7;

// The places of an error record's words.
const CLASS: usize = 0;
const FOUND: usize = 1;
const ERROR_START: usize = 2;
const ERROR_END: usize = 3;
const KINDS_FROM: usize = 4;
const KINDS_COUNT: usize = 5;

/// The node records of a reading.
///
/// The views trust no buffer: over words that no reading left they show something else, but leave no slice and end.
#[derive(Clone, Copy, Debug)]
pub struct Nodes<'a> {
    words: &'a [u32],
}

impl<'a> Nodes<'a> {
    /// The records in the buffer that [`parse`] was given, as many as it reported.
    pub fn new(words: &'a [u32], reading: &Reading) -> Nodes<'a> {
        let count = (words.len() / NODE_WORDS).min(reading.nodes as usize);
        Nodes {
            words: &words[..NODE_WORDS * count],
        }
    }

    /// How many there are.
    pub fn len(self) -> usize {
        self.words.len() / NODE_WORDS
    }

    /// Whether there are none.
    pub fn is_empty(self) -> bool {
        self.words.is_empty()
    }

    /// The Program, of which all others are children: the record that was built last.
    pub fn root(self) -> Option<Node<'a>> {
        self.get(self.len().checked_sub(1)?)
    }

    /// The record of that index.
    pub fn get(self, index: usize) -> Option<Node<'a>> {
        let record = self
            .words
            .get(NODE_WORDS.checked_mul(index)?..)?
            .first_chunk()?;
        Some(Node {
            nodes: self,
            index,
            record,
        })
    }

    /// All records in the order in which they were built.
    pub fn iter(self) -> impl Iterator<Item = Node<'a>> {
        (0..self.len()).filter_map(move |index| self.get(index))
    }

    // What a link leads to: 0 to nothing, otherwise to the record before that number.
    fn linked(self, link: u32) -> Option<Node<'a>> {
        self.get((link as usize).checked_sub(1)?)
    }
}

/// A node record.
#[derive(Clone, Copy, Debug)]
pub struct Node<'a> {
    nodes: Nodes<'a>,
    index: usize,
    record: &'a [u32; NODE_WORDS],
}

impl<'a> Node<'a> {
    /// Its index among the records.
    pub fn index(self) -> usize {
        self.index
    }

    /// Its eight words as they stand.
    pub fn words(self) -> &'a [u32; NODE_WORDS] {
        self.record
    }

    /// Its kind. None for a number that no kind has, which the library never writes.
    pub fn kind(self) -> Option<NodeKind> {
        NodeKind::of(self.record[KIND])
    }

    /// Its range in bytes of the text.
    pub fn range(self) -> Range<usize> {
        self.record[START] as usize..self.record[END] as usize
    }

    /// The bytes of its range, given the text that was read.
    pub fn text(self, text: &[u8]) -> Option<&[u8]> {
        text.get(self.range())
    }

    /// The first child.
    pub fn first_child(self) -> Option<Node<'a>> {
        self.nodes.linked(self.record[FIRST])
    }

    /// The next child of the same parent.
    pub fn next_sibling(self) -> Option<Node<'a>> {
        self.nodes.linked(self.record[NEXT])
    }

    /// The children, in the order in which they were read.
    pub fn children(self) -> Children<'a> {
        Children {
            next: self.first_child(),
            left: self.nodes.len(),
        }
    }

    /// The first word of the kind's own.
    pub fn one(self) -> u32 {
        self.record[ONE]
    }

    /// The second word of the kind's own.
    pub fn two(self) -> u32 {
        self.record[TWO]
    }

    /// List lengths and flags.
    pub fn flags(self) -> Flags {
        Flags(self.record[FLAGS])
    }

    /// The value of an Int.
    pub fn int(self) -> Option<i64> {
        match self.kind()? {
            NodeKind::Int => Some((u64::from(self.two()) << 32 | u64::from(self.one())) as i64),
            _ => None,
        }
    }
}

/// The children of a node.
#[derive(Clone, Debug)]
pub struct Children<'a> {
    next: Option<Node<'a>>,
    // No row is longer than all records together. Without this count, words that no reading left might lead round in a ring.
    left: usize,
}

impl<'a> Iterator for Children<'a> {
    type Item = Node<'a>;

    fn next(&mut self) -> Option<Node<'a>> {
        self.left = self.left.checked_sub(1)?;
        let node = self.next?;
        self.next = node.next_sibling();
        Some(node)
    }
}

/// A flags word: the lengths of two lists and two flags, with a meaning for each kind (docs/LAYOUT.md).
#[derive(Clone, Copy, Debug, PartialEq, Eq, Hash)]
pub struct Flags(pub u32);

impl Flags {
    /// The first length.
    pub fn n(self) -> usize {
        (self.0 & 0x7fff) as usize
    }

    /// The second length.
    pub fn m(self) -> usize {
        (self.0 >> 15 & 0x7fff) as usize
    }

    /// The first flag.
    pub fn one(self) -> bool {
        self.0 >> 30 & 1 == 1
    }

    /// The second flag.
    pub fn two(self) -> bool {
        self.0 >> 31 == 1
    }
}

/// The error records of a reading, in the order in which the errors were found.
#[derive(Clone, Copy, Debug)]
pub struct Errors<'a> {
    words: &'a [u32],
    expected: &'a [u8],
}

impl<'a> Errors<'a> {
    /// The records in the buffers that [`parse`] was given, as many as it reported.
    pub fn new(words: &'a [u32], expected: &'a [u8], reading: &Reading) -> Errors<'a> {
        let count = (words.len() / ERROR_WORDS).min(reading.errors as usize);
        let kinds = expected.len().min(reading.expected as usize);
        Errors {
            words: &words[..ERROR_WORDS * count],
            expected: &expected[..kinds],
        }
    }

    /// How many there are.
    pub fn len(self) -> usize {
        self.words.len() / ERROR_WORDS
    }

    /// Whether there are none.
    pub fn is_empty(self) -> bool {
        self.words.is_empty()
    }

    /// The record of that index.
    pub fn get(self, index: usize) -> Option<ErrorRecord<'a>> {
        let record = self
            .words
            .get(ERROR_WORDS.checked_mul(index)?..)?
            .first_chunk()?;
        Some(ErrorRecord {
            record,
            all: self.expected,
        })
    }

    /// All of them.
    pub fn iter(self) -> impl Iterator<Item = ErrorRecord<'a>> {
        (0..self.len()).filter_map(move |index| self.get(index))
    }
}

/// An error record.
#[derive(Clone, Copy, Debug)]
pub struct ErrorRecord<'a> {
    record: &'a [u32; ERROR_WORDS],
    all: &'a [u8],
}

impl<'a> ErrorRecord<'a> {
    /// Its six words as they stand.
    pub fn words(self) -> &'a [u32; ERROR_WORDS] {
        self.record
    }

    /// What is wrong. None for numbers that the library never writes.
    pub fn cause(self) -> Option<Cause> {
        match (self.record[CLASS], self.record[FOUND]) {
            (0, kind) => Some(Cause::Unexpected(kind)),
            (1, 0) => Some(Cause::Int(IntFault::Empty)),
            (1, 1) => Some(Cause::Int(IntFault::InvalidDigit)),
            (1, 2) => Some(Cause::Int(IntFault::TooLarge)),
            (1, 3) => Some(Cause::Int(IntFault::TooSmall)),
            _ => None,
        }
    }

    /// Its range in bytes of the text.
    pub fn range(self) -> Range<usize> {
        self.record[ERROR_START] as usize..self.record[ERROR_END] as usize
    }

    /// The token kinds that were expected instead, repeats kept.
    pub fn expected(self) -> &'a [u8] {
        let from = self.record[KINDS_FROM] as usize;
        let kinds = self.all.get(from..).unwrap_or(&[]);
        kinds
            .get(..self.record[KINDS_COUNT] as usize)
            .unwrap_or(&[])
    }
}

/// What an error record tells of.
#[derive(Clone, Copy, Debug, PartialEq, Eq, Hash)]
pub enum Cause {
    /// A token of this kind where it has no place; [`token::EOF`] at the end of input.
    Unexpected(u32),
    /// An integer that has no value.
    Int(IntFault),
}

/// Why an integer has no value.
#[derive(Clone, Copy, Debug, PartialEq, Eq, Hash)]
pub enum IntFault {
    /// No digits.
    Empty,
    /// A byte that is no digit.
    InvalidDigit,
    /// Above the largest of 64 bits.
    TooLarge,
    /// Below the smallest of 64 bits.
    TooSmall,
}

// The kinds from one list, so that numbers, names and the way back from a number cannot come apart.
macro_rules! node_kinds {
    ($($(#[$doc:meta])* $name:ident = $number:literal, $listed:literal;)*) => {
        /// The kinds of node records, each with its children in order. Lists take any number; docs/LAYOUT.md says what the words and flags hold.
        #[repr(u32)]
        #[derive(Clone, Copy, Debug, PartialEq, Eq, Hash)]
        pub enum NodeKind { $($(#[$doc])* $name = $number,)* }

        impl NodeKind {
            /// The kind of that number.
            pub const fn of(number: u32) -> Option<NodeKind> {
                match number {
                    $($number => Some(NodeKind::$name),)*
                    _ => None,
                }
            }

            /// Its name in listings, which some kinds share.
            pub const fn listed(self) -> &'static str {
                match self { $(NodeKind::$name => $listed,)* }
            }
        }
    };
}

node_kinds! {
    /// No children.
    Null = 1, "Null";
    /// No children.
    Bool = 2, "Bool";
    /// No children.
    Int = 3, "Int";
    /// No children.
    Float = 4, "Float";
    /// No children.
    Str = 5, "Str";
    /// No children.
    Bytes = 6, "Bytes";
    /// No children.
    Ident = 7, "Ident";
    /// Children: expr.
    Paren = 8, "Paren";
    /// Children: block.
    ExprBlock = 9, "Block";
    /// Children: name if any, function.
    Fn = 10, "Fn";
    /// Children: name, effect.
    ExprEffect = 11, "Effect";
    /// Children: properties.
    Table = 12, "Table";
    /// Children: items.
    List = 13, "List";
    /// Children: argument.
    Unary = 14, "Unary";
    /// Children: left, right.
    Binary = 15, "Binary";
    /// Children: left.
    TypeCheck = 16, "TypeCheck";
    /// Children: table, property if any.
    Member = 17, "Member";
    /// Children: callee, arguments, trailing lambda if any, handlers.
    Call = 18, "Call";
    /// Children: test, consequent, alternate if any.
    If = 19, "If";
    /// Children: expr, cases.
    Match = 20, "Match";
    /// Children: body.
    Loop = 21, "Loop";
    /// Children: test, body.
    While = 22, "While";
    /// Children: names, source, body.
    For = 23, "For";
    /// No children.
    Break = 24, "Break";
    /// No children.
    Continue = 25, "Continue";
    /// Children: argument.
    Return = 26, "Return";
    /// Children: the path's names, then the alias or the items.
    Import = 27, "Import";
    /// Children: left, right.
    GloAssign = 28, "GloAssign";
    /// Children: left, right.
    Assign = 29, "Assign";
    /// Children: left, right.
    AssignOp = 30, "AssignOp";
    /// Children: lefts, right.
    AssignUnpack = 31, "AssignUnpack";
    /// Children: lefts, rights.
    AssignMulti = 32, "AssignMulti";
    /// Children: statements.
    Program = 33, "Program";
    /// Children: statements.
    Block = 34, "Block";
    /// Children: parameters, variadic if any, returned type if any, body.
    Function = 35, "Function";
    /// Children: parameters, variadic if any, returned type if any, body.
    Closure = 36, "Closure";
    /// Children: body.
    Do = 37, "Do";
    /// Children: parameters, variadic if any, returned type if any.
    Effect = 38, "Effect";
    /// Children: the effect's name, parameters, variadic if any, body.
    EffectHandler = 39, "EffectHandler";
    /// Children: name, type.
    TypedIdent = 40, "TypedIdent";
    /// Children: key, value.
    TableProperty = 41, "TableProperty";
    /// Children: patterns, body.
    MatchCase = 42, "MatchCase";
    /// Children: name, alias if any.
    ImportItem = 43, "ImportItem";
    /// Children: pairs.
    PatternTable = 44, "Table";
    /// Children: items.
    PatternList = 45, "List";
    /// Children: key, value.
    TablePatternPair = 46, "TablePatternPair";
    /// Children: type.
    TyParen = 47, "Paren";
    /// Children: pairs, others if any.
    TyTable = 48, "Table";
    /// Children: parameters, variadic if any, returned type if any.
    TyFunction = 49, "Function";
    /// Children: types.
    Union = 50, "Union";
    /// Children: key, value.
    TableTyPair = 51, "TableTyPair";
    /// Children: key, value.
    TableTyOther = 52, "TableTyOther";
}

/// The token kinds. 0 to 3 are trivia; 71 to 78 are the lexer's faults, which no rule takes.
#[allow(missing_docs)]
pub mod token {
    pub const LINE_COMMENT: u32 = 0;
    pub const BLOCK_COMMENT: u32 = 1;
    pub const WHITESPACE: u32 = 2;
    pub const ESCAPED_NEWLINE: u32 = 3;
    pub const IDENT: u32 = 4;
    pub const INT: u32 = 5;
    pub const FLOAT: u32 = 6;
    pub const STR: u32 = 7;
    pub const RAW_STR: u32 = 8;
    pub const BYTE_STR: u32 = 9;
    pub const IF: u32 = 10;
    pub const ELSE: u32 = 11;
    pub const MATCH: u32 = 12;
    pub const LOOP: u32 = 13;
    pub const WHILE: u32 = 14;
    pub const FOR: u32 = 15;
    pub const IN: u32 = 16;
    pub const BREAK: u32 = 17;
    pub const CONTINUE: u32 = 18;
    pub const RETURN: u32 = 19;
    pub const GLO: u32 = 20;
    pub const IMPORT: u32 = 21;
    pub const AS: u32 = 22;
    pub const IS: u32 = 23;
    pub const NOT: u32 = 24;
    pub const AND: u32 = 25;
    pub const OR: u32 = 26;
    pub const TRY: u32 = 27;
    pub const WITH: u32 = 28;
    pub const FN: u32 = 29;
    pub const DO: u32 = 30;
    pub const EFFECT: u32 = 31;
    pub const NULL: u32 = 32;
    pub const TRUE: u32 = 33;
    pub const FALSE: u32 = 34;
    pub const ELLIPSIS: u32 = 35;
    pub const DOUBLE_COLON: u32 = 36;
    pub const ARROW: u32 = 37;
    pub const FAT_ARROW: u32 = 38;
    pub const EQ: u32 = 39;
    pub const NOT_EQ: u32 = 40;
    pub const LT_EQ: u32 = 41;
    pub const GT_EQ: u32 = 42;
    pub const ADD_ASSIGN: u32 = 43;
    pub const SUB_ASSIGN: u32 = 44;
    pub const MUL_ASSIGN: u32 = 45;
    pub const DIV_ASSIGN: u32 = 46;
    pub const REM_ASSIGN: u32 = 47;
    pub const COMMA: u32 = 48;
    pub const DOT: u32 = 49;
    pub const OPEN_PAREN: u32 = 50;
    pub const CLOSE_PAREN: u32 = 51;
    pub const OPEN_BRACE: u32 = 52;
    pub const CLOSE_BRACE: u32 = 53;
    pub const OPEN_BRACKET: u32 = 54;
    pub const CLOSE_BRACKET: u32 = 55;
    pub const POUND: u32 = 56;
    pub const QUESTION: u32 = 57;
    pub const EXCLAMATION: u32 = 58;
    pub const COLON: u32 = 59;
    pub const ASSIGN: u32 = 60;
    pub const LT: u32 = 61;
    pub const GT: u32 = 62;
    pub const V_BAR: u32 = 63;
    pub const ADD: u32 = 64;
    pub const SUB: u32 = 65;
    pub const MUL: u32 = 66;
    pub const DIV: u32 = 67;
    pub const REM: u32 = 68;
    pub const EOL: u32 = 69;
    pub const EOF: u32 = 70;
    pub const UNKNOWN: u32 = 71;
    pub const UNTERMINATED_BLOCK_COMMENT: u32 = 72;
    pub const EMPTY_INT: u32 = 73;
    pub const EMPTY_EXPONENT_FLOAT: u32 = 74;
    pub const NON_DECIMAL_FLOAT: u32 = 75;
    pub const UNTERMINATED_STR: u32 = 76;
    pub const UNTERMINATED_RAW_STR: u32 = 77;
    pub const UNTERMINATED_BYTE_STR: u32 = 78;
}
