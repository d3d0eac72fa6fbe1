//! One bundle in, one listing out.

use crate::bundle::{Bundle, Word};
use crate::compiler::{
    ast::Program, error::CompilerError, interning::Plain, lexer::tokenize, parser::parse_tokens,
};
use crate::entry::{Sheet, enter};
use crate::listing::Lines;
use crate::probe::{self, Counts, End, Limits};

/// Why an answer is not the original's alone.
#[derive(Debug, Clone, Copy, PartialEq, Eq)]
pub enum Mark {
    /// Inside the domain, or refused.
    None,
    Attempt,
    Literal,
    Trivia,
}

impl Mark {
    pub fn word(self) -> &'static str {
        match self {
            Mark::None => "",
            Mark::Attempt => "attempt",
            Mark::Literal => "literal",
            Mark::Trivia => "trivia",
        }
    }
}

pub struct Answer {
    pub text: String,
    pub mark: Mark,
    pub counts: Counts,
    pub reading: Option<Reading>,
}

/// What the original answered.
pub type Reading = (Program<String>, Vec<CompilerError>);

fn short(text: String, mark: Mark) -> Answer {
    Answer { text, mark, counts: Counts::default(), reading: None }
}

impl Answer {
    /// The listing with what the records' flags and bare ranges tell; where there is no tree, the plain text.
    pub fn with_words(&self) -> String {
        self.reading.as_ref().map_or(self.text.clone(), |reading| list(reading, self.counts, true))
    }
}

fn list(reading: &Reading, counts: Counts, words: bool) -> String {
    let mut lines = Lines { words, ..Lines::default() };
    lines.program(&reading.0);
    assert_eq!(lines.count, counts.records, "one line for each record in use");
    reading.1.iter().for_each(|error| lines.error(error));
    let head = format!("read 0 reads {} nodes {} errors {}\n", counts.readings, counts.records, reading.1.len());
    head + &lines.text
}

/// How a sheet was read.
pub enum Outcome {
    Read(Reading),
    Refused(u8),
    /// By rule: a program without statements at this place.
    Empty(u32),
    /// Outside the domain, and the rule was not asked for.
    Outside,
}

pub struct Run {
    pub outcome: Outcome,
    pub mark: Mark,
    pub counts: Counts,
}

/// Reads a sheet. Outside the domain the document's own rules decide with `rule`; the mark tells which sheets these are.
pub fn read(sheet: &Sheet, limits: Limits, rule: bool) -> Run {
    let mark = match sheet.trivia_start() {
        Some(start) if rule => {
            let outcome = if limits.nodes == 0 { Outcome::Refused(7) } else { Outcome::Empty(start) };
            return Run { outcome, mark: Mark::Trivia, counts: Counts { records: 1, records_peak: 1, ..Counts::default() } };
        }
        Some(_) => Mark::Trivia,
        None if !sheet.literals_plain() => Mark::Literal,
        None => Mark::None,
    };
    if mark != Mark::None && !rule {
        return Run { outcome: Outcome::Outside, mark, counts: Counts::default() };
    }
    let (result, counts) = probe::run(limits, rule, || {
        let (program, errors) = parse_tokens(Plain, sheet.text, &sheet.tokens);
        (probe::built(program), errors)
    });
    let mark = if counts.by_rule && mark == Mark::None { Mark::Attempt } else { mark };
    match result {
        Ok(reading) => Run { outcome: Outcome::Read(reading), mark, counts },
        Err(End::Refused(number)) => Run { outcome: Outcome::Refused(number), mark, counts },
        Err(End::Attempt) => Run { outcome: Outcome::Outside, mark: Mark::Attempt, counts: Counts::default() },
    }
}

/// The listing of a sheet; outside the domain and without `rule` it is `outside` with the reason.
fn sheet(sheet: &Sheet, limits: Limits, rule: bool) -> Answer {
    let Run { outcome, mark, counts } = read(sheet, limits, rule);
    match outcome {
        Outcome::Read(reading) => Answer { text: list(&reading, counts, false), mark, counts, reading: Some(reading) },
        Outcome::Refused(number) => Answer { text: format!("refused {number}\n"), mark, counts, reading: None },
        Outcome::Empty(at) => short(format!("read 0 reads 0 nodes 1 errors 0\n0 Program {at} {at}\n"), mark),
        Outcome::Outside => short(format!("outside {}\n", mark.word()), mark),
    }
}

pub fn bundle(bundle: &Bundle, limits: Limits, rule: bool) -> Answer {
    match enter(bundle) {
        Ok(entered) => sheet(&entered, limits, rule),
        Err(number) => short(format!("refused {number}\n"), Mark::None),
    }
}

/// The lister's answer to the bytes on its standard input.
pub fn bytes(input: &[u8], limits: Limits, rule: bool) -> Answer {
    match Bundle::from_bytes(input) {
        Some(read) => bundle(&read, limits, rule),
        None => short("refused 12\n".to_owned(), Mark::None),
    }
}

/// What sort of listing it is: read with errors or without, or its first line.
pub fn sort(listing: &str) -> &str {
    let head = listing.lines().next().unwrap_or("");
    match head.strip_prefix("read 0") {
        Some(rest) if rest.ends_with("errors 0") => "read without errors",
        Some(_) => "read with errors",
        None => head,
    }
}

/// A text with the tokens that the original's lexer cuts.
pub fn cut(text: &str) -> Bundle {
    let words = tokenize(text)
        .map(|t| Word { kind: t.kind as u8, start: t.range.start().into(), end: t.range.end().into() })
        .collect();
    Bundle { text: text.as_bytes().to_vec(), words }
}
