//! What the patches call: the counts and limits of the document, and the numbered branches.
//!
//! Whatever ends a reading early unwinds out of the original's parser and is caught in `run`.

use std::{
    cell::{Cell, RefCell},
    num::ParseFloatError,
    panic::{self, AssertUnwindSafe},
    sync::atomic::{AtomicU64, Ordering::Relaxed},
};

use crate::compiler::{ast::*, error::CompilerError, token::TokenKind};
use crate::records::{self, Built};
use crate::sites::SITES;

/// The limits of one reading.
#[derive(Clone, Copy)]
pub struct Limits {
    pub nodes: u64,
    pub errors: u64,
    pub expected: u64,
    pub depth: u64,
    pub readings: u64,
    pub live: u64,
}

/// What the lister lends.
pub const LISTER: Limits =
    Limits { nodes: 1024, errors: 16, expected: 1024, depth: 64, readings: 100_000, live: 1024 };

/// The most that any caller can lend: the record limits of the document, and expected kinds and readings without end.
pub const WIDEST: Limits =
    Limits { nodes: 8192, errors: 64, expected: u64::MAX, depth: 64, readings: u32::MAX as u64, live: 1024 };

/// How a reading ended before its end.
#[derive(Debug, Clone, Copy, PartialEq, Eq)]
pub enum End {
    Refused(u8),
    /// An attempt gave a node with new errors.
    Attempt,
}

/// The counts of one reading; the peaks are for measuring only.
#[derive(Clone, Copy, Default, Debug)]
pub struct Counts {
    pub readings: u64,
    pub records: u64,
    pub records_peak: u64,
    pub depth: u64,
    pub depth_peak: u64,
    pub live_peak: u64,
    pub errors_peak: u64,
    pub expected_peak: u64,
    /// The document's own rule was needed: an attempt kept with its errors, or a Float that does not parse.
    pub by_rule: bool,
}

thread_local! {
    static COUNTS: Cell<Counts> = const { Cell::new(Counts {
        readings: 0, records: 0, records_peak: 0, depth: 0, depth_peak: 0, live_peak: 0,
        errors_peak: 0, expected_peak: 0, by_rule: false,
    }) };
    static LIMITS: Cell<Limits> = const { Cell::new(LISTER) };
    static RULE: Cell<bool> = const { Cell::new(false) };
    static STAIN: Cell<bool> = const { Cell::new(false) };
    static BUILT: RefCell<Vec<Built>> = const { RefCell::new(Vec::new()) };
}

fn change(f: impl FnOnce(&mut Counts)) -> Counts {
    COUNTS.with(|cell| {
        let mut counts = cell.get();
        f(&mut counts);
        cell.set(counts);
        counts
    })
}

fn end(how: End) -> ! {
    panic::resume_unwind(Box::new(how))
}

fn refuse_past(count: u64, limit: impl Fn(Limits) -> u64, number: u8) {
    if count > limit(LIMITS.get()) {
        end(End::Refused(number));
    }
}

/// Runs `parse` under `limits`; with `rule` the document's own rule decides outside the domain.
pub fn run<T>(limits: Limits, rule: bool, parse: impl FnOnce() -> T) -> (Result<T, End>, Counts) {
    COUNTS.set(Counts::default());
    LIMITS.set(limits);
    RULE.set(rule);
    BUILT.with_borrow_mut(Vec::clear);
    let result = panic::catch_unwind(AssertUnwindSafe(parse)).map_err(|cause| match cause.downcast::<End>() {
        Ok(how) => *how,
        Err(cause) => panic::resume_unwind(cause),
    });
    (result, COUNTS.get())
}

/// A reading.
pub fn read() {
    refuse_past(change(|c| c.readings += 1).readings, |l| l.readings, 10);
}

/// The live list has `length` kinds and is about to get another.
pub fn live(length: usize) {
    let length = length as u64 + 1;
    change(|c| c.live_peak = c.live_peak.max(length));
    refuse_past(length, |l| l.live, 11);
}

pub struct Depth;

/// Depth rises, until what is answered goes out of scope.
pub fn enter() -> Depth {
    let counts = change(|c| {
        c.depth += 1;
        c.depth_peak = c.depth_peak.max(c.depth);
    });
    refuse_past(counts.depth, |l| l.depth, 9);
    Depth
}

impl Drop for Depth {
    fn drop(&mut self) {
        change(|c| c.depth -= 1);
    }
}

/// The counts as they are now.
pub fn mark() -> Counts {
    COUNTS.get()
}

/// Node records built since `mark` are given back.
pub fn give_back(mark: &Counts) {
    change(|c| c.records = mark.records);
    BUILT.with_borrow_mut(|built| built.truncate(mark.records as usize));
}

/// From now on, on this thread, `stain` does what it says.
pub fn stain_rests(on: bool) {
    STAIN.set(on);
}

/// What an undone attempt that read something left in the live list is replaced by Unknown, for which nothing asks.
pub fn stain(live: &mut [TokenKind], mark: &Counts) {
    if STAIN.get() && COUNTS.get().readings > mark.readings {
        live.fill(TokenKind::Unknown);
    }
}

/// Whether an attempt is to be undone. Answers the Rust's test inside the domain.
pub fn undo(gave_node: bool, new_errors: bool, mark: &Counts) -> bool {
    if gave_node && new_errors {
        if !RULE.get() {
            end(End::Attempt);
        }
        change(|c| c.by_rule = true);
    }
    if !gave_node {
        give_back(mark);
    }
    !gave_node
}

fn expected(error: &CompilerError) -> u64 {
    match error {
        CompilerError::UnexpectedToken { expected, .. } => expected.len() as u64,
        _ => 0,
    }
}

/// An error is about to join the list.
pub fn log(errors: &[CompilerError], error: &CompilerError) {
    let (count, kinds) = (errors.len() as u64 + 1, errors.iter().chain([error]).map(expected).sum());
    change(|c| {
        c.errors_peak = c.errors_peak.max(count);
        c.expected_peak = c.expected_peak.max(kinds);
    });
    refuse_past(count, |l| l.errors, 8);
    refuse_past(kinds, |l| l.expected, 8);
}

/// A Float's value; where it does not parse and the rule decides, any value serves, since the tree shows none.
pub fn float(digits: &str) -> Result<f64, ParseFloatError> {
    let value = digits.parse();
    if value.is_err() && RULE.get() {
        change(|c| c.by_rule = true);
        return Ok(0.0);
    }
    value
}

/// A ranged value: the kind and range of its record, or none where it is one with a value inside it that has one.
pub trait Ranged {
    fn record(&self) -> Option<Built>;
}

macro_rules! ranged {
    ($($name:ident $value:ident $kind:expr;)*) => {
        $(impl<S> Ranged for $name<S> {
            fn record(&self) -> Option<Built> {
                let $value = self;
                Option::<u32>::from($kind).map(|kind| (kind, self.range))
            }
        })*
    };
}

ranged! {
    AssignLeft _v None;
    Block _v records::BLOCK;
    Effect _v records::EFFECT;
    EffectHandler _v records::EFFECT_HANDLER;
    Expr v records::expr_kind(&v.kind);
    Function v records::function_kind(v.kind);
    Ident _v records::IDENT;
    ImportItem _v records::IMPORT_ITEM;
    Lit v records::lit_kind(&v.kind);
    MatchCase _v records::MATCH_CASE;
    Pattern v records::pattern_kind(&v.kind);
    TablePatternPair _v records::TABLE_PATTERN_PAIR;
    TableProperty _v records::TABLE_PROPERTY;
    TableTyOther _v records::TABLE_TY_OTHER;
    TableTyPair _v records::TABLE_TY_PAIR;
    Ty v records::ty_kind(&v.kind);
    TypedIdent v v.ty.as_ref().map(|_| records::TYPED_IDENT);
}

impl<S> Ranged for Program<S> {
    fn record(&self) -> Option<Built> {
        Some((records::PROGRAM, self.function.range))
    }
}

/// A ranged value has been built.
pub fn built<T: Ranged>(value: T) -> T {
    if let Some(record) = value.record() {
        let counts = change(|c| {
            c.records += 1;
            c.records_peak = c.records_peak.max(c.records);
        });
        refuse_past(counts.records, |l| l.nodes, 7);
        BUILT.with_borrow_mut(|built| built.push(record));
    }
    value
}

/// The values in use, in the order of building.
pub fn order() -> Vec<Built> {
    BUILT.with_borrow(Vec::clone)
}

static HITS: [AtomicU64; SITES.len()] = [const { AtomicU64::new(0) }; SITES.len()];

/// How often each site was reached, over all runs of the process.
pub fn hits() -> Vec<u64> {
    HITS.iter().map(|hit| hit.load(Relaxed)).collect()
}

pub fn hit(site: usize) {
    HITS[site].fetch_add(1, Relaxed);
}

pub fn at<T>(site: usize, value: T) -> T {
    hit(site);
    value
}

/// A test has two sites, first the one where it holds.
pub fn test(site: usize, holds: bool) -> bool {
    hit(if holds { site } else { site + 1 });
    holds
}

/// What stands before a `?`.
pub trait Leaves {
    fn leaves(self, site: usize) -> Self;
}

impl<T, E> Leaves for Result<T, E> {
    fn leaves(self, site: usize) -> Self {
        self.map_err(|error| at(site, error))
    }
}

impl<T> Leaves for Option<T> {
    fn leaves(self, site: usize) -> Self {
        if self.is_none() {
            hit(site);
        }
        self
    }
}
