//! What a caller lends, before a bundle: the pieces that the program `words` reads, and the whole answers to them.
//!
//! A piece has four numbers of four bytes, the words of the node buffer and of the error buffer, the bytes of the expected buffer and the
//! allowance, and then a bundle, whose text and tokens may pass what the lister holds, and what the library takes, by one.

use crate::answer::{self, Mark, Outcome};
use crate::bundle::{Bundle, number};
use crate::chance::Chance;
use crate::compiler::{bare, interning::Plain};
use crate::entry::{Sheet, enter};
use crate::probe::{self, Counts, Limits, WIDEST};
use crate::records::{self, ERROR_WORDS, NODE_WORDS, Words};

/// The sizes of the lent buffers and the allowance.
#[derive(Debug, Clone, Copy, PartialEq, Eq)]
pub struct Lent {
    pub nodes: u32,
    pub errors: u32,
    pub expected: u32,
    pub allowance: u32,
}

/// The largest buffers that `words` has to lend, with any allowance.
pub const MOST: Lent = Lent { nodes: 65_552, errors: 396, expected: 65_537, allowance: u32::MAX };

/// The longest text and list of tokens in a piece: one more than the library takes.
pub const LONGEST: (usize, usize) = (65_536, 4_097);

/// What `words` fills its buffers with.
const MARK: u8 = 0xa5;

impl Lent {
    /// Room for whole records, expected kinds and readings.
    pub fn whole(nodes: u64, errors: u64, expected: u64, allowance: u64) -> Lent {
        let words = |count: u64, unit: usize| count as u32 * unit as u32;
        Lent {
            nodes: words(nodes, NODE_WORDS),
            errors: words(errors, ERROR_WORDS),
            expected: expected as u32,
            allowance: allowance as u32,
        }
    }

    /// What counts of it: whole records, at most 8,192 and 64.
    pub fn limits(self) -> Limits {
        Limits {
            nodes: (u64::from(self.nodes) / NODE_WORDS as u64).min(WIDEST.nodes),
            errors: (u64::from(self.errors) / ERROR_WORDS as u64).min(WIDEST.errors),
            expected: self.expected.into(),
            readings: self.allowance.into(),
            ..WIDEST
        }
    }

    pub fn piece(self, bundle: &[u8]) -> Vec<u8> {
        let head = [self.nodes, self.errors, self.expected, self.allowance];
        head.into_iter().flat_map(u32::to_le_bytes).chain(bundle.iter().copied()).collect()
    }
}

/// A piece taken apart; none where it is too short, or more is lent than there is.
fn apart(piece: &[u8]) -> Option<(Lent, Bundle)> {
    let (head, bundle) = piece.split_at_checked(16)?;
    let [nodes, errors, expected, allowance] = [0, 4, 8, 12].map(|at| number(&head[at..]));
    let lent = Lent { nodes, errors, expected, allowance };
    let there = nodes <= MOST.nodes && errors <= MOST.errors && expected <= MOST.expected;
    Bundle::within(bundle, LONGEST.0, LONGEST.1).filter(|_| there).map(|bundle| (lent, bundle))
}

/// A buffer up to its last word that is not zero, behind the count of these words.
fn put<const SIZE: usize>(out: &mut Vec<u8>, words: impl DoubleEndedIterator<Item = [u8; SIZE]> + ExactSizeIterator + Clone) {
    let used = words.clone().rposition(|word| word != [0; SIZE]).map_or(0, |last| last + 1);
    out.extend((used as u32).to_le_bytes());
    out.extend(words.take(used).flatten());
}

/// The whole answer where the buffers hold these words at last and zeros behind them.
fn told(number: u8, reads: u32, words: &Words) -> Vec<u8> {
    let counts = [words.nodes.len() / NODE_WORDS, words.errors.len() / ERROR_WORDS, words.expected.len()];
    let mut out = vec![number];
    out.extend([reads].into_iter().chain(counts.map(|count| count as u32)).flat_map(u32::to_le_bytes));
    put(&mut out, words.nodes.iter().map(|word| word.to_le_bytes()));
    put(&mut out, words.errors.iter().map(|word| word.to_le_bytes()));
    put(&mut out, words.expected.iter().map(|byte| [*byte]));
    out
}

/// The whole answer of a refusal before the parser is called: no count, and every word as it was.
fn untouched(number: u8, lent: Lent) -> Vec<u8> {
    let mut out = vec![number];
    out.extend([0; 16]);
    put(&mut out, (0..lent.nodes as usize).map(|_| [MARK; 4]));
    put(&mut out, (0..lent.errors as usize).map(|_| [MARK; 4]));
    put(&mut out, (0..lent.expected as usize).map(|_| [MARK; 1]));
    out
}

fn read(sheet: &Sheet, lent: Lent, rule: bool) -> Vec<u8> {
    let run = answer::read(sheet, lent.limits(), rule);
    match run.outcome {
        Outcome::Read(reading) => {
            let words = records::of(&reading, &sheet.tokens, &probe::order());
            if run.mark == Mark::None {
                let plain = bare::parse_tokens(Plain, sheet.text, &sheet.tokens);
                assert!(plain == reading, "the patches change the answer");
            }
            told(0, run.counts.readings as u32, &words)
        }
        Outcome::Empty(at) => told(0, 0, &records::empty(at)),
        Outcome::Refused(number) => told(number, 0, &Words::default()),
        Outcome::Outside => format!("outside {}\n", run.mark.word()).into_bytes(),
    }
}

/// The whole answer to a piece, as `words` writes it. Inside the domain the copy without patches has to give the same tree and errors.
pub fn whole_answer(piece: &[u8], rule: bool) -> Vec<u8> {
    let Some((lent, bundle)) = apart(piece) else {
        return vec![12];
    };
    match enter(&bundle) {
        Ok(sheet) => read(&sheet, lent, rule),
        Err(number) => untouched(number, lent),
    }
}

/// The sort of a whole answer: number first, the count of errors from the tenth byte on.
pub fn sort(answer: &[u8]) -> String {
    match answer {
        [0, rest @ ..] if rest.get(8..12) == Some(&[0; 4]) => "read without errors".to_owned(),
        [0, ..] => "read with errors".to_owned(),
        [number @ 1..=12, ..] => format!("refused {number}"),
        _ => String::from_utf8_lossy(answer).trim_end().to_owned(),
    }
}

/// So many readings that a sheet which reads again and again may take here.
const READINGS: u64 = 300_000;

/// What a sheet needs to be read, or where it is refused all the same, what it has taken until then.
pub fn needs(sheet: &Sheet) -> Counts {
    let mut counts = answer::read(sheet, Limits { readings: READINGS, ..WIDEST }, true).counts;
    counts.readings = counts.readings.min(READINGS);
    counts
}

/// Sizes for a bundle, by its number in a stream: of ten bundles two are lent just what they need, one some words more that make no whole
/// record, one some records more, one what the lister lends, one the most that counts or a record more, and four too little of
/// something. Where the entry check refuses, little is lent, since all of it is shown.
pub fn choose(bundle: &[u8], number: usize, chance: &mut Chance) -> Lent {
    let few = Lent {
        nodes: chance.below(30) as u32,
        errors: chance.below(20) as u32,
        expected: chance.below(12) as u32,
        allowance: chance.below(9) as u32,
    };
    let bundle = Bundle::within(bundle, LONGEST.0, LONGEST.1);
    let Some(sheet) = bundle.as_ref().and_then(|bundle| enter(bundle).ok()) else {
        return few;
    };
    let counts = needs(&sheet);
    let just = Lent::whole(counts.records_peak, counts.errors_peak, counts.expected_peak, counts.readings);
    let mut lent = just;
    let part = |unit: usize, chance: &mut Chance| 1 + chance.below(unit - 1) as u32;
    let less = |size: u32, most: usize, chance: &mut Chance| size.saturating_sub(1 + chance.below(most) as u32);
    match number % 10 {
        0 | 1 => {}
        2 => {
            lent.nodes += part(NODE_WORDS, chance);
            lent.errors += part(ERROR_WORDS, chance);
        }
        3 => {
            lent.nodes += 1 + chance.below(40) as u32;
            lent.errors += 1 + chance.below(20) as u32;
            lent.expected += 1 + chance.below(40) as u32;
            lent.allowance += 1 + chance.below(20) as u32;
        }
        4 => lent = Lent::whole(1_024, 16, 1_024, 100_000),
        5 => {
            let more = chance.below(2) as u64;
            lent = Lent::whole(8_192 + more, 64 + more, 65_536 + more, if counts.readings < READINGS { u32::MAX.into() } else { READINGS });
        }
        6 => lent.nodes = less(lent.nodes, NODE_WORDS, chance),
        7 if chance.one_in(2) => lent.errors = less(lent.errors, ERROR_WORDS, chance),
        7 => lent.expected = less(lent.expected, 1, chance),
        8 => lent.allowance = less(lent.allowance, 1, chance),
        _ => {
            lent.nodes = less(lent.nodes, 4 * NODE_WORDS, chance);
            lent.errors = less(lent.errors, 2 * ERROR_WORDS, chance);
            lent.allowance = less(lent.allowance, 9, chance);
        }
    }
    Lent { nodes: lent.nodes.min(MOST.nodes), errors: lent.errors.min(MOST.errors), ..lent }
}
