//! The sheets of the comparison, each from a seed, a class and a number alone.

use std::sync::OnceLock;

use lucia::{
    bundle::Bundle,
    chance::Chance,
    classes::{deep, faulty, limits, random, texts},
    compiler::token::TokenKind,
    damage::damage,
    entry::KINDS,
    grammatical::sheet,
    spell::{Piece, Taste, lay, odd, spell},
};

/// The classes, and how many of a thousand sheets are of each.
pub const CLASSES: [(&str, u64); 9] = [
    ("grammatical", 230),
    ("damaged", 330),
    ("wild", 80),
    ("short", 130),
    ("entry", 90),
    ("deep", 30),
    ("long", 4),
    ("fixed", 26),
    ("all", 80),
];

/// What is lent to be read.
#[derive(Clone, Default)]
pub struct Case {
    pub text: Vec<u8>,
    pub triples: Vec<[u32; 3]>,
    /// Words behind the last whole token.
    pub rest: Vec<u32>,
}

impl Case {
    fn of(bundle: &Bundle) -> Case {
        Case { text: bundle.text.clone(), triples: bundle.triples(), rest: Vec::new() }
    }

    pub fn words(&self) -> Vec<u32> {
        self.triples.iter().flatten().chain(&self.rest).copied().collect()
    }

    /// As a bundle; a kind that does not fit a byte loses its upper part.
    pub fn to_bytes(&self) -> Vec<u8> {
        let mut bytes = (self.text.len() as u32).to_le_bytes().to_vec();
        bytes.extend_from_slice(&self.text);
        bytes.extend((self.triples.len() as u32).to_le_bytes());
        for [kind, start, end] in &self.triples {
            bytes.push(*kind as u8);
            bytes.extend(start.to_le_bytes());
            bytes.extend(end.to_le_bytes());
        }
        bytes
    }
}

/// The numbers behind one sheet.
pub fn chance(seed: u64, class: usize, number: u64) -> Chance {
    let start = Chance::new(seed ^ (class as u64) << 56).below(usize::MAX) as u64;
    Chance::new(start ^ number.wrapping_mul(0xd134_2543_de82_ef95))
}

pub fn case(seed: u64, class: usize, number: u64, chance: &mut Chance) -> Case {
    let mut case = match CLASSES[class].0 {
        "entry" => entry(chance),
        "deep" => Case::of(&deep(chance)),
        "long" => long(chance),
        "fixed" => Case::of(&fixed()[(number % fixed().len() as u64) as usize]),
        "all" => enumerated(seed, number),
        mode => {
            let size = match mode {
                "short" => chance.pick(&[4, 8, 16]),
                _ => chance.pick(&[8, 24, 40, 120]),
            };
            Case::of(&random(mode, chance, size))
        }
    };
    if chance.one_in(16) {
        case.rest = (0..1 + chance.below(2)).map(|_| chance.below(80) as u32).collect();
    }
    case
}

/// Faults that the entry check finds, those of words that no bundle holds among them.
fn entry(chance: &mut Chance) -> Case {
    let bundle = random("grammatical", chance, 16);
    let mut case = Case::of(&Bundle::from_bytes(&faulty(bundle.clone(), chance)).unwrap_or(bundle));
    if chance.one_in(8) && !case.triples.is_empty() {
        let at = chance.below(case.triples.len());
        case.triples[at][0] |= 1 << (8 + chance.below(24));
    }
    if chance.one_in(64) {
        let filler = if chance.one_in(4) { 0xff } else { b' ' };
        case.text.resize(65_534 + chance.below(3), filler);
    }
    if chance.one_in(64) {
        let count = 4_095 + chance.below(3);
        case.text.resize(count.max(case.text.len()), b' ');
        case.triples = (0..count as u32).map(|i| [2, i, i + 1]).collect();
    }
    case
}

/// Up to and just past the most tokens that may be lent.
fn long(chance: &mut Chance) -> Case {
    let target = chance.pick(&[1_000, 2_000, 4_095, 4_096, 4_097]);
    let mut pieces: Vec<Piece> = Vec::new();
    let harm = chance.below(3);
    while pieces.len() < target {
        let mut more = sheet(chance, 60);
        if harm > 0 && chance.one_in(if harm == 1 { 12 } else { 3 }) {
            damage(&mut more, chance, Taste::Odd);
        }
        pieces.extend(more);
        pieces.push(spell(TokenKind::Eol, Taste::Plain, chance));
    }
    let mut case = Case::of(&lay(&pieces, chance));
    case.triples.truncate(target);
    case
}

fn fixed() -> &'static [Bundle] {
    static FIXED: OnceLock<Vec<Bundle>> = OnceLock::new();
    FIXED.get_or_init(|| [limits(), odd(), texts(include_str!("../texts.txt"))].concat())
}

/// All lists over the kinds that are no trivia and no error, and one of those, the shortest first.
fn enumerated(seed: u64, mut number: u64) -> Case {
    const KINDS_USED: u64 = 67;
    let (mut length, mut lists) = (0, 1);
    while number >= lists {
        number -= lists;
        lists *= KINDS_USED;
        length += 1;
    }
    let mut chance = Chance::new(seed ^ number);
    let mut pieces = Vec::new();
    for _ in 0..length {
        let kind = number % KINDS_USED;
        let kind = if kind == 66 { TokenKind::Unknown } else { KINDS[4 + kind as usize] };
        pieces.push(spell(kind, Taste::Plain, &mut chance));
        number /= KINDS_USED;
    }
    Case::of(&lay(&pieces, &mut chance))
}
