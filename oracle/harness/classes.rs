//! The classes of sheets that are made at random, and the sheets that are made to reach each limit.

use crate::answer::cut;
use crate::bundle::Bundle;
use crate::chance::Chance;
use crate::compiler::token::TokenKind;
use crate::damage::{any, damage, likely};
use crate::grammatical::sheet;
use crate::spell::{Piece, Taste, lay, spell};

/// A sheet of the class `mode`: `grammatical`, `damaged`, `wild` or `short`.
pub fn random(mode: &str, chance: &mut Chance, size: usize) -> Bundle {
    let taste = if mode == "wild" { Taste::Wild } else { Taste::Odd };
    let mut pieces: Vec<Piece>;
    if mode == "short" {
        pieces = (0..1 + chance.below(size)).map(|_| likely(chance, taste)).collect();
        if chance.one_in(8) {
            pieces = pieces.iter().map(|_| any(chance, taste)).collect();
        }
    } else {
        let size = 2 + chance.below(size) as i32;
        pieces = sheet(chance, size);
        if mode == "wild" {
            pieces = pieces.iter().map(|p| respell(p, chance)).collect();
        }
        if mode == "damaged" || mode == "wild" && chance.one_in(2) {
            damage(&mut pieces, chance, taste);
        }
    }
    lay(&pieces, chance)
}

/// Mostly with a fault that the entry check or the lister finds.
pub fn faulty(mut bundle: Bundle, chance: &mut Chance) -> Vec<u8> {
    if bundle.words.is_empty() || chance.one_in(5) {
        let mut bytes = bundle.to_bytes();
        match chance.below(3) {
            0 => bytes.truncate(chance.below(bytes.len())),
            1 => bytes.push(0),
            _ => bytes[chance.below(4)] ^= 1 << chance.below(8),
        }
        return bytes;
    }
    let (count, length) = (bundle.words.len(), bundle.text.len());
    let word = &mut bundle.words[chance.below(count)];
    match chance.below(9) {
        0 => word.kind = 70 + chance.below(12) as u8,
        1 => word.kind = chance.pick(&[7, 8, 9]),
        2 => word.end = word.start,
        3 => std::mem::swap(&mut word.start, &mut word.end),
        4 => word.end += 1 + chance.below(3) as u32,
        5 => word.start = word.start.wrapping_sub(1),
        6 => word.end = u32::MAX - chance.below(2) as u32,
        7 => bundle.text[chance.below(length)] = 0x80 + chance.below(0x80) as u8,
        _ => bundle.text[chance.below(length)] = b'"',
    }
    bundle.to_bytes()
}

fn respell(piece: &Piece, chance: &mut Chance) -> Piece {
    use TokenKind::*;
    let literal = matches!(piece.kind, Float | Str | ByteStr);
    if literal { spell(piece.kind, Taste::Wild, chance) } else { piece.clone() }
}

fn unescape(line: &str) -> String {
    let mut chars = line.chars();
    let mut text = String::new();
    while let Some(c) = chars.next() {
        text.push(match c {
            '\\' => match chars.next() {
                Some('n') => '\n',
                Some('t') => '\t',
                Some('r') => '\r',
                other => other.unwrap_or('\\'),
            },
            c => c,
        });
    }
    text
}

/// The lines of a file, cut by the original's lexer.
pub fn texts(lines: &str) -> Vec<Bundle> {
    lines.lines().map(|line| cut(&unescape(line))).collect()
}

/// What may stand around a sheet, and around that again. Two of them let the parser read what is inside twice.
pub const AROUND: [(&str, &str); 26] = [
    ("(", ")"),
    ("[", "]"),
    ("{0: ", "}"),
    ("do {", "}"),
    ("- (", ")"),
    ("a + (", ")"),
    ("a = {", "}"),
    ("return ", ""),
    ("f(", ")"),
    ("a[", "]"),
    ("x {", "}"),
    ("|a| {", "}"),
    ("fn () {", "}"),
    ("fn f () {", "}"),
    ("glo fn f () {", "}"),
    ("if a {", "}"),
    ("if a {} else {", "}"),
    ("match x { y => ", " }"),
    ("while a {", "}"),
    ("for a in b {", "}"),
    ("loop {", "}"),
    ("try f() with e () {", "}"),
    ("f(a, [b, ", "])"),
    ("x\n", "\ny"),
    ("{(", ")}"),
    ("{({0: 1}, ", ")}"),
];

const MIDDLE: [&str; 16] = [
    "x", "", "1", "+", ")", "a b", "fn f", "a: (((((((((int)))))))))", "match x { [[[[[y]]]]] => 1 }", "{", "}", "import a", "a, b = 1", "x is",
    "f: fn fn fn int) -> int)) = 1", "99999999999999999999",
];

/// A nest of up to 65 levels, near the depth's limit on either side of it.
pub fn deep(chance: &mut Chance) -> Bundle {
    let mut text = chance.pick(&MIDDLE).to_owned();
    let (levels, plain) = (10 + chance.below(56), AROUND.len() - 2);
    let few = chance.one_in(2);
    let kept = [chance.below(plain), chance.below(plain)];
    let mut doubling = 0;
    for _ in 0..levels {
        let mut row = if few { chance.pick(&kept) } else { chance.below(AROUND.len()) };
        if row >= plain {
            doubling += 1;
            row = if doubling > 6 { 0 } else { row };
        }
        text = format!("{}{text}{}", AROUND[row].0, AROUND[row].1);
    }
    cut(&text)
}

/// Sheets for refusal 9. Each row: what is repeated before, the middle, what is repeated behind, and how often.
fn nests() -> Vec<String> {
    let rows: [(&str, &str, &str, [usize; 2]); 8] = [
        ("(", "x", ")", [62, 63]),
        ("[", "x", "]", [62, 63]),
        ("{0: ", "x", "}", [62, 63]),
        ("do {", "x", "}", [31, 32]),
        ("- (", "x", ")", [62, 63]),
        ("a + (", "b", ")", [31, 32]),
        ("a = {", "b", "}", [31, 32]),
        ("return ", "x )", "", [62, 63]),
    ];
    let nest = |head: &str, before: &str, middle: &str, behind: &str, count: usize| {
        head.to_owned() + &before.repeat(count) + middle + &behind.repeat(count)
    };
    let mut texts = Vec::new();
    for (before, middle, behind, counts) in rows {
        texts.extend(counts.map(|count| nest("", before, middle, behind, count)));
    }
    texts.extend([63, 64].map(|count| nest("a: ", "(", "int", ")", count - 1) + " = 1"));
    texts.extend([61, 62].map(|count| nest("match x { ", "[", "y", "]", count) + " => 1 }"));
    texts
}

/// Sheets for refusal 7: room used up, given back by a failed statement, and held for a while by an attempt.
fn room() -> Vec<String> {
    let chain = |n: usize| "x".to_owned() + &".b".repeat(n);
    let params = |n: usize| "fn f (".to_owned() + &"a:b,".repeat(n) + ")";
    vec![
        chain(511),
        chain(512),
        format!("{} +\n{}", chain(400), chain(300)),
        format!("{} +", chain(511)),
        format!("{} +", chain(512)),
        format!("x\n{{({})}}", chain(507)),
        format!("x\n{{({})}}", chain(509)),
        params(341),
        params(342),
        format!("x\n{}", params(341)),
    ]
}

/// Sheets for refusal 8: sixteen errors or one more, 1,024 expected kinds or one more.
fn errors() -> Vec<String> {
    let kinds = "return ".repeat(60) + "x )\n" + &")\n".repeat(10) + "(x x\n(x x\nimport a::1\n";
    let mut texts = vec![")\n".repeat(16), ")\n".repeat(17), "}\n".repeat(16) + "x", "}\n".repeat(16) + "fn f"];
    texts.extend(["", "try x", "import 1", "(x"].map(|last| kinds.clone() + last));
    // The same inside an attempt, which is undone in the end and logs them again.
    texts.extend([16, 17].map(|count| "{({".to_owned() + &")\n".repeat(count) + "})}"));
    texts
}

/// Sheets for refusal 10: `readings` in all. A nest of n blocks and groups costs 7 * 2^n - 6.
fn readings(mut readings: usize) -> String {
    let mut text = String::new();
    for n in (0..14).rev() {
        let cost = 7 * (1 << n) - 6;
        while readings > cost {
            text += &("{(".repeat(n) + "x" + &")}".repeat(n) + "\n");
            readings -= cost + 1;
        }
    }
    text + if readings == 1 { "x" } else { "" }
}

/// Sheets just below and just above each limit of the lister.
pub fn limits() -> Vec<Bundle> {
    let mut texts = nests();
    texts.extend(room());
    texts.extend(errors());
    texts.extend([100_000, 100_001, 99_999].map(readings));
    texts.extend(["{(".repeat(14) + "x" + &")}".repeat(14), "x\n".repeat(740)]);
    texts.iter().map(|text| cut(text)).collect()
}
