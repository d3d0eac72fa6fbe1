//! Writes the cases of `crates/entry_cases` to standard output, each with the answer that the entry check has to give.
//! Whether a text is UTF-8 and where its characters start is what Rust's own library says. Every case whose outcome
//! is written down here by hand is also put to `answer`, and the two have to agree.

use std::io::Write;

/// A text is `fill` repeated `times`, then `tail`; its tokens are `run` tokens of kind `kind`, one byte each from 0 on, then `words`.
#[derive(Clone, Default)]
struct Case {
    fill: u8,
    times: u32,
    tail: Vec<u8>,
    kind: u32,
    run: u32,
    words: Vec<u32>,
}

impl Case {
    fn text(&self) -> Vec<u8> {
        let mut text = vec![self.fill; self.times as usize];
        text.extend(&self.tail);
        text
    }

    fn tokens(&self) -> Vec<u32> {
        let mut tokens: Vec<u32> = (0..self.run).flat_map(|i| [self.kind, i, i + 1]).collect();
        tokens.extend(&self.words);
        tokens
    }
}

/// The entry check by Rust's strings.
fn answer(text: &[u8], tokens: &[u32]) -> u8 {
    if text.len() > 65_535 {
        return 1;
    }
    if tokens.len() / 3 > 4_096 {
        return 2;
    }
    let Ok(text) = std::str::from_utf8(text) else {
        return 3;
    };
    let mut last = 0;
    for token in tokens.chunks_exact(3) {
        let (kind, start, end) = (token[0], token[1] as usize, token[2] as usize);
        if kind > 78 || kind == 70 {
            return 4;
        }
        // `get` gives nothing where a range ends before its start, leaves the text or cuts a character
        let part = match text.get(start..end) {
            Some(part) if !part.is_empty() && start >= last => part,
            _ => return 5,
        };
        let string = match kind {
            7 => Some(part),
            8 => part.strip_prefix('r'),
            9 => part.strip_prefix('b'),
            _ => Some("\"\""),
        };
        let quoted = |s: &str, quote| s.len() >= 2 && s.starts_with(quote) && s.ends_with(quote);
        if !string.is_some_and(|s| quoted(s, '"') || quoted(s, '\'')) {
            return 6;
        }
        last = end;
    }
    0
}

#[derive(Default)]
struct Cases {
    out: Vec<u8>,
    count: usize,
}

impl Cases {
    /// A case whose answer is Rust's.
    fn ask(&mut self, case: &Case) -> u8 {
        let want = answer(&case.text(), &case.tokens());
        self.out.push(want);
        self.out.push(case.fill);
        for count in [case.times, case.tail.len() as u32] {
            self.out.extend(count.to_le_bytes());
        }
        self.out.extend(&case.tail);
        for count in [case.kind, case.run, case.words.len() as u32] {
            self.out.extend(count.to_le_bytes());
        }
        for word in &case.words {
            self.out.extend(word.to_le_bytes());
        }
        self.count += 1;
        want
    }

    /// A case whose answer is written down.
    fn tell(&mut self, want: u8, case: &Case) {
        let found = self.ask(case);
        assert_eq!(want, found, "case {}: {:?} {:?}", self.count, case.tail, case.words);
    }

    fn bytes(&mut self, text: &[u8]) -> u8 {
        self.ask(&Case { tail: text.to_vec(), ..Case::default() })
    }

    fn words(&mut self, want: u8, text: &[u8], words: &[u32]) {
        self.tell(want, &Case { tail: text.to_vec(), words: words.to_vec(), ..Case::default() });
    }
}

const TAIL: (u8, u8) = (0x80, 0xBF);

/// The rows of RFC 3629, section 4.
fn rows() -> Vec<Vec<(u8, u8)>> {
    vec![
        vec![(0x00, 0x7F)],
        vec![(0xC2, 0xDF), TAIL],
        vec![(0xE0, 0xE0), (0xA0, 0xBF), TAIL],
        vec![(0xE1, 0xEC), TAIL, TAIL],
        vec![(0xED, 0xED), (0x80, 0x9F), TAIL],
        vec![(0xEE, 0xEF), TAIL, TAIL],
        vec![(0xF0, 0xF0), (0x90, 0xBF), TAIL, TAIL],
        vec![(0xF1, 0xF3), TAIL, TAIL, TAIL],
        vec![(0xF4, 0xF4), (0x80, 0x8F), TAIL, TAIL],
    ]
}

/// The sequences of a row with each byte at one end of its range.
fn ends(row: &[(u8, u8)]) -> Vec<Vec<u8>> {
    row.iter().fold(vec![vec![]], |done, &(low, high)| {
        done.iter().flat_map(|s: &Vec<u8>| [low, high].map(|b| [&s[..], &[b]].concat())).collect()
    })
}

fn utf8(cases: &mut Cases) {
    for row in rows() {
        for sequence in ends(&row) {
            assert_eq!(cases.bytes(&sequence), 0);
            // between other characters, cut short, cut short before another, and with a tail too many
            assert_eq!(cases.bytes(&[b"a", &sequence[..], "é".as_bytes()].concat()), 0);
            for cut in 1..sequence.len() {
                assert_eq!(cases.bytes(&sequence[..cut]), 3);
                assert_eq!(cases.bytes(&[&sequence[..cut], b"a"].concat()), 3);
                assert_eq!(cases.bytes(&sequence[cut..]), 3);
            }
            assert_eq!(cases.bytes(&[&sequence[..], &[0x80]].concat()), 3);
        }
        // each byte just outside its range: another row's, or none's
        for at in 0..row.len() {
            let middle: Vec<u8> = row.iter().map(|&(low, _)| low).collect();
            for b in [row[at].0.wrapping_sub(1), row[at].1.wrapping_add(1)] {
                let mut damaged = middle.clone();
                damaged[at] = b;
                cases.bytes(&damaged);
            }
        }
    }
    for b in 0x80..=0xFF {
        assert_eq!(cases.bytes(&[b]), 3);
    }
    // overlong forms, surrogates, numbers above 10FFFF, and the forms of five and six bytes
    for damaged in [
        &[0xC0, 0x80][..], &[0xC0, 0xBF], &[0xC1, 0x80], &[0xC1, 0xBF], &[0xE0, 0x80, 0x80], &[0xE0, 0x9F, 0xBF],
        &[0xF0, 0x80, 0x80, 0x80], &[0xF0, 0x8F, 0xBF, 0xBF], &[0xED, 0xA0, 0x80], &[0xED, 0xAF, 0xBF], &[0xED, 0xB0, 0x80],
        &[0xED, 0xBF, 0xBF], &[0xED, 0xA0, 0xBD, 0xED, 0xB8, 0x80], &[0xF4, 0x90, 0x80, 0x80], &[0xF4, 0xBF, 0xBF, 0xBF],
        &[0xF5, 0x80, 0x80, 0x80], &[0xF7, 0xBF, 0xBF, 0xBF], &[0xF8, 0x88, 0x80, 0x80, 0x80], &[0xFC, 0x84, 0x80, 0x80, 0x80, 0x80],
        &[0xFE], &[0xFF], &[0x61, 0xFF, 0x62],
    ] {
        assert_eq!(cases.bytes(damaged), 3);
    }
    for text in ["", "a", "\0", "\u{7F}\u{80}\u{7FF}\u{800}\u{D7FF}\u{E000}\u{FFFD}\u{FFFF}\u{10000}\u{10FFFF}", "\u{FEFF}x", "punkt · Ünïté 点 🎁"] {
        assert_eq!(cases.bytes(text.as_bytes()), 0);
    }
}

fn limits(cases: &mut Cases) {
    let text = |times, tail: &[u8]| Case { fill: b'a', times, tail: tail.to_vec(), ..Case::default() };
    for (want, times) in [(0, 65_534), (0, 65_535), (1, 65_536), (1, 65_537)] {
        cases.tell(want, &text(times, b""));
    }
    // whole and cut characters at the limit
    cases.tell(0, &text(65_531, "🎁".as_bytes()));
    cases.tell(1, &text(65_532, "🎁".as_bytes()));
    cases.tell(3, &text(65_532, &"🎁".as_bytes()[..3]));
    let tokens = |run, words: &[u32]| Case { fill: b'a', times: 5_000, kind: 4, run, words: words.to_vec(), ..Case::default() };
    for (want, run) in [(0, 0), (0, 4_095), (0, 4_096), (2, 4_097)] {
        cases.tell(want, &tokens(run, &[]));
    }
    // words that make no whole token do not count
    for words in [&[99][..], &[99, 0]] {
        cases.tell(0, &tokens(4_096, words));
        cases.words(0, b"ab", &[&[4, 0, 1][..], words].concat());
        cases.words(0, b"", words);
    }
    cases.tell(2, &tokens(4_096, &[4, 4_096, 4_097]));
    cases.tell(0, &tokens(4_095, &[4, 4_998, 5_000]));
    cases.tell(5, &tokens(4_095, &[4, 4_999, 5_001]));
    // the last byte of the longest text
    let last = |word: u32| Case { words: vec![4, 65_534, word], ..text(65_535, b"") };
    cases.tell(0, &last(65_535));
    cases.tell(5, &last(65_536));
}

fn kinds(cases: &mut Cases) {
    for kind in 0..=82 {
        let text: &[u8] = match kind {
            7 => b"\"x\"",
            8 => b"r''",
            9 => b"b''",
            _ => b"abc",
        };
        cases.words(if kind == 70 || kind > 78 { 4 } else { 0 }, text, &[kind, 0, 3]);
    }
    // wide words are not cut to a byte
    for kind in [127, 128, 255, 256, 256 + 4, 256 + 7, 65_536 + 4, 1 << 31, u32::MAX] {
        cases.words(4, b"abc", &[kind, 0, 3]);
    }
}

fn ranges(cases: &mut Cases) {
    let text = b"abcdef";
    for start in 0..=7 {
        for end in 0..=7 {
            cases.words(if start < end && end <= 6 { 0 } else { 5 }, text, &[4, start, end]);
        }
    }
    for (start, end) in [(0, u32::MAX), (u32::MAX, u32::MAX), (u32::MAX, 0), (1 << 31, (1 << 31) + 1), (0, 65_536 + 1), (65_536, 65_536 + 1)] {
        cases.words(5, text, &[4, start, end]);
    }
    cases.words(5, b"", &[4, 0, 0]);
    cases.words(5, b"", &[4, 0, 1]);
    // after a token from 1 to 3
    for start in 0..=5 {
        cases.words(if start >= 3 { 0 } else { 5 }, text, &[4, 1, 3, 4, start, 6]);
    }
    cases.words(0, text, &[4, 0, 1, 4, 1, 2, 4, 2, 6]);
    cases.words(5, text, &[4, 0, 4, 4, 4, 5, 4, 4, 6]);
    cases.words(5, text, &[4, 0, 2, 4, 4, 6, 4, 2, 4]);
    // each place of a text with characters of one to four bytes, as a start and as an end
    let wide = "aé点🎁z";
    let size = wide.len() as u32;
    for at in 0..=size {
        let want = if wide.is_char_boundary(at as usize) { 0 } else { 5 };
        if at < size {
            cases.words(want, wide.as_bytes(), &[4, at, size]);
        }
        if at > 0 {
            cases.words(want, wide.as_bytes(), &[4, 0, at]);
        }
        if at > 0 && at < size {
            cases.words(want, wide.as_bytes(), &[4, 0, at, 4, at, size]);
        }
    }
}

fn quotes(cases: &mut Cases) {
    let good: [&str; 8] = ["\"\"", "''", "\"a\"", "'a'", "\"'\"", "'\"'", "\"🎁\"", "\"\"\"\""];
    let bad: [&str; 14] = ["\"", "'", "a", "ab", "\"a", "a\"", "\"'", "'\"", "`a`", "\"a'", "'a\"", "a\"\"", "\"\"a", "é"];
    for (kind, letter, other) in [(7, "", "r"), (8, "r", "b"), (9, "b", "r")] {
        let mut case = |want, text: String| cases.words(want, text.as_bytes(), &[kind, 0, text.len() as u32]);
        for s in good {
            case(0, format!("{letter}{s}"));
            case(6, format!("{other}{s}"));
            case(6, format!("{}{s}", if kind == 7 { "b" } else { "" }));
            case(6, format!("R{s}"));
        }
        for s in bad {
            case(6, format!("{letter}{s}"));
        }
        if kind != 7 {
            case(6, letter.to_string());
            case(6, format!("{letter}{letter}\"\""));
        }
        // a part of a longer text: the quotes are those of the range
        let longer = format!("\"{letter}'x'\"");
        let n = longer.len() as u32;
        cases.words(0, longer.as_bytes(), &[kind, 1, n - 1]);
        cases.words(6, longer.as_bytes(), &[kind, 1, n]);
        cases.words(6, longer.as_bytes(), &[kind, 1, n - 2]);
    }
    // other kinds need no quotes
    for kind in [0, 4, 6, 10, 71, 76, 77, 78] {
        cases.words(0, b"\"", &[kind, 0, 1]);
    }
}

/// Sheets to which several refusals apply: the one that is tried first is given.
fn orders(cases: &mut Cases) {
    for mask in 0..64u32 {
        let has = |n: u32| mask >> (n - 1) & 1 == 1;
        let case = Case {
            fill: b'a',
            times: if has(1) { 65_536 } else { 9 },
            tail: if has(3) { vec![0xFF] } else { vec![] },
            kind: 4,
            run: if has(2) { 4_097 } else { 0 },
            words: if has(4) || has(5) || has(6) {
                vec![if has(4) { 79 } else if has(6) { 7 } else { 4 }, 2, if has(5) { 2 } else { 4 }]
            } else {
                vec![]
            },
        };
        // 5 leaves a Str no bytes, which 6 would refuse too
        cases.tell((1..=6).find(|&n| has(n)).unwrap_or(0) as u8, &case);
    }
    // two bad tokens: the first decides, whatever its fault
    let faults: [(u8, [u32; 2]); 4] = [(0, [4, 1]), (4, [70, 1]), (5, [4, 0]), (6, [7, 1])];
    for (first, [kind, size]) in faults {
        for (second, [next, more]) in faults {
            let want = if first > 0 { first } else { second };
            cases.words(want, b"abcd", &[kind, 0, size, next, 2, 2 + more]);
        }
    }
}

fn main() {
    let mut cases = Cases::default();
    utf8(&mut cases);
    limits(&mut cases);
    kinds(&mut cases);
    ranges(&mut cases);
    quotes(&mut cases);
    orders(&mut cases);
    std::io::stdout().write_all(&cases.out).unwrap();
    eprintln!("{} cases, {} bytes", cases.count, cases.out.len());
}
