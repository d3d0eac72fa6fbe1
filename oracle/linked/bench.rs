//! bench times: how long the library and the original take for a token, on the same sheets. A row for each class and size.
//! bench counted: runs each side once over the sheets of each row, for callgrind to count: `counted` is what it collects and dumps at.
//! bench once CLASS SIZE [WORD]: the original alone on the sheets that `write` writes for that row, run with a word and only made without: what it executes with
//! one less what it executes without is what the original does.
//! bench write FOLDER: the sheets of each row as once.c reads them, CLASS-SIZE for buffers just large enough, CLASS-SIZE-lister for those that the lister lends,
//! CLASS-SIZE-large for large ones.
//!
//! A token is one of the list, trivia too. All sheets are inside the domain and are read. The library checks text and tokens first, which the original
//! does not; the original builds a tree on the heap and drops it, with names as strings of their own (its interner is not at hand).

use std::{env, fs, hint::black_box, time::Instant};

use lucia::{
    answer::{Mark, Outcome, cut, read},
    bundle::Bundle,
    chance::Chance,
    compiler::{bare::parse_tokens, interning::Plain, token::TokenKind},
    damage::damage,
    entry::{Sheet, enter},
    grammatical::sheet,
    probe::{Limits, WIDEST},
    records::{ERROR_WORDS, NODE_WORDS},
    spell::{Piece, Taste, lay, spell},
};

#[cfg(not(alone))]
mod ours;

const SIZES: [usize; 3] = [100, 1_000, 4_096];
const CLASSES: [&str; 5] = ["grammatical", "damaged", "flat", "nested", "attempts"];

/// What a caller may lend besides what a sheet needs: words of node and error records, and expected kinds. Nothing more; what the lister lends; the most that counts.
const LENT: [(&str, [usize; 3]); 3] = [
    ("", [0, 0, 0]),
    ("-lister", [1_024 * NODE_WORDS, 16 * ERROR_WORDS, 1_024]),
    ("-large", [8_192 * NODE_WORDS, 64 * ERROR_WORDS, 65_536]),
];

/// A sheet of a row, and the buffers that are just large enough for it.
struct Job {
    bundle: Bundle,
    words: Vec<u32>,
    need: [usize; 3],
}

impl Job {
    /// The sizes of the buffers that it is lent, never less than it needs.
    fn lent(&self, least: [usize; 3]) -> [usize; 3] {
        [0, 1, 2].map(|i| self.need[i].max(least[i]))
    }
}

struct Row {
    class: &'static str,
    size: usize,
    jobs: Vec<Job>,
}

/// Puts a list behind another one.
fn append(to: &mut Bundle, from: &Bundle) {
    let base = to.text.len() as u32;
    to.text.extend_from_slice(&from.text);
    for word in &from.words {
        let mut word = *word;
        (word.start, word.end) = (word.start + base, word.end + base);
        to.words.push(word);
    }
}

/// A few lines of the class, with an Eol behind them.
fn lines(class: &str, left: usize, chance: &mut Chance) -> Bundle {
    let levels = 1 + chance.below(55);
    match class {
        "flat" => cut(&(chance.pick(&["a", "tier_2", "x", "points"]).to_owned() + "\n")),
        "nested" => {
            let (open, close) = chance.pick(&[("(", ")"), ("[", "]"), ("f(", ")"), ("a[", "]"), ("{0:", "}")]);
            cut(&(open.repeat(levels) + "x" + &close.repeat(levels) + "\n"))
        }
        "attempts" => cut(chance.pick(&["{(x)}\n", "{(x) + y}\n", "{1}\n", "{({(x)})}\n"])),
        _ => {
            let mut pieces: Vec<Piece> = sheet(chance, if left < 60 { 5 } else { 24 });
            if class == "damaged" && chance.one_in(6) {
                damage(&mut pieces, chance, Taste::Odd);
            }
            pieces.push(spell(TokenKind::Eol, Taste::Plain, chance));
            lay(&pieces, chance)
        }
    }
}

/// A sheet of just so many tokens: lines as long as they fit, then Eols.
fn filled(class: &str, size: usize, chance: &mut Chance) -> Bundle {
    let mut bundle = Bundle::default();
    let mut missed = 0;
    while missed < 20 {
        let more = lines(class, size - bundle.words.len(), chance);
        if bundle.words.len() + more.words.len() > size {
            missed += 1;
        } else {
            append(&mut bundle, &more);
        }
    }
    while bundle.words.len() < size {
        append(&mut bundle, &cut("\n"));
    }
    bundle
}

/// The sheet as a job, where it is inside the domain and read, with errors if and only if it is to be damaged.
fn job(class: &str, bundle: Bundle) -> Option<Job> {
    let limits = Limits { readings: 100_000, ..WIDEST };
    let run = read(&enter(&bundle).ok()?, limits, true);
    let Outcome::Read(reading) = run.outcome else {
        return None;
    };
    if run.mark != Mark::None || reading.1.is_empty() == (class == "damaged") {
        return None;
    }
    let counts = run.counts;
    let need = [
        counts.records_peak as usize * NODE_WORDS,
        counts.errors_peak as usize * ERROR_WORDS,
        counts.expected_peak as usize,
    ];
    Some(Job { words: bundle.triples().into_flattened(), bundle, need })
}

/// Some 16,000 tokens.
fn row(class: &'static str, size: usize) -> Row {
    let mut chance = Chance::new(size as u64);
    let mut jobs = Vec::new();
    while jobs.len() < 16_384_usize.div_ceil(size) {
        jobs.extend(job(class, filled(class, size, &mut chance)));
    }
    Row { class, size, jobs }
}

fn rows() -> Vec<Row> {
    CLASSES.iter().flat_map(|class| SIZES.map(|size| row(class, size))).collect()
}

impl Row {
    fn tokens(&self) -> usize {
        self.jobs.len() * self.size
    }

    fn sheets(&self) -> Vec<Sheet<'_>> {
        self.jobs.iter().map(|job| enter(&job.bundle).ok().expect("it was read")).collect()
    }

    /// The sheets that are counted one instruction at a time: all of the class that the aim speaks of, and of the others fewer than in process, since an emulator's
    /// log has a line for each instruction.
    fn logged(&self) -> usize {
        if self.class == "grammatical" { self.jobs.len() } else { 4_096_usize.div_ceil(self.size) }
    }
}

/// One side of the comparison, once over all sheets of a row. Kept whole for callgrind.
#[inline(never)]
#[unsafe(no_mangle)]
extern "C" fn counted(side: &mut Side) {
    match side {
        Side::Theirs(sheets) => {
            for sheet in sheets.iter() {
                drop(black_box(parse_tokens(Plain, sheet.text, &sheet.tokens)));
            }
        }
        #[cfg(not(alone))]
        Side::Ours(jobs, room, least) => {
            for job in jobs.iter() {
                let [n, e, k] = job.lent(*least);
                let mut lent =
                    ours::Lent { nodes: &mut room.0[..n], errors: &mut room.1[..e], expected: &mut room.2[..k] };
                let mut counts = ours::Counts::default();
                let number = ours::parse(&job.bundle.text, &job.words, u32::MAX, &mut lent, &mut counts);
                assert_eq!(number, 0, "every sheet is read");
                black_box(counts);
            }
        }
    }
}

enum Side<'a> {
    Theirs(Vec<Sheet<'a>>),
    #[cfg(not(alone))]
    Ours(&'a [Job], Box<(Vec<u32>, Vec<u32>, Vec<u8>)>, [usize; 3]),
}

/// The library with each of the buffers, and the original.
fn sides(row: &Row) -> Vec<Side<'_>> {
    let mut sides = Vec::new();
    #[cfg(not(alone))]
    for (_, least) in LENT {
        let [n, e, k] = LENT[2].1;
        let room = Box::new((vec![1; n], vec![1; e], vec![1; k]));
        sides.push(Side::Ours(&row.jobs, room, least));
    }
    sides.push(Side::Theirs(row.sheets()));
    sides
}

fn times() {
    for row in rows() {
        let mut sides = sides(&row);
        let mut best = vec![f64::INFINITY; sides.len()];
        // The best of many short turns, the sides one after the other, so that whatever else the machine does falls on all of them or on none.
        for _ in 0..400 {
            for (side, best) in sides.iter_mut().zip(&mut best) {
                let start = Instant::now();
                counted(side);
                *best = best.min(start.elapsed().as_nanos() as f64 / row.tokens() as f64);
            }
        }
        let best: Vec<String> = best.iter().map(|ns| format!("{ns:.1}")).collect();
        println!("{} {} {}", row.class, row.size, best.join(" "));
    }
}

fn count() {
    for row in rows() {
        for side in &mut sides(&row) {
            counted(side);
        }
        println!("{} {} {}", row.class, row.size, row.tokens());
    }
}

/// Sheets for a program that reads words: how many, and of each the sizes, the text padded to whole words, the tokens.
fn write(folder: &str) {
    fs::create_dir_all(folder).expect("a folder");
    for row in rows() {
        for (name, least) in LENT {
            let jobs = &row.jobs[..row.logged()];
            let mut words = vec![jobs.len() as u32];
            for job in jobs {
                let [n, e, k] = job.lent(least);
                let mut text = job.bundle.text.clone();
                words.extend([text.len(), job.words.len(), n, e, k].map(|size| size as u32));
                text.resize(text.len().next_multiple_of(4), 0);
                words.extend(text.chunks_exact(4).map(|b| u32::from_le_bytes([b[0], b[1], b[2], b[3]])));
                words.extend(&job.words);
            }
            let bytes: Vec<u8> = words.iter().flat_map(|word| word.to_le_bytes()).collect();
            fs::write(format!("{folder}/{}-{}{name}", row.class, row.size), bytes).expect("a file");
        }
        println!("{} {} {}", row.class, row.size, row.logged() * row.size);
    }
}

fn once(class: &str, size: usize, run: bool) {
    let class = CLASSES.into_iter().find(|known| *known == class).expect("a class");
    let row = row(class, size);
    let mut sheets = row.sheets();
    sheets.truncate(row.logged());
    if run {
        counted(&mut Side::Theirs(sheets));
    }
}

fn main() {
    let words: Vec<String> = env::args().skip(1).collect();
    match words.iter().map(String::as_str).collect::<Vec<_>>().as_slice() {
        ["times"] => times(),
        ["counted"] => count(),
        ["once", class, size, run @ ..] => once(class, size.parse().expect("a size"), !run.is_empty()),
        ["write", folder] => write(folder),
        _ => panic!("bench times|counted|once CLASS SIZE [WORD]|write FOLDER"),
    }
}
