//! scale COUNT SEED [CLASS [FIRST]]: the library against the original in one process, on COUNT sheets of all classes, or of one class from the sheet of that number on.
//!
//! Compared are the answer's number, the counts, every word up to the counts, that all past them is zero, and that nothing else is written:
//! lent buffers are filled with garbage before each call and have garbage around them. Outside the domain the document's own rules
//! decide. What is lent changes from sheet to sheet: as much as is needed, a little more, much more, or too little. At the first
//! difference it writes the sheet to difference.bundle, says what differs and fails.

use std::{
    fmt::Write as _,
    fs, panic,
    process::exit,
    sync::atomic::{AtomicU64, AtomicUsize, Ordering::Relaxed},
    thread,
    time::{Duration, Instant},
};

use lucia::{
    answer::{Mark, Outcome, read},
    chance::Chance,
    compiler::{bare, interning::Plain},
    entry::{Sheet, enter_words},
    probe::{self, Limits},
    records::{self, ERROR_WORDS, NODE_WORDS, Words},
};

mod cases;
mod ours;

use cases::{CLASSES, Case, case, chance};

/// The most that counts of what a caller lends, and as many readings as a sheet that reads again and again may take here.
const BASE: Limits = Limits { nodes: 8_192, errors: 64, expected: u64::MAX, depth: 64, readings: 300_000, live: 1_024 };

const GUARD: usize = 16;
const MOST: (usize, usize, usize) = (9_000 * NODE_WORDS, 100 * ERROR_WORDS, 70_000);

/// Sizes of the lent buffers and the allowance.
#[derive(Debug, Clone, Copy)]
struct Sizes {
    nodes: usize,
    errors: usize,
    expected: usize,
    allowance: u32,
}

impl Sizes {
    fn limits(self) -> Limits {
        Limits {
            nodes: (self.nodes / NODE_WORDS).min(8_192) as u64,
            errors: (self.errors / ERROR_WORDS).min(64) as u64,
            expected: self.expected as u64,
            readings: self.allowance.into(),
            ..BASE
        }
    }
}

/// What the library has to answer.
struct Told {
    number: u8,
    reads: u32,
    words: Words,
    mark: Mark,
    /// The longest live list on the way.
    live: u64,
}

fn refused(number: u8, mark: Mark) -> Told {
    Told { number, reads: 0, words: Words::default(), mark, live: 0 }
}

/// The original's answer. Inside the domain the copy without patches has to give the same tree and errors.
fn original(sheet: &Sheet, limits: Limits) -> (Told, probe::Counts) {
    let run = read(sheet, limits, true);
    let mut told = match run.outcome {
        Outcome::Read(reading) => {
            let words = records::of(&reading, &sheet.tokens, &probe::order());
            if run.mark == Mark::None {
                let plain = bare::parse_tokens(Plain, sheet.text, &sheet.tokens);
                assert!(plain == reading, "the patches change the answer");
            }
            Told { reads: run.counts.readings as u32, words, ..refused(0, run.mark) }
        }
        Outcome::Empty(at) => Told { words: records::empty(at), ..refused(0, run.mark) },
        Outcome::Refused(number) => refused(number, run.mark),
        Outcome::Outside => unreachable!("the rule decides"),
    };
    told.live = run.counts.live_peak;
    (told, run.counts)
}

/// Sizes that leave the answer as it is, some of them just so.
fn enough(counts: &probe::Counts, chance: &mut Chance) -> Sizes {
    let (nodes, errors) = (counts.records_peak as usize, counts.errors_peak as usize);
    let mut more = |most: usize| if chance.one_in(2) { 0 } else { chance.below(most) };
    let mut sizes = Sizes {
        nodes: nodes * NODE_WORDS + more(40),
        errors: errors * ERROR_WORDS + more(20),
        expected: counts.expected_peak as usize + more(40),
        allowance: counts.readings.min(BASE.readings) as u32 + more(20) as u32,
    };
    if counts.readings > BASE.readings {
        sizes.allowance = BASE.readings as u32;
    }
    if chance.one_in(100) {
        (sizes.nodes, sizes.errors, sizes.expected) = MOST;
    }
    if chance.one_in(100) && counts.readings <= BASE.readings {
        sizes.allowance = u32::MAX;
    }
    sizes
}

/// One of the sizes, or all, below what is needed.
fn too_little(sizes: &mut Sizes, chance: &mut Chance) {
    let which = chance.below(5);
    let mut less = |size: usize, unit: usize| match chance.below(4) {
        0 => 0,
        1 | 2 => size.saturating_sub(1 + chance.below(2 * unit)),
        _ => chance.below(size + 1),
    };
    if which == 0 || which == 4 {
        sizes.nodes = less(sizes.nodes, NODE_WORDS);
    }
    if which == 1 || which == 4 {
        sizes.errors = less(sizes.errors, ERROR_WORDS);
    }
    if which == 2 || which == 4 {
        sizes.expected = less(sizes.expected, 8);
    }
    if which == 3 || which == 4 {
        sizes.allowance = less(sizes.allowance.min(BASE.readings as u32) as usize, 2) as u32;
    }
}

/// Room for all that is lent, with garbage around it.
struct Room {
    nodes: Vec<u32>,
    errors: Vec<u32>,
    expected: Vec<u8>,
}

/// Never zero, so that what is not cleared shows.
fn garbage(i: usize) -> u32 {
    0xa5c3_0001 | (i as u32) << 1
}

/// What differs first, if anything does.
fn differs(room: &Room, sizes: Sizes, told: &Told, number: u8, counts: ours::Counts) -> Option<String> {
    if number != told.number {
        return Some(format!("answer {number}, not {}", told.number));
    }
    let expected = ours::Counts {
        reads: told.reads,
        nodes: (told.words.nodes.len() / NODE_WORDS) as u32,
        errors: (told.words.errors.len() / ERROR_WORDS) as u32,
        expected: told.words.expected.len() as u32,
    };
    if counts != expected {
        return Some(format!("counts {counts:?}, not {expected:?}"));
    }
    let untouched = (1..7).contains(&number);
    let lent = |i: usize, size: usize| (GUARD..GUARD + size).contains(&i);
    let word = |i: usize, size: usize, told: &[u32]| match i {
        i if !lent(i, size) || untouched => garbage(i),
        i => told.get(i - GUARD).copied().unwrap_or(0),
    };
    for (name, unit, buffer, size, words) in [
        ("node", NODE_WORDS, &room.nodes, sizes.nodes, &told.words.nodes),
        ("error", ERROR_WORDS, &room.errors, sizes.errors, &told.words.errors),
    ] {
        let found = (0..size + 2 * GUARD).find(|i| buffer[*i] != word(*i, size, words));
        if let Some(i) = found {
            let at = i as i64 - GUARD as i64;
            let (record, place) = (at.div_euclid(unit as i64), at.rem_euclid(unit as i64));
            return Some(format!("word {place} of {name} record {record} is {}, not {}", buffer[i], word(i, size, words)));
        }
    }
    let byte = |i: usize| match i {
        i if !lent(i, sizes.expected) || untouched => garbage(i) as u8 | 1,
        i => told.words.expected.get(i - GUARD).copied().unwrap_or(0),
    };
    let found = (0..sizes.expected + 2 * GUARD).find(|i| room.expected[*i] != byte(*i));
    found.map(|i| format!("expected byte {} is {}, not {}", i as i64 - GUARD as i64, room.expected[i], byte(i)))
}

/// Calls the library on a case and compares.
fn compare(room: &mut Room, case: &Case, sizes: Sizes, told: &Told) -> Option<String> {
    let fill = |buffer: &mut [u32]| buffer.iter_mut().enumerate().for_each(|(i, word)| *word = garbage(i));
    fill(&mut room.nodes[..sizes.nodes + 2 * GUARD]);
    fill(&mut room.errors[..sizes.errors + 2 * GUARD]);
    let bytes = &mut room.expected[..sizes.expected + 2 * GUARD];
    bytes.iter_mut().enumerate().for_each(|(i, byte)| *byte = garbage(i) as u8 | 1);
    let mut counts = ours::Counts { reads: garbage(1), nodes: garbage(2), errors: garbage(3), expected: garbage(4) };
    let (text, tokens) = (case.text.clone(), case.words());
    let kept = tokens.clone();
    let mut lent = ours::Lent {
        nodes: &mut room.nodes[GUARD..GUARD + sizes.nodes],
        errors: &mut room.errors[GUARD..GUARD + sizes.errors],
        expected: &mut room.expected[GUARD..GUARD + sizes.expected],
    };
    let number = ours::parse(&text, &tokens, sizes.allowance, &mut lent, &mut counts);
    if text != case.text || tokens != kept {
        return Some("the text or the tokens are written".to_owned());
    }
    differs(room, sizes, told, number, counts)
}

#[derive(Default)]
struct Tally {
    equal: u64,
    numbers: [u64; 12],
    faulty: u64,
    outside: [u64; 3],
}

impl Tally {
    fn note(&mut self, told: &Told) {
        self.equal += 1;
        self.numbers[usize::from(told.number)] += 1;
        self.faulty += u64::from(!told.words.errors.is_empty());
        match told.mark {
            Mark::None => {}
            Mark::Attempt => self.outside[0] += 1,
            Mark::Literal => self.outside[1] += 1,
            Mark::Trivia => self.outside[2] += 1,
        }
    }

    fn line(&self, class: &str) -> String {
        let refusals: Vec<String> = (1..12)
            .filter(|n| self.numbers[*n] > 0)
            .map(|n| format!("{n}: {}", self.numbers[n]))
            .collect();
        let refusals = if refusals.is_empty() { "–".to_owned() } else { refusals.join(", ") };
        let [attempt, literal, trivia] = self.outside;
        let (read, faulty) = (self.numbers[0], self.faulty);
        format!("| {class} | {0} | {0} | {1} | {faulty} | {refusals} | {attempt}, {literal}, {trivia} |", self.equal, read - faulty)
    }
}

/// Where the process is, for whoever finds it stuck or shot down.
static AT: (AtomicU64, AtomicUsize, AtomicU64) = (AtomicU64::new(0), AtomicUsize::new(0), AtomicU64::new(0));

fn place() -> (u64, usize, u64) {
    (AT.0.load(Relaxed), AT.1.load(Relaxed), AT.2.load(Relaxed))
}

/// Writes the sheet that the process is at, and says why.
fn report(why: &str) {
    let (seed, class, number) = place();
    let bytes = case(seed, class, number, &mut chance(seed, class, number)).to_bytes();
    let mut text = format!("sheet {number} of class {}, seed {seed}: {why}\n", CLASSES[class].0);
    writeln!(text, "again: scale 1 {seed} {} {number}", CLASSES[class].0).expect("a string has room");
    eprint!("DIFFERENT: {text}");
    let written = fs::write("difference.bundle", bytes).and_then(|()| fs::write("difference.txt", text));
    eprintln!("its bundle is in difference.bundle: {}", if written.is_ok() { "written" } else { "NOT written" });
}

/// A library that never answers is found out too.
fn watch() {
    thread::spawn(|| {
        let mut last = place();
        loop {
            thread::sleep(Duration::from_secs(20));
            if place() == last {
                report("no answer within 20 seconds");
                exit(1);
            }
            last = place();
        }
    });
}

#[repr(C)]
struct Action {
    handler: extern "C" fn(i32),
    mask: [u64; 16],
    flags: i32,
    restorer: usize,
}

unsafe extern "C" {
    fn sigaction(signal: i32, action: *const Action, old: *mut Action) -> i32;
}

extern "C" fn shot(signal: i32) {
    report(&format!("signal {signal}"));
    exit(1);
}

/// So are the harness's own doubts: that the records are in the order of building, that the patches change nothing.
fn doubt() {
    panic::set_hook(Box::new(|what| {
        report(&what.to_string());
        exit(1);
    }));
}

/// A library that faults is found out: after the report nothing goes on, so the handler may do what handlers may not.
fn catch() {
    const ON_STACK: i32 = 0x0800_0000;
    for signal in [4, 6, 7, 8, 11] {
        let action = Action { handler: shot, mask: [0; 16], flags: ON_STACK, restorer: 0 };
        unsafe { sigaction(signal, &action, std::ptr::null_mut()) };
    }
}

fn one(room: &mut Room, seed: u64, class: usize, number: u64) -> Result<Told, String> {
    let mut chance = chance(seed, class, number);
    let case = case(seed, class, number, &mut chance);
    let (told, sizes) = match enter_words(&case.text, &case.triples) {
        Err(number) => {
            let sizes = enough(&probe::Counts { records_peak: chance.below(3) as u64, ..Default::default() }, &mut chance);
            (refused(number, Mark::None), sizes)
        }
        Ok(sheet) => {
            let (mut told, counts) = original(&sheet, BASE);
            let mut sizes = enough(&counts, &mut chance);
            if chance.one_in(5) {
                too_little(&mut sizes, &mut chance);
                told = original(&sheet, sizes.limits()).0;
            }
            (told, sizes)
        }
    };
    match compare(room, &case, sizes, &told) {
        None => Ok(told),
        Some(why) => Err(format!("{why}; lent {sizes:?}, {} tokens, text {:?}", case.triples.len(), String::from_utf8_lossy(&case.text))),
    }
}

fn main() {
    let words: Vec<String> = std::env::args().skip(1).collect();
    let number = |i: usize, or: u64| words.get(i).map_or(or, |word| word.parse().expect("a number"));
    let (count, seed, first) = (number(0, 1_000_000), number(1, 1), number(3, 0));
    catch();
    doubt();
    watch();
    let mut room = Room {
        nodes: vec![0; MOST.0 + 2 * GUARD],
        errors: vec![0; MOST.1 + 2 * GUARD],
        expected: vec![0; MOST.2 + 2 * GUARD],
    };
    println!("| class | compared | equal | read without errors | read with | refused | outside: attempt, literal, trivia |");
    println!("|---|---|---|---|---|---|---|");
    let (start, mut all, mut live) = (Instant::now(), 0, 0);
    for (class, (name, share)) in CLASSES.iter().enumerate() {
        if words.get(2).is_some_and(|only| only != name) {
            continue;
        }
        let share = if words.len() > 2 { count } else { (count * share).div_ceil(1_000) };
        let mut tally = Tally::default();
        for number in first..first + share {
            AT.0.store(seed, Relaxed);
            AT.1.store(class, Relaxed);
            AT.2.store(number, Relaxed);
            match one(&mut room, seed, class, number) {
                Ok(told) => {
                    live = live.max(told.live);
                    tally.note(&told);
                }
                Err(why) => {
                    report(&why);
                    exit(1);
                }
            }
        }
        all += share;
        println!("{}", tally.line(name));
    }
    let seconds = start.elapsed().as_secs_f64();
    println!("\nlongest live list: {live} kinds");
    println!("{all} sheets compared, all equal, seed {seed}: {seconds:.0} s, {:.0} sheets a second", all as f64 / seconds);
}
