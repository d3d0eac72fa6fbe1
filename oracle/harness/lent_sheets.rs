//! Sheets that are made for what is lent with them: two limits short at once, each record and each error at its moment, buffers of no
//! whole number of records, the most that counts and one more, refusals before the parser is called. Which answer is right is said by the original.

use std::collections::BTreeSet;

use crate::answer::{self, Outcome, cut};
use crate::bundle::{Bundle, Word};
use crate::entry::enter;
use crate::lent::{Lent, needs};
use crate::probe::{Counts, Limits, WIDEST, order};
use crate::records::{ERROR_WORDS, NODE_WORDS, TABLE_TY_OTHER};

/// A bundle, what is lent with it, and why.
pub struct Lending {
    pub lent: Lent,
    pub bundle: Bundle,
    pub why: String,
}

fn row(text: &str, lent: Lent, why: &str) -> Lending {
    Lending { lent, bundle: cut(text), why: why.to_owned() }
}

/// How the original ends under these limits: a refusal's number, if it is one, and the counts at that moment.
fn end(bundle: &Bundle, limits: Limits) -> (Option<u8>, Counts) {
    let run = answer::read(&enter(bundle).expect("it passes the entry check"), limits, true);
    match run.outcome {
        Outcome::Refused(number) => (Some(number), run.counts),
        _ => (None, run.counts),
    }
}

fn all_needs(bundle: &Bundle) -> Counts {
    needs(&enter(bundle).expect("it passes the entry check"))
}

/// The kinds of the records of a sheet that is read without errors.
fn kinds(bundle: &Bundle) -> Vec<u32> {
    let run = answer::read(&enter(bundle).expect("it passes the entry check"), WIDEST, true);
    let errors = if let Outcome::Read(reading) = run.outcome { reading.1 } else { panic!("it is read") };
    assert!(errors.is_empty(), "{}: {errors:?}", String::from_utf8_lossy(&bundle.text));
    order().iter().map(|(kind, _)| *kind).collect()
}

/// What a sheet needs, no more.
fn just(bundle: &Bundle) -> Lent {
    let counts = all_needs(bundle);
    Lent::whole(counts.records_peak, counts.errors_peak, counts.expected_peak, counts.readings)
}

/// Each construct, as short as it is; every kind of record is among theirs.
const CONSTRUCTS: [&str; 54] = [
    // a literal and a name: the slips (a) and (b); a key in parentheses: the slip (c)
    "1", "x", "{(x): 1}",
    "null", "true", "1.5", "\"s\"", "r's'", "b\"s\"", "(x)", "{}", "{1:x}", "{\"k\":1,}", "[x]", "-x", "not x", "a+b", "x is int",
    "a.b", "a::b", "a[b]", "a?.b", "a[#]", "f(a)", "f{}", "f(){}", "try f{}with e(){}", "try f()with e(a,...b){}",
    "if a{}else{}", "if a{}else if b{}", "match x{[a,...]|1=>b}", "match x{{1:a,...}=>b}", "loop{}", "while a{}", "for a,b in c{}",
    "break", "continue", "return x", "import a::b as c", "import a::{b as c}", "import a::*", "glo x:a=1",
    "x=1", "x:a=1", "x+=1", "a.b=1", "a,b=c", "a,b=1,2", "fn f(a:b,...c)->d{}", "glo effect e(a)->b", "|a|->b{}", "do{}",
    "x:{a:b,[c]:(d)}=1", "x:fn a,...b)->c|null=1",
];

/// Each record at its moment: there is room for those before it, and either all readings before it are allowed, so that it is refused for its room, or one
/// less, so that it is refused for its readings. A record that comes before its last reading, or after the next, shows.
fn record_moments() -> Vec<Lending> {
    let built: BTreeSet<u32> = CONSTRUCTS.iter().flat_map(|text| kinds(&cut(text))).collect();
    assert!(built.into_iter().eq(1..=TABLE_TY_OTHER), "every kind of record");
    let mut rows = Vec::new();
    for text in CONSTRUCTS {
        let bundle = cut(text);
        let most = all_needs(&bundle).records_peak;
        for room in 0..most {
            let (number, counts) = end(&bundle, Limits { nodes: room, ..WIDEST });
            assert_eq!(number, Some(7), "{text}");
            let why = format!("record {} of {text}", room + 1);
            let lent = |readings| Lent::whole(room, 1, 64, readings);
            rows.push(row(text, lent(counts.readings), &format!("{why}: no room, the next reading is not allowed")));
            if counts.readings > 0 {
                rows.push(row(text, lent(counts.readings - 1), &format!("{why}: no room, the reading before it is not allowed")));
            }
        }
    }
    rows
}

/// Sheets with errors: of a statement, a name, a literal, an end, a member, types and patterns; with a tree kept, and with more than one error.
const FAULTY: [&str; 16] = [
    ")", "import 1", "fn 1", "0b102", "x +", "a.1", "f(a b)", "(x", "x:1=2", "match x{[+]=>1}", "try x", "glo 1", "x\n)\ny +\nz", "{)\n}", "fn f(){+}\n0o9",
    "a=1\n9223372036854775808",
];

/// Each error at its moment: no room for it, or for the last of its expected kinds, and that alone, or one reading less too, or one node record less.
fn error_moments() -> Vec<Lending> {
    let mut rows = Vec::new();
    for text in FAULTY {
        let bundle = cut(text);
        let full = all_needs(&bundle);
        for room in 0..full.errors_peak {
            let (number, counts) = end(&bundle, Limits { errors: room, ..WIDEST });
            assert_eq!(number, Some(8), "{text}");
            let why = format!("error {} of {text:?}", room + 1);
            let lent = |nodes, readings| Lent::whole(nodes, room, full.expected_peak, readings);
            rows.push(row(text, lent(full.records_peak, counts.readings), &format!("{why}: no room")));
            rows.push(row(text, lent(full.records_peak, counts.readings - 1), &format!("{why}: no room, and a reading short")));
            if counts.records_peak > 0 {
                rows.push(row(text, lent(counts.records_peak - 1, counts.readings), &format!("{why}: no room, and a node record short")));
            }
            rows.push(row(text, lent(counts.records_peak, counts.readings), &format!("{why}: no room, none for the next record")));
            if counts.expected_peak > 0 {
                let kinds = counts.expected_peak - 1;
                let lent = |readings| Lent::whole(full.records_peak, full.errors_peak, kinds, readings);
                rows.push(row(text, lent(full.readings), &format!("{why}: an expected kind short")));
                rows.push(row(text, lent(counts.readings - 1), &format!("{why}: an expected kind short, and a reading")));
            }
        }
    }
    rows
}

/// The greatest depth, with another limit short at the same moment or before it.
fn depth() -> Vec<Lending> {
    let nests = ["(".repeat(63) + "x", "{0:".repeat(63) + "x", "a: ".to_owned() + &"(".repeat(64) + "int"];
    let mut rows = Vec::new();
    for text in nests {
        let bundle = cut(&text);
        let (number, counts) = end(&bundle, WIDEST);
        assert_eq!(number, Some(9), "{text}");
        let lent = |records, readings| Lent::whole(records, 1, 64, readings);
        rows.push(row(&text, lent(counts.records_peak, counts.readings), "too deep, nothing else is short before"));
        rows.push(row(&text, lent(counts.records_peak, counts.readings - 1), "too deep, and a reading short"));
        if counts.records_peak > 0 {
            rows.push(row(&text, lent(counts.records_peak - 1, counts.readings), "too deep, and a node record short"));
        }
        rows.push(row(&text, Lent::whole(0, 0, 0, counts.readings), "too deep, no room for anything"));
    }
    rows
}

/// Buffers whose length is no whole number of records: words that are left over hold nothing.
fn parts() -> Vec<Lending> {
    let text = "a.b\n)";
    let full = just(&cut(text));
    let mut rows = Vec::new();
    for more in 1..NODE_WORDS as u32 {
        let why = format!("{more} words more than whole node records");
        rows.push(row(text, Lent { nodes: full.nodes + more, ..full }, &format!("{why}, enough")));
        let short = full.nodes - NODE_WORDS as u32 + more;
        rows.push(row(text, Lent { nodes: short, ..full }, &format!("{why}, one record short")));
    }
    for more in 1..ERROR_WORDS as u32 {
        let why = format!("{more} words more than whole error records");
        rows.push(row(text, Lent { errors: full.errors + more, ..full }, &format!("{why}, enough")));
        let short = full.errors - ERROR_WORDS as u32 + more;
        rows.push(row(text, Lent { errors: short, ..full }, &format!("{why}, one record short")));
    }
    rows.push(row(text, Lent { nodes: full.nodes + 3, errors: full.errors + 5, expected: full.expected + 1, ..full }, "parts behind all"));
    rows.push(row(text, Lent { expected: full.expected - 1, nodes: full.nodes - 1, ..full }, "an expected kind and a word short"));
    rows
}

/// 64 errors and 65, with room for 63, 64 and 65; and of their expected kinds.
fn many_errors() -> Vec<Lending> {
    let mut rows = Vec::new();
    for count in [63, 64, 65] {
        let text = ")\n".repeat(count);
        let full = Lent { nodes: NODE_WORDS as u32, ..just(&cut(&text)) };
        for room in [63, 64, 65] {
            let lent = Lent { errors: room * ERROR_WORDS as u32, ..full };
            rows.push(row(&text, lent, &format!("{count} errors, room for {room}")));
        }
        let lent = Lent { errors: 65 * ERROR_WORDS as u32 + 5, expected: full.expected - 1, ..full };
        rows.push(row(&text, lent, &format!("{count} errors, room for 65 and 5 words, an expected kind short")));
    }
    // an attempt that is undone logs them, and then they are logged again
    for count in [64, 65] {
        let text = "{({".to_owned() + &")\n".repeat(count) + "})}";
        let lent = Lent { nodes: 6 * NODE_WORDS as u32, errors: 65 * ERROR_WORDS as u32, ..just(&cut(&text)) };
        rows.push(row(&text, lent, &format!("{count} errors in an attempt")));
    }
    rows
}

/// The most records that count, and one more. No sheet is known that needs as many: the last one here has the most for its tokens. What is not in use
/// must be zero.
fn widest() -> Vec<Lending> {
    let mut rows = Vec::new();
    let chain = "x".to_owned() + &".b".repeat(600);
    for records in [8_192, 8_193] {
        for text in ["", "x", ")", &chain] {
            let full = all_needs(&cut(text));
            let name: String = text.chars().take(5).collect();
            let lent = Lent::whole(records, 1, 64, full.readings);
            rows.push(row(text, lent, &format!("room for {records} records: {name:?}")));
        }
        rows.push(row(")", Lent::whole(records, 0, 64, 9), &format!("room for {records} records, none for an error")));
        rows.push(row("a+b", Lent::whole(records, 1, 64, 2), &format!("room for {records} records, a reading short")));
        let deep = "(".repeat(63);
        rows.push(row(&deep, Lent::whole(records, 1, 64, 99), &format!("room for {records} records, too deep")));
        let errors = ")\n".repeat(65);
        rows.push(row(&errors, Lent::whole(records, 65, 65_537, u32::MAX.into()), &format!("room for {records} records and 65 errors, 65 errors")));
    }
    rows.push(row("x", Lent { nodes: 65_551, errors: 395, expected: 65_537, allowance: u32::MAX }, "no whole number of records, the most that is lent"));
    let calls = "x".to_owned() + &"{}".repeat(2_047);
    let full = just(&cut(&calls));
    assert_eq!(full.nodes, 6_143 * NODE_WORDS as u32);
    rows.push(row(&calls, Lent { nodes: full.nodes - 1, ..full }, "4,095 tokens, a word short of 6,143 records"));
    rows
}

fn words(kind: u8, count: usize) -> Vec<Word> {
    (0..count as u32).map(|i| Word { kind, start: i, end: i + 1 }).collect()
}

/// Refusals before the parser is called: every word stays as it was, whatever is short besides.
fn door() -> Vec<Lending> {
    const WHITESPACE: u8 = 2;
    const IDENT: u8 = 4;
    let one = |kind, start, end| vec![Word { kind, start, end }];
    let sheet = |text: &[u8], words| Bundle { text: text.to_vec(), words };
    let bundles = [
        ("3: not UTF-8", sheet(b"\xff", one(IDENT, 0, 1))),
        ("4: the kind of the end", sheet(b"x", one(70, 0, 1))),
        ("4: no kind", sheet(b"x", one(79, 0, 1))),
        ("5: an empty range", sheet(b"x", one(IDENT, 1, 1))),
        ("5: past the end", sheet(b"x", one(IDENT, 0, 2))),
        ("5: inside a character", sheet("é".as_bytes(), one(IDENT, 0, 1))),
        ("6: a string without quotes", sheet(b"ab", one(7, 0, 2))),
        ("6: a byte string without its letter", sheet(b"\"\"", one(9, 0, 2))),
    ];
    let sizes = [
        ("nothing lent, nothing allowed", Lent { nodes: 0, errors: 0, expected: 0, allowance: 0 }),
        ("a record of each", Lent::whole(1, 1, 3, 9)),
        ("parts of records", Lent { nodes: 13, errors: 7, expected: 1, allowance: 1 }),
    ];
    let mut rows = Vec::new();
    for (fault, bundle) in &bundles {
        for (size, lent) in &sizes {
            rows.push(Lending { lent: *lent, bundle: bundle.clone(), why: format!("{fault}; {size}") });
        }
    }
    // the longest text and list of tokens, and one more: such bundles are no lister's
    let long = |text: usize, tokens: usize| sheet(&vec![b' '; text], words(WHITESPACE, tokens));
    for (bundle, why) in [(long(65_535, 1), "the longest text"), (long(4_097, 4_096), "the most tokens")] {
        rows.push(Lending { lent: just(&bundle), bundle, why: why.to_owned() });
    }
    let lent = Lent { nodes: 13, errors: 5, expected: 2, allowance: 0 };
    for (bundle, why) in [(long(65_536, 1), "1: a byte more"), (long(4_097, 4_097), "2: a token more")] {
        rows.push(Lending { lent, bundle, why: why.to_owned() });
    }
    rows
}

/// What a record's own words tell and no line of a listing does: the slips (d), (e) and (f), and what is like them.
const OWN_WORDS: [(&str, &str); 22] = [
    ("try f{}with e(){}", "(d) a Call with a lambda and a handler"),
    ("try f(a){}with e(){}with g(b){}", "(d) the same with an argument and two handlers"),
    ("try f(a)with e(){}", "a Call with a handler and no lambda"),
    ("f(a){}", "a Call with a lambda and no handler"),
    ("match x{[...]=>1}", "(e), (f) the range of `...` alone in a list"),
    ("match x{[a,...]=>1}", "(e), (f) behind an item"),
    ("match x{[a, ... ]=>1}", "(e), (f) with blanks around it"),
    ("match x{{...}=>1}", "(e), (f) alone in a table"),
    ("match x{{1:a,...}=>1}", "(e), (f) behind a pair"),
    ("match x{[[a,...],{1:b, ...},...]=>1}", "(e), (f) of three patterns in one another"),
    ("match x{[a]|{1:b}=>1}", "no `...`"),
    ("a?.b", "the range of `?`"),
    ("a ?[b]", "the range of `?` behind a blank"),
    ("glo fn f(){}", "the range of `glo`"),
    ("glo  effect e()", "the range of `glo` of an effect"),
    ("fn f(...a){}", "a variadic parameter"),
    ("fn f(a)->b{}", "a returned type"),
    ("import a::b as c", "an import with an alias"),
    ("import a::{b as c,d}", "an import of items"),
    ("import a::*", "an import of all"),
    ("x:fn a,...b)->c=r's'", "a function type with all its parts, and a raw string"),
    ("x is int\ntrue\nfalse\n9223372036854775807", "a checked type, two Bools and the largest integer"),
];

fn own_words() -> Vec<Lending> {
    for (text, _) in OWN_WORDS {
        kinds(&cut(text));
    }
    OWN_WORDS.map(|(text, why)| row(text, just(&cut(text)), why)).into()
}

/// Lists without a statement, and the ends of the allowance.
fn ends() -> Vec<Lending> {
    let mut rows = Vec::new();
    for (text, what) in [("", "no token"), (" ", "trivia alone"), ("\n", "a line's end alone")] {
        rows.push(row(text, Lent::whole(0, 0, 0, 0), &format!("{what}, nothing lent")));
        rows.push(row(text, Lent::whole(1, 0, 0, 0), &format!("{what}, room for the root, nothing allowed")));
        rows.push(row(text, Lent::whole(0, 0, 0, 9), &format!("{what}, no room")));
        rows.push(row(text, Lent::whole(1, 0, 0, 9), &format!("{what}, room for the root")));
    }
    for allowance in [0, 1, 2, 3, 1 << 31, u32::MAX] {
        rows.push(row("a+b", Lent::whole(4, 0, 0, allowance.into()), &format!("{allowance} readings allowed, three needed")));
    }
    rows
}

pub fn sheets() -> Vec<Lending> {
    let groups = [own_words(), ends(), record_moments(), error_moments(), depth(), parts(), many_errors(), widest(), door()];
    groups.into_iter().flatten().collect()
}
