//! stack: the deepest stack that the library needs, on sheets of the greatest depth, as a table in markdown.
//!
//! A thread runs on memory that is painted before each call; what lies between the caller's frame and the lowest place that is not as painted
//! has been used. Each way of nesting is taken as often as the depth allows, and once more, which is refused. Beside it stands what
//! the original, without patches, needs for the same sheet where it is inside the domain.
//!
//! stack write FILE, which is all there is with `--cfg alone`: the sheets as stack.c reads them, each way of nesting 1 to 70 times and the random nests; their
//! names and numbers on standard output.

use std::{env, fs};

use lucia::{
    answer::cut,
    bundle::Bundle,
    chance::Chance,
    classes::{AROUND, deep},
};

#[cfg(not(alone))]
mod ours;
#[cfg(not(alone))]
mod painted;

/// The most times that a way of nesting is taken.
const MOST: usize = 70;
const RANDOM: usize = 3_000;


/// Further ways of nesting: what stands in front, what is repeated around the middle, what stands behind.
const MORE: [[&str; 5]; 28] = [
    ["", "{(", "x", "): 1}", ""],
    ["", "{0: 1, 2: ", "x", "}", ""],
    ["", "if a {} else ", "if a {}", "", ""],
    ["", "if ", "x", " {}", ""],
    ["", "match ", "x", " {}", ""],
    ["", "while ", "x", " {}", ""],
    ["", "for a in ", "x", " {}", ""],
    ["", "try f(", "x", ") with e () {}", ""],
    ["", "- f(", "x", ")", ""],
    ["", "- [", "x", "]", ""],
    ["", "- {0: 1, 2: ", "x", "}", ""],
    ["", "- match x { y => ", "x", " }", ""],
    ["", "- match ", "x", " {}", ""],
    ["", "- if ", "x", " {}", ""],
    ["", "a, b = 1, for a in b {", "x", "}", ""],
    ["", "a: int = for a in b {", "x", "}", ""],
    ["", "glo a = for a in b {", "x", "}", ""],
    ["", "{0: 1, 2: ", "1", "}", ""],
    ["", "{0: 1, 2: ", "+", "}", ""],
    ["", "{0: 1, 2: ", "99999999999999999999", "}", ""],
    ["a: ", "(", "int", ")", " = 1"],
    ["a: ", "{b: ", "int", "}", " = 1"],
    ["a: ", "{[int]: ", "int", "}", " = 1"],
    ["a: ", "fn ", "int", ")", " = 1"],
    ["a: ", "fn int) -> ", "int", "", " = 1"],
    ["fn f (a: ", "int | (", "int", ")", ") {}"],
    ["match x { ", "[", "y", "]", " => 1 }"],
    ["match x { ", "{1: ", "y", "}", " => 1 }"],
];

/// Each way of nesting, and its text for so many times.
fn ways() -> Vec<(String, impl Fn(usize) -> String)> {
    let all = AROUND.map(|(before, behind)| ["", before, "x", behind, ""]).into_iter().chain(MORE);
    let way = |[front, before, middle, behind, end]: [&'static str; 5]| {
        let name = format!("{front}{before}{middle}{behind}{end}").replace('\n', " ↵ ").replace('|', "\\|");
        (name, move |count: usize| front.to_owned() + &before.repeat(count) + middle + &behind.repeat(count) + end)
    };
    all.map(way).collect()
}

/// The random nests.
fn nests() -> Vec<Bundle> {
    let mut chance = Chance::new(1);
    (0..RANDOM).map(|_| deep(&mut chance)).collect()
}

/// Sheets for a program that reads words: how many, and of each the sizes, the text padded to whole words, the tokens.
fn write(file: &str) {
    let mut words = vec![0];
    let mut put = |name: &str, count: usize, bundle: &Bundle| {
        let (mut text, tokens) = (bundle.text.clone(), bundle.triples().into_flattened());
        words[0] += 1;
        words.extend([text.len(), tokens.len()].map(|size| size as u32));
        text.resize(text.len().next_multiple_of(4), 0);
        words.extend(text.chunks_exact(4).map(|b| u32::from_le_bytes([b[0], b[1], b[2], b[3]])));
        words.extend(&tokens);
        println!("{count} {name}");
    };
    put("an empty sheet", 0, &cut(""));
    for (name, text) in ways() {
        for count in 1..=MOST {
            put(&name, count, &cut(&text(count)));
        }
    }
    for bundle in nests() {
        put("a random nest", 0, &bundle);
    }
    let bytes: Vec<u8> = words.iter().flat_map(|word| word.to_le_bytes()).collect();
    fs::write(file, bytes).expect("a file");
}

fn main() {
    let words: Vec<String> = env::args().skip(1).collect();
    match words.iter().map(String::as_str).collect::<Vec<_>>().as_slice() {
        ["write", file] => write(file),
        #[cfg(not(alone))]
        [] => painted::table(&ways(), &nests()),
        _ => panic!("stack [write FILE]"),
    }
}
