//! reached DOMAIN MARKED: how often each numbered place of parser.rs is reached over two files of bundles, the second read by the
//! document's own rules. Prints a table by function, then what no bundle reached, then how often each kind of node was listed.

use std::{collections::BTreeMap, error::Error, fs::File};

use lucia::{answer, bundle::read_stream, probe::{self, LISTER}, sites::SITES};

/// What a tree's Debug text shows of words that have no record.
const WORDS: [&str; 15] = [
    "property: Bracket(", "property: Dot(", "property: DoubleColon(", "property: BracketMeta", "property: DotMeta",
    "property: DoubleColonMeta", "safe: Some", "glo: Some", "others: Some", "variadic: Some", "returns: Some",
    "kind: Simple(None)", "kind: Simple(Some", "kind: Nested", "kind: Glob",
];

fn run(file: &str, rule: bool, kinds: &mut BTreeMap<String, u64>) -> Result<usize, Box<dyn Error>> {
    let bundles = read_stream(File::open(file)?)?;
    for bundle in &bundles {
        let answer = answer::bytes(bundle, LISTER, rule);
        if let Some(reading) = &answer.reading {
            let tree = format!("{:?}", reading.0);
            for word in WORDS {
                *kinds.entry(word.to_owned()).or_default() += tree.matches(word).count() as u64;
            }
        }
        for line in answer.text.lines() {
            let mut words = line.split(' ');
            let first = words.next().unwrap_or("");
            let kind = if first.parse::<u32>().is_ok() { words.next().unwrap_or("") } else { first };
            *kinds.entry(kind.to_owned()).or_default() += 1;
        }
    }
    Ok(bundles.len())
}

/// A table row for each function: its places in order, each as line, what happens there, how often (+ how often by rule).
fn table(domain: &[u64], marked: &[u64]) {
    print!("| function | places |\n|---|---|");
    let mut function = "";
    for (i, (line, name, what)) in SITES.iter().enumerate() {
        if *name != function {
            print!("{}\n| `{name}` | ", if function.is_empty() { "" } else { " |" });
        } else {
            print!(", ");
        }
        function = name;
        print!("{line} {what} {}", domain[i]);
        if marked[i] > 0 {
            print!("+{}", marked[i]);
        }
    }
    println!(" |");
}

fn main() -> Result<(), Box<dyn Error>> {
    let words: Vec<String> = std::env::args().collect();
    let [_, domain, marked] = words.as_slice() else {
        return Err("reached DOMAIN MARKED".into());
    };
    let mut kinds = BTreeMap::new();
    let count = run(domain, false, &mut kinds)?;
    let first = probe::hits();
    let others = run(marked, true, &mut kinds)?;
    let second: Vec<u64> = probe::hits().iter().zip(&first).map(|(all, one)| all - one).collect();
    println!("{} places; {count} bundles in the domain, {others} marked\n", SITES.len());
    table(&first, &second);
    println!("\nNot reached:\n");
    for (i, (line, name, what)) in SITES.iter().enumerate() {
        if first[i] + second[i] == 0 {
            println!("- {line} {what} (`{name}`)");
        }
    }
    let kinds: Vec<String> = kinds.iter().map(|(kind, count)| format!("{kind} {count}")).collect();
    println!("\nLines of each kind, and parts that have no line: {}.", kinds.join(", "));
    Ok(())
}
