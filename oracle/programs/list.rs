//! list [--rule] [--words] [--peaks] [--widest]: one bundle on standard input, its listing on standard output.
//!
//! Outside the domain it prints `outside` with the reason. With --rule the document's own rules answer there, and the reason
//! goes to standard error as a mark. With --words each line goes on with its record's flags and bare ranges. --peaks writes the counts of the run to standard error. --widest reads with the most that any
//! caller can lend instead of what the lister lends.

use std::io::{self, Read};

use lucia::{answer, probe::{LISTER, WIDEST}};

fn main() -> io::Result<()> {
    let options: Vec<String> = std::env::args().skip(1).collect();
    let has = |name: &str| options.iter().any(|option| option == name);
    let mut input = Vec::new();
    io::stdin().read_to_end(&mut input)?;
    let limits = if has("--widest") { WIDEST } else { LISTER };
    let answer = answer::bytes(&input, limits, has("--rule"));
    if has("--rule") && answer.mark != answer::Mark::None {
        eprintln!("by the document's rule: {}", answer.mark.word());
    }
    if has("--peaks") {
        eprintln!("{:?}", answer.counts);
    }
    print!("{}", if has("--words") { answer.with_words() } else { answer.text });
    Ok(())
}
