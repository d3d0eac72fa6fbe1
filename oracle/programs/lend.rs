//! lend SEED: a stream of bundles on standard input, on standard output the same with what is lent before each, by the seed and its number.
//! lend sheets: the sheets that are made for what is lent with them.
//! lend table: these sheets as lines: the answer, what is lent (node words, error words, expected bytes, allowance), and why.

use std::{env, error::Error, io::{self, BufWriter, Write}};

use lucia::{
    bundle::{read_stream, write_piece},
    chance::Chance,
    lent::{choose, sort, whole_answer},
    lent_sheets::sheets,
};

fn main() -> Result<(), Box<dyn Error>> {
    let words: Vec<String> = env::args().skip(1).collect();
    let mut out = BufWriter::new(io::stdout().lock());
    match words.iter().map(String::as_str).collect::<Vec<_>>().as_slice() {
        ["sheets"] => {
            for sheet in sheets() {
                write_piece(&mut out, &sheet.lent.piece(&sheet.bundle.to_bytes()))?;
            }
        }
        ["table"] => {
            for sheet in sheets() {
                let answer = sort(&whole_answer(&sheet.lent.piece(&sheet.bundle.to_bytes()), true));
                let lent = sheet.lent;
                writeln!(out, "{answer} | {} {} {} {} | {}", lent.nodes, lent.errors, lent.expected, lent.allowance, sheet.why)?;
            }
        }
        [seed] => {
            let mut chance = Chance::new(seed.parse()?);
            for (number, bundle) in read_stream(io::stdin().lock())?.iter().enumerate() {
                write_piece(&mut out, &choose(bundle, number, &mut chance).piece(bundle))?;
            }
        }
        _ => return Err("lend SEED|sheets|table".into()),
    }
    Ok(out.flush()?)
}
