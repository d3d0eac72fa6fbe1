//! sheets MODE ..: a stream of bundles on standard output, the same for the same words.
//!
//!   grammatical SEED COUNT SIZE   sheets over every construct, of about SIZE pieces
//!   damaged SEED COUNT SIZE       those, with pieces deleted, inserted, doubled, swapped, changed in kind
//!   wild SEED COUNT SIZE          those, with literals that leave the domain
//!   short SEED COUNT SIZE         lists of up to SIZE pieces of random kinds
//!   deep SEED COUNT               nests of every sort, near the limit of the depth
//!   all LENGTH KIND ..            all lists of up to LENGTH tokens over the kinds given by number
//!   texts FILE                    the lines of a file (`\n`, `\t`, `\r` and `\\` written so), cut by the original's lexer
//!   entry SEED COUNT SIZE         bundles with a fault that the entry check or the lister finds, most of them
//!   odd                           short lists that no lexer cuts: odd spellings of literals, trivia and gaps at the start
//!   limits                        sheets just below and just above each limit of the lister

use std::{env, error::Error, fs, io::{self, BufWriter, Write}};

use lucia::{
    bundle::{Bundle, write_piece},
    chance::Chance,
    classes::{deep, faulty, limits, random, texts},
    compiler::token::TokenKind,
    damage::all,
    entry::KINDS,
    spell::{Piece, Taste, lay, odd, spell},
};

fn lists(length: usize, numbers: &[String]) -> Result<Vec<Bundle>, Box<dyn Error>> {
    let mut kinds = Vec::new();
    for number in numbers {
        kinds.push(*KINDS.get(number.parse::<usize>()?).ok_or("no such kind")?);
    }
    let mut chance = Chance::new(0);
    let bundle = |list: &Vec<TokenKind>| {
        let pieces: Vec<Piece> = list.iter().map(|k| spell(*k, Taste::Plain, &mut chance)).collect();
        lay(&pieces, &mut Chance::new(pieces.len() as u64))
    };
    Ok(all(&kinds, length).iter().map(bundle).collect())
}

fn main() -> Result<(), Box<dyn Error>> {
    let words: Vec<String> = env::args().skip(1).collect();
    let mut out = BufWriter::new(io::stdout().lock());
    let bundles: Vec<Bundle> = match words.iter().map(String::as_str).collect::<Vec<_>>().as_slice() {
        [mode @ ("grammatical" | "damaged" | "wild" | "short"), seed, count, size] => {
            let (mut chance, size) = (Chance::new(seed.parse()?), size.parse()?);
            (0..count.parse()?).map(|_| random(mode, &mut chance, size)).collect()
        }
        ["deep", seed, count] => {
            let mut chance = Chance::new(seed.parse()?);
            (0..count.parse()?).map(|_| deep(&mut chance)).collect()
        }
        ["all", length, ..] => lists(length.parse()?, &words[2..])?,
        ["texts", file] => texts(&fs::read_to_string(file)?),
        ["entry", seed, count, size] => {
            let (mut chance, size) = (Chance::new(seed.parse()?), size.parse()?);
            for _ in 0..count.parse()? {
                let bundle = random("grammatical", &mut chance, size);
                write_piece(&mut out, &faulty(bundle, &mut chance))?;
            }
            Vec::new()
        }
        ["odd"] => odd(),
        ["limits"] => limits(),
        _ => return Err("sheets MODE .., see the first lines of its source".into()),
    };
    for bundle in bundles {
        write_piece(&mut out, &bundle.to_bytes())?;
    }
    Ok(out.flush()?)
}
