//! speed: how long the original takes for a token, trivia aside, over a stream of bundles inside the domain on standard input.
//! It is the copy without patches; outside the domain it may never end.

use std::{io, time::Instant};

use lucia::{
    bundle::{Bundle, read_stream},
    compiler::{bare::parse_tokens, interning::Plain},
    entry::{Sheet, enter},
};

fn main() -> io::Result<()> {
    let bundles: Vec<Bundle> =
        read_stream(io::stdin().lock())?.iter().filter_map(|bytes| Bundle::from_bytes(bytes)).collect();
    let sheets: Vec<Sheet> = bundles.iter().filter_map(|bundle| enter(bundle).ok()).collect();
    let tokens: usize = sheets.iter().flat_map(|s| &s.tokens).filter(|t| !t.kind.is_trivia()).count();
    let (mut turns, mut errors, start) = (0, 0, Instant::now());
    while start.elapsed().as_secs() < 3 {
        for sheet in &sheets {
            errors += parse_tokens(Plain, sheet.text, &sheet.tokens).1.len();
        }
        turns += 1;
    }
    let nanoseconds = start.elapsed().as_nanos() as f64 / (tokens * turns) as f64;
    println!("{} sheets, {tokens} tokens, {turns} turns, {errors} errors: {nanoseconds:.1} ns for a token", sheets.len());
    Ok(())
}
