//! readings: checks statements about the original on a stream of bundles on standard input and counts what it finds:
//! that the patches change no answer inside the domain, demand 3's sum against the counted readings, the peaks, and whether what an
//! attempt leaves in the live list shows in an error.

use std::io;

use lucia::{
    answer,
    bundle::{Bundle, read_stream},
    compiler::{bare::parse_tokens, interning::Plain},
    cost,
    entry::enter,
    probe::{Counts, LISTER, stain_rests},
};

#[derive(Default)]
struct Found {
    sheets: usize,
    read: usize,
    patched: usize,
    free: usize,
    sum_differs: usize,
    peaks: Counts,
    doubled: usize,
    rest_shows: usize,
}

fn look(found: &mut Found, bundle: &Bundle) {
    found.sheets += 1;
    let answer = answer::bundle(bundle, LISTER, false);
    found.peaks.live_peak = found.peaks.live_peak.max(answer.counts.live_peak);
    found.peaks.records_peak = found.peaks.records_peak.max(answer.counts.records_peak);
    found.peaks.depth_peak = found.peaks.depth_peak.max(answer.counts.depth_peak);
    found.peaks.readings = found.peaks.readings.max(answer.counts.readings);
    stain_rests(true);
    let stained = answer::bundle(bundle, LISTER, false);
    stain_rests(false);
    if stained.text != answer.text {
        found.rest_shows += 1;
        println!("what an attempt left shows: {:?}", String::from_utf8_lossy(&bundle.text));
    }
    let Some(reading) = answer.reading else {
        return;
    };
    found.read += 1;
    let sheet = enter(bundle).ok().expect("it was read");
    if parse_tokens(Plain, sheet.text, &sheet.tokens) != reading {
        found.patched += 1;
        println!("the patches change the answer: {:?}", sheet.text);
    }
    if !reading.1.is_empty() {
        return;
    }
    found.free += 1;
    let sum = cost::readings(&sheet.tokens, &reading);
    let tokens = sheet.tokens.iter().filter(|t| !t.kind.is_trivia()).count() as u64;
    found.doubled += usize::from(answer.counts.readings > tokens);
    if sum != answer.counts.readings {
        found.sum_differs += 1;
        println!("sum {sum}, counted {}: {:?}", answer.counts.readings, sheet.text);
    }
}

fn main() -> io::Result<()> {
    let mut found = Found::default();
    for bytes in read_stream(io::stdin().lock())? {
        if let Some(bundle) = Bundle::from_bytes(&bytes) {
            look(&mut found, &bundle);
        }
    }
    println!("sheets {}, read {}, without errors {}, of these with a token read twice {}",
        found.sheets, found.read, found.free, found.doubled);
    println!("the patches change the answer on {}", found.patched);
    println!("demand 3's sum differs on {}", found.sum_differs);
    println!("what an attempt left in the live list shows on {}", found.rest_shows);
    println!("longest live list {}, most records in use {}, greatest depth {}, most readings {}",
        found.peaks.live_peak, found.peaks.records_peak, found.peaks.depth_peak, found.peaks.readings);
    std::process::exit(if found.patched + found.sum_differs + found.rest_shows == 0 { 0 } else { 1 });
}
