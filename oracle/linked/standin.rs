//! A stand-in for the library, by which the comparison itself is checked: it answers as the harness says, but for the fault that the
//! environment's FAULT names. Each fault shows on few sheets only. Without a fault nothing may differ, with one it must be found.

use std::{slice, sync::OnceLock};

use lucia::{
    answer::{Outcome, read},
    entry::enter_words,
    probe::{self, Limits},
    records::{self, ERROR_WORDS, NODE_WORDS, Words},
};

fn faulty(name: &str) -> bool {
    static FAULT: OnceLock<String> = OnceLock::new();
    FAULT.get_or_init(|| std::env::var("FAULT").unwrap_or_default()) == name
}

fn answer(text: &[u8], words: &[[u32; 3]], limits: Limits) -> Result<(u32, Words), u8> {
    let sheet = enter_words(text, words)?;
    let run = read(&sheet, limits, true);
    match run.outcome {
        Outcome::Read(reading) => {
            Ok((run.counts.readings as u32, records::of(&reading, &sheet.tokens, &probe::order())))
        }
        Outcome::Empty(at) => Ok((0, records::empty(at))),
        Outcome::Refused(number) => Err(number),
        Outcome::Outside => unreachable!("the rule decides"),
    }
}

fn spoil(number: &mut u8, counts: &mut [u32], told: &mut Words) {
    let last = told.nodes.len().saturating_sub(NODE_WORDS);
    let check = told.nodes.chunks_exact_mut(NODE_WORDS).find(|node| node[0] == 16);
    if faulty("number") && *number == 9 {
        *number = 10;
    }
    if faulty("reads") && told.errors.len() > 2 * ERROR_WORDS {
        counts[0] += 1;
    }
    if faulty("expected-count") && told.expected.len() > 100 {
        counts[3] -= 1;
    }
    if let Some(node) = check.filter(|_| faulty("node")) {
        node[6] += 1;
    }
    if faulty("root") && last > 60 * NODE_WORDS {
        told.nodes[last + 7] ^= 1 << 30;
    }
    if faulty("error") && told.errors.len() > ERROR_WORDS {
        told.errors[10] = 0;
    }
    if faulty("kind") && told.expected.len() > 90 {
        told.expected[90] ^= 1;
    }
}

/// # Safety
/// As the library asks.
#[unsafe(no_mangle)]
pub unsafe extern "C" fn lucia_parse(
    text: *mut u8,
    text_len: usize,
    tokens: *mut u32,
    token_words: usize,
    allowance: u32,
    nodes: *mut u32,
    node_words: usize,
    errors: *mut u32,
    error_words: usize,
    expected: *mut u8,
    expected_len: usize,
    counts: *mut u32,
) -> u8 {
    let (sheet_text, words, nodes_lent, errors_lent, expected_lent, counted) = unsafe {
        (
            slice::from_raw_parts(text, text_len),
            slice::from_raw_parts(tokens, token_words),
            slice::from_raw_parts_mut(nodes, node_words),
            slice::from_raw_parts_mut(errors, error_words),
            slice::from_raw_parts_mut(expected, expected_len),
            slice::from_raw_parts_mut(counts, 4),
        )
    };
    let triples: Vec<[u32; 3]> = words.chunks_exact(3).map(|t| [t[0], t[1], t[2]]).collect();
    let limits = Limits {
        nodes: (node_words / NODE_WORDS + usize::from(faulty("room"))).min(8_192) as u64,
        errors: (error_words / ERROR_WORDS).min(if faulty("cap") { 100 } else { 64 }) as u64,
        expected: expected_len as u64 + u64::from(faulty("expected-room")),
        depth: 64,
        readings: allowance.saturating_add(u32::from(faulty("allowance"))).into(),
        live: 1_024,
    };
    let told = answer(sheet_text, &triples, limits);
    if faulty("crash") && triples.len() > 90 {
        unsafe { std::ptr::null_mut::<u8>().write_volatile(1) };
    }
    while faulty("hang") && triples.len() > 90 {
        std::hint::spin_loop();
    }
    let (mut number, reads, mut filled) = match told {
        Ok((reads, filled)) => (0, reads, filled),
        Err(number) => (number, 0, Words::default()),
    };
    counted.copy_from_slice(&match number {
        0 => [
            reads,
            (filled.nodes.len() / NODE_WORDS) as u32,
            (filled.errors.len() / ERROR_WORDS) as u32,
            filled.expected.len() as u32,
        ],
        _ => [0; 4],
    });
    spoil(&mut number, counted, &mut filled);
    if (1..7).contains(&number) {
        if faulty("touched") && number == 6 && !errors_lent.is_empty() {
            errors_lent[0] = 0;
        }
        return number;
    }
    let keep = faulty("not-cleared") && number == 7;
    if !keep {
        nodes_lent.fill(0);
        errors_lent.fill(0);
        expected_lent.fill(0);
    }
    // With one of the rooms too large by one there may be more than fits.
    let fits = |told: usize, lent: usize| told.min(lent);
    let (n, e, k) = (fits(filled.nodes.len(), node_words), fits(filled.errors.len(), error_words), fits(filled.expected.len(), expected_len));
    nodes_lent[..n].copy_from_slice(&filled.nodes[..n]);
    errors_lent[..e].copy_from_slice(&filled.errors[..e]);
    expected_lent[..k].copy_from_slice(&filled.expected[..k]);
    if faulty("past") && number == 0 && nodes_lent.len() > n + NODE_WORDS {
        nodes_lent[n + 3] = 1;
    }
    if faulty("past-expected") && number == 0 && expected_lent.len() > k + 2 {
        expected_lent[k + 2] = 1;
    }
    unsafe {
        if faulty("outside") && triples.len() > 90 {
            nodes.add(node_words).write_volatile(0);
        }
        if faulty("text") && triples.len() > 90 {
            text.write_volatile(b'!');
        }
        if faulty("tokens") && triples.len() > 90 {
            tokens.write_volatile(0);
        }
    }
    number
}
