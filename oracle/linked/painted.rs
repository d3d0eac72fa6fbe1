//! The library and the original on painted memory: how much of it each used.

use std::{ffi::c_void, hint::black_box, ptr::null_mut};

use lucia::{
    answer::{Mark, Outcome, cut, read},
    bundle::Bundle,
    compiler::{bare::parse_tokens, interning::Plain},
    entry::enter,
    probe::{Limits, WIDEST},
    records::{ERROR_WORDS, NODE_WORDS},
};

use crate::{MOST, ours};

const STACK: usize = 4 << 20;
const PAINT: u64 = 0x5aa5_c33c_9669_f00f;

unsafe extern "C" {
    fn pthread_attr_init(attributes: *mut [u64; 8]) -> i32;
    fn pthread_attr_setstack(attributes: *mut [u64; 8], stack: *mut u64, size: usize) -> i32;
    fn pthread_create(thread: *mut usize, attributes: *const [u64; 8], start: extern "C" fn(*mut c_void) -> *mut c_void, with: *mut c_void) -> i32;
    fn pthread_join(thread: usize, result: *mut *mut c_void) -> i32;
}

/// What the thread is to do, and where its own frame was.
struct Task<'a> {
    work: &'a mut dyn FnMut(),
    frame: usize,
}

extern "C" fn start(with: *mut c_void) -> *mut c_void {
    let task = unsafe { &mut *with.cast::<Task>() };
    let here = 0u64;
    task.frame = black_box(&here) as *const u64 as usize;
    (task.work)();
    null_mut()
}

/// How many bytes below its own frame a thread used for this work.
fn used(stack: &mut [u64], work: &mut dyn FnMut()) -> usize {
    stack.fill(PAINT);
    let mut task = Task { work, frame: 0 };
    let (mut attributes, mut thread) = ([0; 8], 0);
    let failed = unsafe {
        pthread_attr_init(&mut attributes)
            | pthread_attr_setstack(&mut attributes, stack.as_mut_ptr(), stack.len() * 8)
            | pthread_create(&mut thread, &attributes, start, (&raw mut task).cast())
            | pthread_join(thread, null_mut())
    };
    assert_eq!(failed, 0, "a thread on a stack of ours");
    let lowest = stack.iter().position(|word| *word != PAINT).expect("it ran");
    assert!(lowest > 0, "the stack was large enough");
    task.frame - &raw const stack[lowest] as usize
}

/// The library's answer to a sheet and the stack that it took.
fn ours_on(stack: &mut [u64], bundle: &Bundle) -> (u8, usize) {
    let words = bundle.triples().into_flattened();
    let (mut nodes, mut errors, mut expected) = (vec![0; 8_192 * NODE_WORDS], vec![0; 64 * ERROR_WORDS], vec![0; 65_536]);
    let (mut number, mut counts) = (0, ours::Counts::default());
    let bytes = used(stack, &mut || {
        let mut lent = ours::Lent { nodes: &mut nodes, errors: &mut errors, expected: &mut expected };
        number = ours::parse(&bundle.text, &words, 300_000, &mut lent, &mut counts);
    });
    (number, bytes)
}

/// The original's need, where it can be asked.
fn theirs_on(stack: &mut [u64], bundle: &Bundle) -> Option<usize> {
    let sheet = enter(bundle).ok()?;
    let run = read(&sheet, Limits { readings: 300_000, ..WIDEST }, true);
    let read = matches!(run.outcome, Outcome::Read(_)) && run.mark == Mark::None;
    read.then(|| used(stack, &mut || drop(black_box(parse_tokens(Plain, sheet.text, &sheet.tokens)))))
}

/// The table, and the deepest of all.
pub fn table(ways: &[(String, impl Fn(usize) -> String)], nests: &[Bundle]) {
    let mut stack = vec![0; STACK / 8];
    let empty = ours_on(&mut stack, &cut("")).1;
    println!("| nested | times | stack, bytes | answer, once more | stack then | original's stack |");
    println!("|---|---|---|---|---|---|");
    let mut deepest = (0, String::new());
    for (name, text) in ways {
        // What is read again at each level ends by its readings, not by its depth.
        let Some(count) = (1..=MOST).rev().find(|count| ours_on(&mut stack, &cut(&text(*count))).0 == 0) else {
            continue;
        };
        let (_, bytes) = ours_on(&mut stack, &cut(&text(count)));
        let (number, more) = ours_on(&mut stack, &cut(&text(count + 1)));
        let theirs = theirs_on(&mut stack, &cut(&text(count))).map_or("–".to_owned(), |bytes| bytes.to_string());
        println!("| `{name}` | {count} | {bytes} | {number} | {more} | {theirs} |");
        deepest = deepest.max((bytes.max(more), name.clone()));
    }
    for nest in nests {
        let (_, bytes) = ours_on(&mut stack, nest);
        deepest = deepest.max((bytes, "a random nest".to_owned()));
    }
    println!("\nDeepest: {} bytes, `{}`; an empty sheet takes {empty}.", deepest.0, deepest.1);
}
