//! select domain|marked: of a stream of bundles on standard input those that are not outside the domain, or the others.
//! A bundle that came before is dropped.

use std::{collections::HashSet, io::{self, BufWriter, Write}};

use lucia::{answer::{self, Mark}, bundle::{read_stream, write_piece}, probe::LISTER};

fn main() -> io::Result<()> {
    let domain = match std::env::args().nth(1).as_deref() {
        Some("domain") => true,
        Some("marked") => false,
        _ => return Err(io::Error::other("select domain|marked")),
    };
    let mut seen = HashSet::new();
    let mut out = BufWriter::new(io::stdout().lock());
    for bundle in read_stream(io::stdin().lock())? {
        let inside = answer::bytes(&bundle, LISTER, false).mark == Mark::None;
        if inside == domain && seen.insert(bundle.clone()) {
            write_piece(&mut out, &bundle)?;
        }
    }
    out.flush()
}
