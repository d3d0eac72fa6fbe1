//! answers [--rule] [--words|--raw] [--counts] [--end]: a stream of bundles on standard input, the stream of their listings on standard output.
//!
//! With --rule the document's own rules answer outside the domain, --words adds flags and bare ranges to the lines, as in `list`. With --raw a piece of the
//! input has before its bundle what is lent, as `lend` writes it, and one of the output is the whole answer, as the program `words` writes
//! it. --counts writes to standard error how many answers there were of each sort. --end adds the piece with which the programs
//! that replay close a stream.

use std::{collections::BTreeMap, io::{self, BufWriter, Write}};

use lucia::{
    answer::{self, Answer, Mark},
    bundle::{read_stream, write_piece},
    lent,
    probe::LISTER,
};

fn sort_of(answer: &Answer) -> String {
    let sort = answer::sort(&answer.text);
    if answer.mark == Mark::None { sort.to_owned() } else { format!("{sort}, {}", answer.mark.word()) }
}

fn main() -> io::Result<()> {
    let options: Vec<String> = std::env::args().skip(1).collect();
    let has = |name: &str| options.iter().any(|option| option == name);
    let mut sorts: BTreeMap<String, usize> = BTreeMap::new();
    let mut out = BufWriter::new(io::stdout().lock());
    let bundles = read_stream(io::stdin().lock())?;
    for bundle in &bundles {
        let (sort, written) = if has("--raw") {
            let whole = lent::whole_answer(bundle, has("--rule"));
            (lent::sort(&whole), whole)
        } else {
            let answer = answer::bytes(bundle, LISTER, has("--rule"));
            let sort = sort_of(&answer);
            (sort, if has("--words") { answer.with_words() } else { answer.text }.into_bytes())
        };
        *sorts.entry(sort).or_default() += 1;
        write_piece(&mut out, &written)?;
    }
    if has("--end") {
        write_piece(&mut out, format!("{} sheets\n", bundles.len()).as_bytes())?;
    }
    if has("--counts") {
        sorts.iter().for_each(|(sort, count)| eprintln!("{count:8} {sort}"));
    }
    out.flush()
}
