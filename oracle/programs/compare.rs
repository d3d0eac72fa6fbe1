//! compare BUNDLES THEIRS OURS [--raw]: three streams, bundles and two streams of their listings, or with --raw of their whole answers, of which the
//! second ends in the number of sheets. Says how many are equal, of each sort. At the first difference it writes the piece of BUNDLES, with --raw
//! what is lent and the bundle, to difference.bundle beside OURS, shows the first line or byte that differs, and fails.

use std::{collections::BTreeMap, env, error::Error, fs, fs::File, path::Path};

use lucia::{answer::sort, bundle::read_stream, lent};

fn first_line(theirs: &[u8], ours: &[u8]) -> String {
    let (theirs, ours) = (String::from_utf8_lossy(theirs), String::from_utf8_lossy(ours));
    let (mut left, mut right) = (theirs.lines(), ours.lines());
    loop {
        let pair = (left.next(), right.next());
        if pair.0 != pair.1 || pair.0.is_none() {
            return format!("theirs {:?}, ours {:?}", pair.0, pair.1);
        }
    }
}

fn first_byte(theirs: &[u8], ours: &[u8]) -> String {
    let shorter = theirs.len().min(ours.len());
    let at = (0..shorter).find(|at| theirs[*at] != ours[*at]).unwrap_or(shorter);
    format!("byte {at} is {:?} in theirs, {:?} in ours", theirs.get(at), ours.get(at))
}

fn main() -> Result<(), Box<dyn Error>> {
    let (options, words): (Vec<String>, Vec<String>) = env::args().skip(1).partition(|word| word == "--raw");
    let raw = !options.is_empty();
    let [bundles, theirs, ours] = words.as_slice() else {
        return Err("compare BUNDLES THEIRS OURS [--raw]".into());
    };
    let place = Path::new(ours).with_file_name("difference.bundle");
    let (bundles, theirs) = (read_stream(File::open(bundles)?)?, read_stream(File::open(theirs)?)?);
    let mut ours = read_stream(File::open(ours)?)?;
    let closing = ours.pop().unwrap_or_default();
    let mut sorts: BTreeMap<String, usize> = BTreeMap::new();
    for (number, bundle) in bundles.iter().enumerate() {
        let nothing = Vec::new();
        let (right, left) = (theirs.get(number).ok_or("a listing of theirs is missing")?, ours.get(number).unwrap_or(&nothing));
        if right != left {
            fs::write(&place, bundle)?;
            let what = if raw { first_byte(right, left) } else { first_line(right, left) };
            return Err(format!("sheet {number} differs, written to {}: {what}", place.display()).into());
        }
        let found = if raw { lent::sort(right) } else { sort(&String::from_utf8_lossy(right)).to_owned() };
        *sorts.entry(found).or_default() += 1;
    }
    let end = format!("{} sheets\n", bundles.len());
    if ours.len() != bundles.len() || closing != end.as_bytes() {
        return Err(format!("{} pieces, and at the end {:?}", ours.len(), String::from_utf8_lossy(&closing)).into());
    }
    let sorts: Vec<String> = sorts.iter().map(|(sort, count)| format!("{count} {sort}")).collect();
    let what = if raw { "whole answers" } else { "listings" };
    println!("{} {what} equal: {}", bundles.len(), sorts.join(", "));
    Ok(())
}
