//! Lists that no grammar made: damaged sheets, lists of random kinds, all short lists over some kinds.

use crate::chance::Chance;
use crate::compiler::token::TokenKind;
use crate::entry::KINDS;
use crate::spell::{Piece, Taste, spell};

const EOF: usize = TokenKind::Eof as usize;

/// Any kind but Eof, with a spelling.
pub fn any(chance: &mut Chance, taste: Taste) -> Piece {
    let number = chance.below(KINDS.len() - 1);
    spell(KINDS[if number >= EOF { number + 1 } else { number }], taste, chance)
}

/// A kind that the parser looks for: no trivia, no kind of error, but now and then.
pub fn likely(chance: &mut Chance, taste: Taste) -> Piece {
    if chance.one_in(12) {
        return any(chance, taste);
    }
    let number = 4 + chance.below(EOF - 4);
    spell(KINDS[number], taste, chance)
}

fn one(pieces: &mut Vec<Piece>, chance: &mut Chance, taste: Taste) {
    let at = chance.below(pieces.len());
    match chance.below(6) {
        0 | 1 => drop(pieces.remove(at)),
        2 => pieces.insert(at, likely(chance, taste)),
        3 => pieces.insert(at, pieces[at].clone()),
        4 => {
            let other = if chance.one_in(2) { (at + 1) % pieces.len() } else { chance.below(pieces.len()) };
            pieces.swap(at, other);
        }
        _ => pieces[at] = likely(chance, taste),
    }
}

/// Pieces deleted, inserted, doubled, swapped, changed in kind; now and then the end is cut off.
pub fn damage(pieces: &mut Vec<Piece>, chance: &mut Chance, taste: Taste) {
    for _ in 0..1 + chance.below(3) {
        if !pieces.is_empty() {
            one(pieces, chance, taste);
        }
    }
    if chance.one_in(6) {
        pieces.truncate(chance.below(pieces.len() + 1));
    }
}

/// All lists of up to `length` pieces over `kinds`, shortest first.
pub fn all(kinds: &[TokenKind], length: usize) -> Vec<Vec<TokenKind>> {
    let mut lists = vec![Vec::new()];
    let mut last = lists.clone();
    for _ in 0..length {
        last = last.iter().flat_map(|list| kinds.iter().map(|k| [list.as_slice(), &[*k]].concat())).collect();
        lists.extend(last.iter().cloned());
    }
    lists
}
