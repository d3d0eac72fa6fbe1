//! Changes of a text, gathered by their places in the original and carried out together.

pub struct Edit {
    pub start: usize,
    pub end: usize,
    pub text: String,
    /// At one place closers come before openers, the closer of an inner pair before that of an outer one.
    rank: (u8, usize),
}

pub fn insert(at: usize, text: impl Into<String>) -> Edit {
    Edit { start: at, end: at, text: text.into(), rank: (2, 0) }
}

pub fn replace(start: usize, end: usize, text: impl Into<String>) -> Edit {
    Edit { start, end, text: text.into(), rank: (3, 0) }
}

/// Puts `before` and `after` around what stands from `start` to `end`.
pub fn wrap(edits: &mut Vec<Edit>, start: usize, end: usize, before: impl Into<String>, after: &str) {
    edits.push(Edit { start, end: start, text: before.into(), rank: (1, usize::MAX - end) });
    edits.push(Edit { start: end, end, text: after.into(), rank: (0, usize::MAX - start) });
}

pub fn apply(original: &str, mut edits: Vec<Edit>) -> String {
    edits.sort_by_key(|e| (e.start, e.rank));
    let (mut result, mut done) = (String::new(), 0);
    for edit in edits {
        assert!(done <= edit.start, "two changes of one place: {}", edit.text);
        result.push_str(&original[done..edit.start]);
        result.push_str(&edit.text);
        done = edit.end;
    }
    result + &original[done..]
}
