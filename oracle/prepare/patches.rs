//! The named patches of parser.rs. Each says why it is there; none changes what the parser answers inside the domain.
//! An anchor is a few words of a line, and must stand as often as it says.

use crate::edits::{Edit, insert, replace, wrap};
use crate::tokens::Token;

enum How {
    Before,
    After,
    Instead,
}

struct Patch {
    name: &'static str,
    reason: &'static str,
    anchor: &'static str,
    times: usize,
    how: How,
    text: &'static str,
}

const PATCHES: [Patch; 9] = [
    Patch {
        name: "readings",
        reason: "counts a reading where `bump` has a token before it; ends the run past the allowance (10)",
        anchor: "self.prev_token_end = range.end();",
        times: 1,
        how: How::Before,
        text: "crate::probe::read(); ",
    },
    Patch {
        name: "live-list",
        reason: "ends the run where the live expected list would pass its limit (11)",
        anchor: "self.expected_kinds.push(t);",
        times: 1,
        how: How::Before,
        text: "crate::probe::live(self.expected_kinds.len()); ",
    },
    Patch {
        name: "attempt-mark",
        reason: "remembers the counts when an attempt starts",
        anchor: "let checkpoint = self.checkpoint();",
        times: 1,
        how: How::After,
        text: " let mark = crate::probe::mark();",
    },
    Patch {
        name: "attempt-verdict",
        reason: "finds the attempt that gives a node with new errors: says outside, or by option keeps node, errors and place",
        anchor: "node.is_err() || self.errors.len() > errors_len",
        times: 1,
        how: How::Instead,
        text: "crate::probe::undo(node.is_ok(), self.errors.len() > errors_len, &mark)",
    },
    Patch {
        name: "attempt-rest",
        reason: "by option replaces what an undone attempt leaves in the live list by a kind that nothing asks for, to see where it shows",
        anchor: "self.rewind(checkpoint);",
        times: 1,
        how: How::After,
        text: " crate::probe::stain(&mut self.expected_kinds, &mark);",
    },
    Patch {
        name: "statement-mark",
        reason: "remembers the counts when a statement starts",
        anchor: "match self.parse_stmt()",
        times: 1,
        how: How::Before,
        text: "let mark = crate::probe::mark(); ",
    },
    Patch {
        name: "statement-failed",
        reason: "a statement that ends in an error gives its node records back",
        anchor: "Err(error) => {",
        times: 1,
        how: How::After,
        text: " crate::probe::give_back(&mark);",
    },
    Patch {
        name: "errors",
        reason: "ends the run where an error record or its expected kinds have no room (8)",
        anchor: "self.errors.push(error);",
        times: 3,
        how: How::Before,
        text: "crate::probe::log(&self.errors, &error); ",
    },
    Patch {
        name: "floats",
        reason: "a Float that does not parse is outside; by option it is read without an error",
        anchor: "s.parse::<f64>()",
        times: 1,
        how: How::Instead,
        text: "crate::probe::float(&s)",
    },
];

/// Named patch `depth`: the four functions at whose entry the depth rises; it falls when `_depth` is dropped (9).
const COUNTED: [&str; 4] = ["parse_exprs", "parse_expr_precedence", "parse_type_atom", "parse_pattern"];

/// Named patch `records`: the ranged values. Each is counted where the Rust builds it (7); `probe` knows which of them
/// are one record with a value inside them.
const RANGED: [&str; 17] = [
    "AssignLeft", "Block", "Effect", "EffectHandler", "Expr", "Function", "Ident", "ImportItem", "Lit", "MatchCase",
    "Pattern", "TablePatternPair", "TableProperty", "TableTyOther", "TableTyPair", "Ty", "TypedIdent",
];

/// Named patch `way-in`: a token list may be handed over, where the original has a text cut by its own lexer.
pub const WAY_IN: &str = "
pub fn parse_tokens<S: StringInterner>(interner: S, input: &str, tokens: &[Token]) -> (Program<S::String>, Vec<CompilerError>) {
    Parser::new(interner, input, tokens.iter().copied()).parse()
}
";

/// What the numbered branches need in scope.
pub const SCOPE: &str = "use crate::probe::Leaves as _;\n";

pub fn edits(source: &str, tokens: &[Token]) -> Result<Vec<Edit>, String> {
    let mut edits = Vec::new();
    for patch in &PATCHES {
        let places: Vec<usize> = source.match_indices(patch.anchor).map(|(at, _)| at).collect();
        if places.len() != patch.times {
            return Err(format!("patch {} ({}): {} places", patch.name, patch.reason, places.len()));
        }
        for at in places {
            let end = at + patch.anchor.len();
            edits.push(match patch.how {
                How::Before => insert(at, patch.text),
                How::After => insert(end, patch.text),
                How::Instead => replace(at, end, patch.text),
            });
        }
    }
    for name in COUNTED {
        let at = source.find(&format!("fn {name}(")).ok_or(format!("patch depth: no {name}"))?;
        let body = at + source[at..].find("{\n").ok_or(format!("patch depth: {name} has no body"))?;
        edits.push(insert(body + 1, " let _depth = crate::probe::enter();"));
    }
    records(source, tokens, &mut edits);
    Ok(edits)
}

/// Program, its function and its body are one record, counted by the caller; so `parse` itself is passed over.
fn records(source: &str, tokens: &[Token], edits: &mut Vec<Edit>) {
    let word = |i: usize| &source[tokens[i].start..tokens[i].end];
    let after_parse = source.find("fn parse_exprs(").unwrap_or(0);
    for i in 1..tokens.len() - 1 {
        let built = RANGED.contains(&word(i)) && word(i + 1) == "{" && word(i - 1) != ":";
        if built && tokens[i].start > after_parse {
            wrap(edits, tokens[i].start, tokens[tokens[i + 1].partner].end, "crate::probe::built(", ")");
        }
    }
}
