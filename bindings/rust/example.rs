//! Reads the sheet `a is int * b` and holds what comes back to the document's figures; then a sheet with an error, and two that are refused.
//! Exit status 1 where something differs.
use std::fmt::{Debug, Write};
use std::process::ExitCode;

use lucia_parse::{parse, token, Cause, Errors, Node, NodeKind, Nodes, Refusal, Token};
use lucia_parse::{ERROR_WORDS, NODE_WORDS, TOKEN_WORDS};

const SHEET: &[u8] = b"a is int * b";

// `int` is an Ident to the lexer, as every type word is.
const TOKENS: [[u32; TOKEN_WORDS]; 9] = [
    Token::new(token::IDENT, 0, 1).words(),
    Token::new(token::WHITESPACE, 1, 2).words(),
    Token::new(token::IS, 2, 4).words(),
    Token::new(token::WHITESPACE, 4, 5).words(),
    Token::new(token::IDENT, 5, 8).words(),
    Token::new(token::WHITESPACE, 8, 9).words(),
    Token::new(token::MUL, 9, 10).words(),
    Token::new(token::WHITESPACE, 10, 11).words(),
    Token::new(token::IDENT, 11, 12).words(),
];

// The document's listing of it.
const LISTING: &str = "\
read 0 reads 5 nodes 5 errors 0
0 Program 0 12
1 Binary 0 12 Mul
2 TypeCheck 0 8 Int
3 Ident 0 1
2 Ident 11 12
";

// The document's expected kinds for the sheet `)`.
const EXPECTED: [u8; 23] = [
    70, 29, 21, 31, 20, 24, 65, 27, 50, 4, 52, 54, 29, 63, 30, 10, 12, 13, 14, 15, 17, 18, 19,
];

const ALLOWANCE: u32 = 1000;

// Something other than zero, to see what is cleared and what is left alone.
const BEFORE: u32 = 0xa5a5_a5a5;

struct Buffers {
    nodes: Vec<u32>,
    errors: Vec<u32>,
    expected: Vec<u8>,
}

impl Buffers {
    fn with_room(nodes: usize) -> Buffers {
        Buffers {
            nodes: vec![BEFORE; NODE_WORDS * nodes],
            errors: vec![BEFORE; ERROR_WORDS * 4],
            expected: vec![0xa5; 256],
        }
    }

    fn read(&mut self, text: &[u8], tokens: &[u32]) -> Result<lucia_parse::Reading, Refusal> {
        parse(
            text,
            tokens,
            ALLOWANCE,
            &mut self.nodes,
            &mut self.errors,
            &mut self.expected,
        )
    }

    fn all_are(&self, word: u32) -> bool {
        let byte = word as u8;
        self.nodes.iter().chain(&self.errors).all(|&w| w == word)
            && self.expected.iter().all(|&b| b == byte)
    }
}

#[derive(Default)]
struct Checks {
    wrong: bool,
}

impl Checks {
    fn same<T: PartialEq + Debug>(&mut self, what: &str, got: T, want: T) {
        if got != want {
            println!("WRONG: {what}: got {got:?}, not {want:?}");
            self.wrong = true;
        }
    }
}

// A subtree as the lister prints it, parent before children. Only the words of this sheet are spelled.
fn list(node: Node<'_>, level: usize, out: &mut String) {
    let name = node.kind().map_or("?", NodeKind::listed);
    let detail = match (node.kind(), node.one()) {
        (Some(NodeKind::Binary), token::MUL) => " Mul",
        (Some(NodeKind::TypeCheck), 2) => " Int",
        _ => "",
    };
    let range = node.range();
    writeln!(out, "{level} {name} {} {}{detail}", range.start, range.end)
        .expect("a String takes all");
    for child in node.children() {
        list(child, level + 1, out);
    }
}

fn reads_the_example(checks: &mut Checks) {
    let mut buffers = Buffers::with_room(16);
    let reading = match buffers.read(SHEET, TOKENS.as_flattened()) {
        Ok(reading) => reading,
        Err(refusal) => {
            checks.same("the answer", Some(refusal), None);
            return;
        }
    };
    println!("{reading:?}");
    let nodes = Nodes::new(&buffers.nodes, &reading);
    for node in nodes.iter() {
        println!(
            "record {}: {:?} {:?} {:?}",
            node.index(),
            node.kind(),
            node.range(),
            node.words()
        );
    }
    let mut listing = format!(
        "read 0 reads {} nodes {} errors {}\n",
        reading.reads, reading.nodes, reading.errors
    );
    if let Some(root) = nodes.root() {
        list(root, 0, &mut listing);
        checks.same("statements", root.flags().n(), 1);
        checks.same("the root's text", root.text(SHEET), Some(SHEET));
    }
    print!("{listing}");
    checks.same("the listing", listing.as_str(), LISTING);
    checks.same("expected kinds", reading.expected, 0);
    let past = buffers.nodes.iter().skip(NODE_WORDS * nodes.len());
    checks.same(
        "zeros past the node records",
        past.chain(&buffers.errors).all(|&word| word == 0),
        true,
    );
    checks.same(
        "zeros for expected kinds",
        buffers.expected.iter().all(|&byte| byte == 0),
        true,
    );
}

fn lists_an_error(checks: &mut Checks) {
    let mut buffers = Buffers::with_room(16);
    let reading = match buffers.read(b")", &Token::new(token::CLOSE_PAREN, 0, 1).words()) {
        Ok(reading) => reading,
        Err(refusal) => {
            checks.same("the answer to `)`", Some(refusal), None);
            return;
        }
    };
    let errors = Errors::new(&buffers.errors, &buffers.expected, &reading);
    checks.same("errors of `)`", errors.len(), 1);
    for error in errors.iter() {
        println!(
            "error {:?} {:?} expected {:?}",
            error.cause(),
            error.range(),
            error.expected()
        );
        checks.same(
            "what was found",
            error.cause(),
            Some(Cause::Unexpected(token::CLOSE_PAREN)),
        );
        checks.same("where", error.range(), 0..1);
        checks.same("what was expected", error.expected(), &EXPECTED[..]);
    }
}

fn is_refused(checks: &mut Checks) {
    // On the way: four records are too few for the example.
    let mut buffers = Buffers::with_room(4);
    let answer = buffers.read(SHEET, TOKENS.as_flattened());
    if let Err(refusal) = answer {
        println!("{refusal}");
    }
    checks.same("a small buffer", answer, Err(Refusal::NodesFull));
    checks.same("zeros after it", buffers.all_are(0), true);

    // At the door: Eof is no token of a list.
    let mut buffers = Buffers::with_room(16);
    let answer = buffers.read(b"a", &Token::new(token::EOF, 0, 1).words());
    if let Err(refusal) = answer {
        println!("{refusal}");
    }
    checks.same("Eof in the list", answer, Err(Refusal::BadKind));
    checks.same("buffers untouched", buffers.all_are(BEFORE), true);
}

fn main() -> ExitCode {
    let mut checks = Checks::default();
    reads_the_example(&mut checks);
    lists_an_error(&mut checks);
    is_refused(&mut checks);
    if checks.wrong {
        return ExitCode::FAILURE;
    }
    println!("as the document says");
    ExitCode::SUCCESS
}
