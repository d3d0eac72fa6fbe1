//! known: runs the sheets whose outcomes the document gives ('Sheets with known outcomes' and examples in its rules) and
//! compares; then what an earlier run settled about records and lines. Each row names a sheet, the option it needs, and lines that
//! its listing must have, in this order. Fails if one differs.

use lucia::{answer, bundle::{Bundle, Word}, compiler::token::TokenKind, entry::KINDS, probe::LISTER, spell::row as row_of};

struct Known {
    text: String,
    rule: bool,
    lines: &'static [&'static str],
}

fn row(text: &str, lines: &'static [&'static str]) -> Known {
    Known { text: text.to_owned(), rule: false, lines }
}

fn rows() -> Vec<Known> {
    let parens = |n: usize| "(".repeat(n) + "x" + &")".repeat(n);
    vec![
        row("", &["read 0 reads 0 nodes 1 errors 0", "0 Program 0 0"]),
        row("a is int * b", &["read 0 reads 5 nodes 5 errors 0", "0 Program 0 12", "1 Binary 0 12 Mul", "2 TypeCheck 0 8 Int",
            "3 Ident 0 1", "2 Ident 11 12"]),
        row("{\n}", &["read 0 reads 3 nodes 2 errors 0", "1 Table 0 3"]),
        row("{1}", &["read 0 reads 4 nodes 4 errors 0", "1 Block 0 3"]),
        row("{1: 2}", &["read 0 reads 5 nodes 5 errors 0", "1 Table 0 6"]),
        row("{(x)}", &["read 0 reads 8 nodes 5 errors 0", "1 Block 0 5"]),
        row("{(x): 1}", &["read 0 reads 7 nodes 6 errors 0", "1 Table 0 8"]),
        row("{({(x)})}", &["read 0 reads 22 nodes 8 errors 0"]),
        row("fn () {}", &["read 0 reads 6 nodes 4 errors 0"]),
        row(")", &["read 0 reads 1 nodes 1 errors 1",
            "error 51 0 1 70 29 21 31 20 24 65 27 50 4 52 54 29 63 30 10 12 13 14 15 17 18 19"]),
        row("import a", &["read 0 reads 2 nodes 1 errors 1", "error 70 8 8 36 69 22"]),
        Known { rule: true, ..row("fn f () {+}", &["read 0 reads 7 nodes 5 errors 1", "1 Fn 0 11",
            "error 64 9 10 53 29 21 31 20 24 65 27 50 4 52 54 29 63 30 10 12 13 14 15 17 18 19"]) },
        row("fn f () {+}", &["outside attempt"]),
        row("not not a", &["read 0 reads 3 nodes 1 errors 1"]),
        row("{a: 1}", &["read 0 reads 5 nodes 3 errors 1"]),
        row("9223372036854775807", &["read 0 reads 1 nodes 2 errors 0", "1 Int 0 19 9223372036854775807"]),
        row("9223372036854775808", &["error int 2 0 19"]),
        row("-9223372036854775808", &["error int 2 1 20"]),
        Known { text: parens(62), rule: false, lines: &["read 0 reads 125 nodes 64 errors 0"] },
        Known { text: parens(63), rule: false, lines: &["refused 9"] },
        row("f: fn int) = 1", &["read 0 reads 7 nodes 7 errors 0"]),
        row("f: fn (int) = 1", &["read 0 reads 8 nodes 1 errors 1"]),
        row("match x {\n}", &["read 0 reads 5 nodes 1 errors 1"]),
        row("match x {}", &["read 0 reads 4 nodes 3 errors 0"]),
    ]
}

/// Statements about records and lines that were settled by an earlier run.
fn settled() -> Vec<Known> {
    vec![
        row("if a {b} else {c}", &["1 If 0 17", "2 Block 6 8", "2 Block 15 17", "3 Block 15 17", "4 Ident 15 16"]),
        row("fn f () {}", &["1 Fn 0 10", "2 Ident 3 4", "2 Function 0 10", "3 Block 9 10"]),
        row("x {y}", &["1 Call 0 5", "2 Closure 3 5", "3 Block 3 5"]),
        row("import a::{b}", &["1 Import 0 13", "2 Ident 7 8", "2 ImportItem 11 12", "3 Ident 11 12"]),
        row("match x { {1: a} => 2 }", &["2 MatchCase 10 21", "3 Table 10 16", "4 TablePatternPair 11 15", "5 Int 11 12 1"]),
        row("glo fn f () {}", &["1 Fn 0 14", "2 Ident 7 8", "2 Function 0 14"]),
        row("glo effect e ()", &["1 Effect 0 15", "2 Ident 11 12", "2 Effect 4 15"]),
        row("try x() with e () {}", &["1 Call 4 7", "2 Ident 4 5", "2 EffectHandler 8 20"]),
        row("|a, ...b| -> c {d}", &["2 Closure 0 18", "3 Ident 1 2", "3 Ident 7 8", "3 Ident 13 14", "3 Block 16 18"]),
        row("do {x}", &["1 Fn 0 6", "2 Do 0 6", "3 Block 4 6"]),
        row("{({fn f () {+}})}", &["outside attempt"]),
        row("a.b", &["1 Member 0 3", "2 Ident 0 1", "2 Ident 2 3"]),
        row("a.b != r'c'", &["1 Binary 0 11 Ne", "2 Str 7 11"]),
        row("a -= - b'c'", &["1 AssignOp 0 11 Sub", "2 Ident 0 1", "2 Unary 5 11 Neg", "3 Bytes 7 11"]),
        row("a is userdata", &["1 TypeCheck 0 13 UserData"]),
        row("a: b = c", &["1 Assign 0 8", "2 TypedIdent 0 4", "3 Ident 0 1", "3 Ident 3 4", "2 Ident 7 8"]),
        row("a.b = true", &["1 Assign 0 10", "2 Member 0 3", "3 Ident 0 1", "3 Ident 2 3", "2 Bool 6 10"]),
        row("try x", &["error 27 0 3"]),
        row("a is effect", &["error 31 5 11"]),
        row("x\nif a {", &["read 0 reads 5 nodes 5 errors 2", "1 If 2 8", "2 Block 0 8"]),
        row("{", &["read 0 reads 1 nodes 3 errors 2"]),
    ]
}

/// Lists that no lexer cuts.
fn lists() -> Vec<(&'static str, Bundle, &'static [&'static str])> {
    use TokenKind::*;
    let trivia = Bundle { text: b"x ".to_vec(), words: vec![Word { kind: 2, start: 1, end: 2 }] };
    vec![
        ("a Str of the single byte \"", row_of(&[(Str, "\"")]), &["refused 6"]),
        ("an Ident spelled effect after `is`", row_of(&[(Ident, "a"), (Is, "is"), (Ident, "effect")]), &["1 TypeCheck 0 9 Effect"]),
        ("trivia only, from 1", trivia, &["outside trivia"]),
        ("a Str with a backslash, skipped", row_of(&[(CloseParen, ")"), (Str, "'\\'")]), &["outside literal"]),
        ("a ByteStr above 127", row_of(&[(ByteStr, "b'é'")]), &["outside literal"]),
        ("a Float that does not parse", row_of(&[(Float, "x")]), &["outside literal"]),
        ("an Int that is a sign", row_of(&[(Int, "-")]), &["error int 1 0 1"]),
        ("an Int of underscores", row_of(&[(Int, "__")]), &["error int 0 0 2"]),
        ("the least integer as one Int", row_of(&[(Int, "-9223372036854775808")]), &["1 Int 0 20 -9223372036854775808"]),
        ("one below it", row_of(&[(Int, "-9223372036854775809")]), &["error int 3 0 20"]),
        ("a prefix behind an underscore", row_of(&[(Int, "0_x1")]), &["1 Int 0 4 1"]),
        ("a kind of error", row_of(&[(UnterminatedByteStr, "b'")]), &["read 0 reads 1 nodes 1 errors 1"]),
    ]
}

/// The kind numbers that the document names.
fn kinds() -> bool {
    use TokenKind::*;
    let named = [(Ident, 4), (Int, 5), (Fn, 29), (Comma, 48), (OpenParen, 50), (CloseParen, 51), (OpenBrace, 52), (CloseBrace, 53),
        (Colon, 59), (Add, 64), (Eol, 69), (Eof, 70), (UnterminatedByteStr, 78)];
    named.iter().all(|(kind, number)| *kind as u8 == *number)
        && KINDS.iter().enumerate().all(|(i, kind)| *kind as usize == i && kind.is_trivia() == (i < 4))
}

fn compare(name: &str, text: &str, lines: &[&str]) -> bool {
    let mut rest = text.lines();
    let missing: Vec<&&str> = lines.iter().filter(|line| !rest.any(|l| l == **line)).collect();
    let short: String = name.chars().take(40).collect();
    println!("{} {short:?}: {}", if missing.is_empty() { "agrees " } else { "DIFFERS" }, lines[0]);
    if !missing.is_empty() {
        println!("  not found: {missing:?}\n{text}");
    }
    missing.is_empty()
}

fn main() {
    let mut good = kinds();
    println!("{} the kind numbers", if good { "agrees " } else { "DIFFERS" });
    for row in rows().into_iter().chain(settled()) {
        let answer = answer::bundle(&answer::cut(&row.text), LISTER, row.rule);
        good &= compare(&row.text, &answer.text, row.lines);
    }
    for (name, bundle, lines) in lists() {
        good &= compare(name, &answer::bundle(&bundle, LISTER, false).text, lines);
    }
    std::process::exit(if good { 0 } else { 1 });
}
