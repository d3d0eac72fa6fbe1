//! Named patch `branches`: numbers each place of parser.rs where the way forks and counts how often each way is gone:
//! both sides of a test, each arm of a match, each turn of a loop, each `?` that leaves, each `unexpected()`, each `Err(..)`.

use crate::edits::{Edit, insert, wrap};
use crate::tokens::Token;

pub struct Site {
    line: usize,
    function: String,
    what: &'static str,
}

struct Numbering<'a> {
    source: &'a str,
    tokens: &'a [Token],
    edits: &'a mut Vec<Edit>,
    sites: Vec<Site>,
    function: String,
}

pub fn edits(source: &str, tokens: &[Token], edits: &mut Vec<Edit>) -> Vec<Site> {
    let mut n = Numbering { source, tokens, edits, sites: Vec::new(), function: String::new() };
    let first = source.find("impl<'input").expect("an impl");
    for i in 0..tokens.len() - 1 {
        if tokens[i].start > first {
            n.visit(i);
        }
    }
    n.sites
}

pub fn table(sites: &[Site]) -> String {
    let rows: Vec<String> = sites
        .iter()
        .map(|s| format!("    ({}, \"{}\", \"{}\"),\n", s.line, s.function, s.what))
        .collect();
    format!("pub const SITES: [(u32, &str, &str); {}] = [\n{}];\n", rows.len(), rows.concat())
}

impl Numbering<'_> {
    fn word(&self, i: usize) -> &str {
        self.tokens.get(i).map_or("", |t| &self.source[t.start..t.end])
    }

    fn words(&self, i: usize, expected: &[&str]) -> bool {
        expected.iter().enumerate().all(|(k, w)| self.word(i + k) == *w)
    }

    fn site(&mut self, i: usize, what: &'static str) -> usize {
        let line = self.source[..self.tokens[i].start].matches('\n').count() + 1;
        self.sites.push(Site { line, function: self.function.clone(), what });
        self.sites.len() - 1
    }

    /// The next token, whole brackets passed over.
    fn next(&self, i: usize) -> usize {
        if matches!(self.word(i), "(" | "[" | "{") { self.tokens[i].partner + 1 } else { i + 1 }
    }

    /// The first `{`, or the first `=>` of a guard, from `i` on; brackets and the pattern of a `let` are passed over.
    fn head_end(&self, mut i: usize) -> usize {
        while self.word(i) != "{" && !self.words(i, &["=", ">"]) {
            if self.word(i) == "let" {
                while self.word(i) != "=" {
                    i = self.next(i);
                }
            }
            i = self.next(i);
        }
        i
    }

    fn hit_after(&mut self, i: usize, what: &'static str) {
        let number = self.site(i, what);
        self.edits.push(insert(self.tokens[i].end, format!(" crate::probe::hit({number});")));
    }

    fn visit(&mut self, i: usize) {
        match self.word(i) {
            "fn" => self.function = self.word(i + 1).to_owned(),
            "if" | "while" => self.test(i),
            "loop" | "for" if self.word(i + 1) == "{" || self.word(i + 1) == "_" => {
                let body = self.head_end(i + 1);
                self.hit_after(body, "turn");
            }
            "else" if self.word(i - 1) != "}" => self.hit_after(i + 1, "otherwise"),
            "match" => self.arms(i),
            "?" => {
                let number = self.site(i, "leaves");
                self.edits.push(insert(self.tokens[i].start, format!(".leaves({number})")));
            }
            "self" if self.words(i, &["self", ".", "unexpected", "("]) => {
                let number = self.site(i, "unexpected");
                let (start, end) = (self.tokens[i].start, self.tokens[i + 4].end);
                wrap(self.edits, start, end, format!("crate::probe::at({number}, "), ")");
            }
            "Err" if self.word(i + 1) == "(" => self.error(i),
            _ => {}
        }
    }

    fn test(&mut self, i: usize) {
        let end = self.head_end(i + 1);
        let bound = (i + 1..end).any(|k| self.word(k) == "let");
        if !bound {
            let number = self.site(i, "yes");
            self.site(i, "no");
            let (start, stop) = (self.tokens[i + 1].start, self.tokens[end - 1].end);
            wrap(self.edits, start, stop, format!("crate::probe::test({number}, "), ")");
            return;
        }
        self.hit_after(end, "fits");
        let close = self.tokens[end].partner;
        if self.word(i) == "while" {
            return;
        }
        if self.word(close + 1) == "else" {
            self.hit_after(close + 2, "otherwise");
        } else {
            let number = self.site(close, "otherwise");
            self.edits.push(insert(self.tokens[close].end, format!(" else {{ crate::probe::hit({number}); }}")));
        }
    }

    fn arms(&mut self, i: usize) {
        let open = self.head_end(i + 1);
        let close = self.tokens[open].partner;
        let mut k = open + 1;
        while k < close {
            let pattern = k;
            while !self.words(k, &["=", ">"]) {
                k = self.next(k);
            }
            let body = k + 2;
            if self.word(body) == "{" {
                self.hit_after(body, "arm");
                k = self.tokens[body].partner + 1;
                k += usize::from(self.word(k) == ",");
                continue;
            }
            k = body;
            while k < close && self.word(k) != "," {
                k = self.next(k);
            }
            let number = self.site(pattern, "arm");
            let (start, end) = (self.tokens[body].start, self.tokens[k - 1].end);
            wrap(self.edits, start, end, format!("{{ crate::probe::hit({number}); "), " }");
            k += 1;
        }
    }

    /// An `Err(..)` that is built, not one that is matched.
    fn error(&mut self, i: usize) {
        let close = self.tokens[i + 1].partner;
        let after = if self.word(close + 1) == ")" { close + 2 } else { close + 1 };
        if self.word(after) == "=" {
            return;
        }
        let number = self.site(i, "Err");
        let (start, end) = (self.tokens[i + 1].end, self.tokens[close].start);
        wrap(self.edits, start, end, format!("crate::probe::at({number}, "), ")");
    }
}
