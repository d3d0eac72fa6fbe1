//! The readings of an error-free sheet, from its tree and its tokens alone (the document's demand 3).
//!
//! Each token that is no trivia counts once. A group or literal that stands first after a `{` which opens an expression, where
//! the whole is a Block, is read twice, with all that is in it. A nameless `fn` that opens a statement counts once more.

use std::collections::HashMap;

use crate::answer::Reading;
use crate::compiler::ast::*;
use crate::compiler::token::{Token, TokenKind};

struct Cost {
    /// Tokens that are no trivia.
    tokens: Vec<Token>,
    /// For the start of a token its index.
    index: HashMap<u32, usize>,
    /// How often each token is read.
    times: Vec<u64>,
}

pub fn readings(tokens: &[Token], reading: &Reading) -> u64 {
    let tokens: Vec<Token> = tokens.iter().copied().filter(|t| !t.kind.is_trivia()).collect();
    let index = tokens.iter().enumerate().map(|(i, t)| (t.range.start().into(), i)).collect();
    let times = vec![1; tokens.len()];
    let mut cost = Cost { tokens, index, times };
    cost.statements(&reading.0.function.body.body);
    cost.times.iter().sum()
}

/// Every expression right below one, statement lists of blocks as such.
enum Part<'a> {
    One(&'a Expr<String>),
    List(&'a [Expr<String>]),
}

impl Cost {
    fn statements(&mut self, list: &[Expr<String>]) {
        for statement in list {
            self.expr(statement);
            // A try is a Call with handlers: it opens with `try`, though its range starts at its callee.
            let tried = matches!(&statement.kind, ExprKind::Call { handlers, .. } if !handlers.is_empty());
            let at = self.index[&statement.range.start().into()];
            let nameless = self.tokens.get(at + 1).is_some_and(|t| t.kind != TokenKind::Ident);
            if !tried && self.tokens[at].kind == TokenKind::Fn && nameless {
                // Groups around it are doubled after this, and the mark with them.
                self.times[at] += 1;
            }
        }
    }

    fn expr(&mut self, expr: &Expr<String>) {
        for part in parts(expr) {
            match part {
                Part::One(inner) => self.expr(inner),
                Part::List(list) => self.statements(list),
            }
        }
        if let ExprKind::Block(_) = &expr.kind {
            let open = self.index[&expr.range.start().into()];
            if self.tokens[open].kind == TokenKind::OpenBrace {
                self.double_first(open + 1, expr);
            }
        }
    }

    /// Doubles the group or literal that comes first after the `{`.
    fn double_first(&mut self, mut at: usize, block: &Expr<String>) {
        while self.tokens[at].kind == TokenKind::Eol {
            at += 1;
        }
        use TokenKind::*;
        let end = match self.tokens[at].kind {
            Int | Float | Str | RawStr | ByteStr | Null | True | False => at + 1,
            OpenParen => {
                let end = group_end(block, self.tokens[at].range.start().into()).expect("a group stands there");
                self.tokens.iter().position(|t| u32::from(t.range.end()) == end).expect("it ends with a token") + 1
            }
            _ => return,
        };
        self.times[at..end].iter_mut().for_each(|times| *times *= 2);
    }
}

/// The end of the Paren that starts at `start`, somewhere leftmost below `expr`.
fn group_end(expr: &Expr<String>, start: u32) -> Option<u32> {
    if u32::from(expr.range.start()) == start && matches!(expr.kind, ExprKind::Paren(_)) {
        return Some(expr.range.end().into());
    }
    let first = parts(expr).into_iter().next()?;
    match first {
        Part::One(inner) => group_end(inner, start),
        Part::List(list) => group_end(list.first()?, start),
    }
}

fn property(kind: &MemberKind<String>) -> Vec<Part<'_>> {
    match kind {
        MemberKind::Bracket(expr) => vec![Part::One(expr)],
        _ => Vec::new(),
    }
}

fn left(left: &AssignLeft<String>) -> Vec<Part<'_>> {
    match &left.kind {
        AssignLeftKind::Member { property: kind, .. } => property(kind),
        AssignLeftKind::Ident(_) => Vec::new(),
    }
}

fn parts(expr: &Expr<String>) -> Vec<Part<'_>> {
    use ExprKind::*;
    use Part::{List as Stmts, One};
    match &expr.kind {
        Lit(_) | Ident(_) | Effect { .. } | Break | Continue | Import { .. } => Vec::new(),
        Paren(e) | Unary { argument: e, .. } | TypeCheck { left: e, .. } => vec![One(e)],
        Return { argument: e } | GloAssign { right: e, .. } => vec![One(e)],
        Block(block) | Loop { body: block } => vec![Stmts(&block.body)],
        Fn { function, .. } => vec![Stmts(&function.body.body)],
        Table { properties } => properties.iter().flat_map(|p| [One(&p.key), One(&p.value)]).collect(),
        List { items } => items.iter().map(One).collect(),
        Binary { left, right, .. } => vec![One(left), One(right)],
        Member { table, property: kind, .. } => [One(table)].into_iter().chain(property(kind)).collect(),
        Call { callee, arguments, trailing_lambda, handlers } => [One(callee)]
            .into_iter()
            .chain(arguments.iter().map(One))
            .chain(trailing_lambda.iter().map(|f| Stmts(&f.body.body)))
            .chain(handlers.iter().map(|h| Stmts(&h.body.body)))
            .collect(),
        If { test, consequent, alternate } => [One(test), Stmts(&consequent.body)]
            .into_iter()
            .chain(alternate.iter().map(|e| match &e.kind {
                Block(block) => Stmts(&block.body),
                _ => One(e),
            }))
            .collect(),
        Match { expr, cases } => [One(expr)].into_iter().chain(cases.iter().map(|c| One(&c.body))).collect(),
        While { test, body } | For { right: test, body, .. } => vec![One(test), Stmts(&body.body)],
        Assign { left: l, right } | AssignOp { left: l, right, .. } => left(l).into_iter().chain([One(right)]).collect(),
        AssignUnpack { left: l, right } => l.iter().flat_map(left).chain([One(right)]).collect(),
        AssignMulti { left: l, right } => l.iter().flat_map(left).chain(right.iter().map(One)).collect(),
    }
}
