//! Sheets over every construct of the language, as the grammar has them. Nearly all are read without an error.

use crate::chance::Chance;
use crate::compiler::token::{TokenKind, TokenKind::*};
use crate::spell::{Piece, Taste, spell};

pub struct Sheets<'a> {
    chance: &'a mut Chance,
    pieces: Vec<Piece>,
    /// Falls with each piece; once spent, the smallest form is chosen everywhere.
    fuel: i32,
}

const OPERATORS: [TokenKind; 13] = [Add, Sub, Mul, Div, Rem, And, Or, Eq, NotEq, Lt, LtEq, Gt, GtEq];
const LITERALS: [TokenKind; 10] = [Int, Int, Int, Str, Str, RawStr, ByteStr, Float, True, Null];

/// A sheet of about `size` pieces.
pub fn sheet(chance: &mut Chance, size: i32) -> Vec<Piece> {
    let mut sheets = Sheets { chance, pieces: Vec::new(), fuel: size };
    sheets.eols(6);
    sheets.statements(false);
    while sheets.fuel > 0 && !sheets.chance.one_in(6) {
        sheets.put(Eol);
        sheets.statement();
    }
    if sheets.ends_in_import() || sheets.chance.one_in(4) {
        sheets.put(Eol);
    }
    sheets.pieces
}

impl Sheets<'_> {
    fn put(&mut self, kind: TokenKind) {
        let piece = spell(kind, Taste::Plain, self.chance);
        self.fuel -= 1;
        self.pieces.push(piece);
    }

    fn put_all(&mut self, kinds: &[TokenKind]) {
        kinds.iter().for_each(|kind| self.put(*kind));
    }

    /// Once in `n`, and never when the fuel is spent.
    fn maybe(&mut self, n: usize) -> bool {
        self.fuel > 0 && self.chance.one_in(n)
    }

    fn eols(&mut self, n: usize) {
        if self.maybe(n) {
            self.put(Eol);
        }
    }

    /// A simple import wants an Eol behind it.
    fn ends_in_import(&self) -> bool {
        let line = self.pieces.rsplit(|p| p.kind == Eol).next().unwrap_or(&[]);
        let from = line.iter().rposition(|p| p.kind == Import);
        from.is_some_and(|at| line[at + 1..].iter().all(|p| matches!(p.kind, Ident | DoubleColon)))
    }

    fn statements(&mut self, at_least_one: bool) {
        let count = if self.fuel <= 0 { 0 } else { self.chance.below(4) };
        for i in 0..count.max(usize::from(at_least_one)) {
            if i > 0 {
                self.put(Eol);
            }
            self.statement();
        }
    }

    fn block(&mut self) {
        self.put(OpenBrace);
        self.eols(4);
        self.statements(false);
        if self.ends_in_import() {
            self.put(Eol);
        }
        self.eols(4);
        self.put(CloseBrace);
    }

    fn statement(&mut self) {
        if self.fuel <= 0 {
            return self.put(Ident);
        }
        match self.chance.below(20) {
            0 => {
                self.put_all(&[Fn, Ident]);
                self.function();
            }
            1 | 2 => self.import(),
            3 => self.effect(),
            4 => self.global(),
            5 | 6 => {
                self.assign_left();
                self.put(Assign);
                self.expr(true);
            }
            7 => {
                self.put_all(&[Ident, Colon]);
                self.ty(false);
                self.put(Assign);
                self.expr(true);
            }
            8 => {
                self.assign_left();
                let operator = self.chance.pick(&[AddAssign, SubAssign, MulAssign, DivAssign, RemAssign]);
                self.put(operator);
                self.expr(true);
            }
            9 => self.assign_many(),
            _ => self.expr(true),
        }
    }

    fn import(&mut self) {
        self.put_all(&[Import, Ident]);
        while self.maybe(2) {
            self.put_all(&[DoubleColon, Ident]);
        }
        match self.chance.below(4) {
            0 => self.put_all(&[As, Ident]),
            1 => self.put_all(&[DoubleColon, Mul]),
            2 => {
                self.put_all(&[DoubleColon, OpenBrace]);
                self.items(CloseBrace, |s| {
                    s.put(Ident);
                    if s.maybe(2) {
                        s.put_all(&[As, Ident]);
                    }
                });
            }
            _ => {}
        }
    }

    fn effect(&mut self) {
        self.put_all(&[Effect, Ident]);
        self.params();
        self.returns(false);
    }

    fn global(&mut self) {
        self.put(Glo);
        match self.chance.below(3) {
            0 => {
                self.put_all(&[Fn, Ident]);
                self.function();
            }
            1 => self.effect(),
            _ => {
                self.typed(false);
                self.put(Assign);
                self.expr(true);
            }
        }
    }

    fn assign_left(&mut self) {
        self.put(Ident);
        if self.maybe(2) {
            self.member();
        }
    }

    fn assign_many(&mut self) {
        let count = 1 + self.chance.below(3);
        self.assign_left();
        for _ in 0..count {
            self.put(Comma);
            self.assign_left();
        }
        self.put(Assign);
        self.expr(true);
        if self.chance.one_in(2) {
            for _ in 0..count {
                self.put(Comma);
                self.expr(true);
            }
        }
    }

    /// Items up to `end`, with a comma between two and Eols where they may stand.
    fn items(&mut self, end: TokenKind, mut item: impl FnMut(&mut Self)) {
        self.eols(5);
        let count = if self.fuel <= 0 { 0 } else { self.chance.below(4) };
        for i in 0..count {
            item(self);
            self.eols(6);
            if i + 1 < count || self.maybe(4) {
                self.put(Comma);
                self.eols(6);
            }
        }
        self.put(end);
    }

    /// The same with a last item of another sort.
    fn items_with_last(&mut self, end: TokenKind, mut item: impl FnMut(&mut Self), last: impl FnOnce(&mut Self)) {
        if !self.maybe(3) {
            return self.items(end, item);
        }
        self.eols(5);
        for _ in 0..self.chance.below(3) {
            item(self);
            self.eols(6);
            self.put(Comma);
            self.eols(6);
        }
        last(self);
        self.eols(6);
        self.put(end);
    }

    fn params(&mut self) {
        self.put(OpenParen);
        self.items_with_last(CloseParen, |s| s.typed(false), |s| {
            s.put(Ellipsis);
            s.typed(false);
        });
    }

    fn typed(&mut self, atom: bool) {
        self.put(Ident);
        if self.maybe(2) {
            self.put(Colon);
            self.ty(atom);
        }
    }

    fn returns(&mut self, atom: bool) {
        if self.maybe(3) {
            self.put(Arrow);
            self.ty(atom);
        }
    }

    fn function(&mut self) {
        self.params();
        self.returns(false);
        self.block();
    }

    /// A type; `atom` where a following `|` belongs to something else.
    fn ty(&mut self, atom: bool) {
        self.ty_atom(atom);
        while !atom && self.maybe(4) {
            self.put(VBar);
            self.ty_atom(false);
        }
    }

    fn ty_atom(&mut self, atom: bool) {
        let form = if self.fuel <= 0 { 9 } else { self.chance.below(10) };
        match form {
            0 => {
                self.put(OpenParen);
                self.ty(false);
                self.put(CloseParen);
            }
            1 | 2 => {
                self.put(OpenBrace);
                self.items_with_last(CloseBrace, |s| s.pair_ty(), |s| {
                    s.put(OpenBracket);
                    s.ty(false);
                    s.put_all(&[CloseBracket, Colon]);
                    s.ty(false);
                });
            }
            3 | 4 => {
                self.put(Fn);
                self.items_with_last(CloseParen, |s| s.ty(false), |s| {
                    s.put(Ellipsis);
                    s.ty(false);
                });
                if !atom {
                    self.returns(false);
                }
            }
            5 => self.literal(),
            _ => self.put(Ident),
        }
    }

    fn pair_ty(&mut self) {
        self.put_all(&[Ident, Colon]);
        self.ty(false);
    }

    fn literal(&mut self) {
        let kind = self.chance.pick(&LITERALS);
        let kind = if kind == True && self.chance.one_in(2) { False } else { kind };
        self.put(kind);
    }

    fn pattern(&mut self) {
        let form = if self.fuel <= 0 { 9 } else { self.chance.below(8) };
        match form {
            0 | 1 => {
                self.put(OpenBrace);
                self.items_with_last(CloseBrace, |s| {
                    s.literal();
                    s.put(Colon);
                    s.pattern();
                }, |s| s.put(Ellipsis));
            }
            2 | 3 => {
                self.put(OpenBracket);
                self.items_with_last(CloseBracket, |s| s.pattern(), |s| s.put(Ellipsis));
            }
            4 | 5 => self.put(Ident),
            _ => self.literal(),
        }
    }

    /// An expression; `lambda` where a `{` behind a primary is its trailing lambda.
    fn expr(&mut self, lambda: bool) {
        self.unary(lambda);
        while self.maybe(4) {
            if self.chance.one_in(4) {
                self.put(Is);
                self.type_word();
            } else {
                let operator = self.chance.pick(&OPERATORS);
                self.put(operator);
                self.unary(lambda);
            }
        }
    }

    fn type_word(&mut self) {
        let words = ["bool", "int", "float", "str", "bytes", "table", "function", "effect", "userdata"];
        if self.chance.one_in(5) {
            return self.put(Null);
        }
        let text = self.chance.pick(&words).to_owned();
        self.fuel -= 1;
        self.pieces.push(Piece { kind: Ident, text });
    }

    fn unary(&mut self, lambda: bool) {
        if self.fuel <= 0 {
            return self.put(Ident);
        }
        match self.chance.below(14) {
            0 => self.put(Not),
            1 => self.put(Sub),
            2 => return self.attempt(lambda),
            _ => {}
        }
        self.primary(lambda);
    }

    fn attempt(&mut self, lambda: bool) {
        self.put(Try);
        self.primary(lambda);
        self.call(lambda);
        for _ in 0..1 + self.chance.below(2) {
            self.put_all(&[With, Ident]);
            self.params();
            self.block();
        }
    }

    fn primary(&mut self, lambda: bool) {
        self.atom(lambda);
        while self.maybe(3) {
            match self.chance.below(5) {
                0 | 1 => self.call(lambda),
                2 if lambda => self.block(),
                3 => {
                    self.put(Question);
                    self.member();
                }
                _ => self.member(),
            }
        }
    }

    fn call(&mut self, lambda: bool) {
        self.put(OpenParen);
        self.items(CloseParen, |s| s.expr(true));
        if lambda && self.maybe(4) {
            self.block();
        }
    }

    fn member(&mut self) {
        match self.chance.below(6) {
            0 => {
                self.put(OpenBracket);
                self.expr(true);
                self.put(CloseBracket);
            }
            1 => self.put_all(&[OpenBracket, Pound, CloseBracket]),
            2 => self.put_all(&[Dot, Pound]),
            3 => self.put_all(&[DoubleColon, Pound]),
            4 => self.put_all(&[DoubleColon, Ident]),
            _ => self.put_all(&[Dot, Ident]),
        }
    }

    fn atom(&mut self, lambda: bool) {
        let form = if self.fuel <= 0 { 99 } else { self.chance.below(30) };
        match form {
            0 | 1 => {
                self.put(OpenParen);
                if self.maybe(3) { self.block_expr() } else { self.expr(true) }
                self.put(CloseParen);
            }
            2 | 3 => self.block_expr(),
            4 | 5 => {
                self.put(OpenBrace);
                self.items(CloseBrace, |s| s.property());
            }
            6 | 7 => {
                self.put(OpenBracket);
                self.items(CloseBracket, |s| s.expr(true));
            }
            8 => {
                self.put(Fn);
                self.function();
            }
            9 => self.closure(),
            10 => {
                self.put(Do);
                self.block();
            }
            11..17 => self.control(form, lambda),
            17..22 => self.literal(),
            _ => self.put(Ident),
        }
    }

    /// A block that opens an expression: one in two starts like a table, with a literal or a group.
    fn block_expr(&mut self) {
        self.put(OpenBrace);
        self.eols(4);
        if self.chance.one_in(2) {
            self.key();
            while self.maybe(3) {
                self.member();
            }
            self.eols(2);
            if self.pieces.last().is_some_and(|p| p.kind == Eol) {
                self.statements(false);
            }
        } else {
            self.statements(true);
        }
        if self.ends_in_import() {
            self.put(Eol);
        }
        self.put(CloseBrace);
    }

    fn key(&mut self) {
        if self.chance.one_in(3) {
            self.put(OpenParen);
            self.expr(true);
            self.put(CloseParen);
        } else {
            self.literal();
        }
    }

    fn property(&mut self) {
        self.key();
        self.put(Colon);
        self.expr(true);
    }

    fn closure(&mut self) {
        self.put(VBar);
        self.items_with_last(VBar, |s| s.typed(true), |s| {
            s.put(Ellipsis);
            s.typed(true);
        });
        self.returns(false);
        self.block();
    }

    fn control(&mut self, form: usize, lambda: bool) {
        match form {
            11 | 12 => self.branch(lambda),
            13 => self.cases(),
            14 => {
                self.put(Loop);
                self.block();
            }
            15 if self.chance.one_in(2) => {
                self.put(While);
                self.expr(false);
                self.block();
            }
            15 => {
                self.put_all(&[For, Ident]);
                while self.maybe(3) {
                    self.put_all(&[Comma, Ident]);
                }
                self.put(In);
                self.expr(false);
                self.block();
            }
            _ => match self.chance.below(3) {
                0 => self.put(Break),
                1 => self.put(Continue),
                // Its argument would take the body of a test for a trailing lambda.
                _ if !lambda => self.put(Ident),
                _ => {
                    self.put(Return);
                    self.expr(true);
                }
            },
        }
    }

    fn branch(&mut self, lambda: bool) {
        self.put(If);
        self.expr(false);
        self.block();
        if self.maybe(2) {
            self.put(Else);
            if lambda && self.maybe(2) {
                self.branch(true);
            } else {
                self.block();
            }
        }
    }

    fn cases(&mut self) {
        self.put(Match);
        self.expr(false);
        self.put(OpenBrace);
        let count = self.chance.below(3);
        for i in 0..count {
            if i > 0 {
                self.put(Eol);
            } else {
                self.eols(3);
            }
            self.pattern();
            while self.maybe(4) {
                self.put(VBar);
                self.pattern();
            }
            self.put(FatArrow);
            self.expr(true);
        }
        if count > 0 {
            self.eols(2);
        }
        self.put(CloseBrace);
    }
}
