//! The library's answer in words, from the original's own tree: node records, error records and expected kinds as docs/LAYOUT.md has them.
//! Which record comes when is the original's: `probe` writes down each value when it is built, and `of` holds its own order to that.

use std::num::IntErrorKind;

use text_size::TextRange;

use crate::answer::Reading;
use crate::compiler::{
    ast::*,
    error::CompilerError,
    token::{Token, TokenKind},
};

pub const NODE_WORDS: usize = 8;
pub const ERROR_WORDS: usize = 6;

const FIRST: usize = 3;
const NEXT: usize = 4;

/// A record's kind and range: what is known of it when its value is built.
pub type Built = (u32, TextRange);

/// The buffers up to their counts.
#[derive(Default, Debug, Clone, PartialEq, Eq)]
pub struct Words {
    pub nodes: Vec<u32>,
    pub errors: Vec<u32>,
    pub expected: Vec<u8>,
}

pub fn lit_kind<S>(kind: &LitKind<S>) -> u32 {
    match kind {
        LitKind::Null => 1,
        LitKind::Bool(_) => 2,
        LitKind::Int(_) => 3,
        LitKind::Float(_) => 4,
        LitKind::Str(_) => 5,
        LitKind::Bytes(_) => 6,
    }
}

pub const IDENT: u32 = 7;

/// None for a Lit or Ident, which has the record of what it holds.
pub fn expr_kind<S>(kind: &ExprKind<S>) -> Option<u32> {
    Some(match kind {
        ExprKind::Lit(_) | ExprKind::Ident(_) => return None,
        ExprKind::Paren(_) => 8,
        ExprKind::Block(_) => 9,
        ExprKind::Fn { .. } => 10,
        ExprKind::Effect { .. } => 11,
        ExprKind::Table { .. } => 12,
        ExprKind::List { .. } => 13,
        ExprKind::Unary { .. } => 14,
        ExprKind::Binary { .. } => 15,
        ExprKind::TypeCheck { .. } => 16,
        ExprKind::Member { .. } => MEMBER,
        ExprKind::Call { .. } => 18,
        ExprKind::If { .. } => 19,
        ExprKind::Match { .. } => 20,
        ExprKind::Loop { .. } => 21,
        ExprKind::While { .. } => 22,
        ExprKind::For { .. } => 23,
        ExprKind::Break => 24,
        ExprKind::Continue => 25,
        ExprKind::Return { .. } => 26,
        ExprKind::Import { .. } => 27,
        ExprKind::GloAssign { .. } => 28,
        ExprKind::Assign { .. } => 29,
        ExprKind::AssignOp { .. } => 30,
        ExprKind::AssignUnpack { .. } => 31,
        ExprKind::AssignMulti { .. } => 32,
    })
}

const MEMBER: u32 = 17;
pub const PROGRAM: u32 = 33;
pub const BLOCK: u32 = 34;

pub fn function_kind(kind: FunctionKind) -> u32 {
    match kind {
        FunctionKind::Function => 35,
        FunctionKind::Closure => 36,
        FunctionKind::Do => 37,
    }
}

pub const EFFECT: u32 = 38;
pub const EFFECT_HANDLER: u32 = 39;
pub const TYPED_IDENT: u32 = 40;
pub const TABLE_PROPERTY: u32 = 41;
pub const MATCH_CASE: u32 = 42;
pub const IMPORT_ITEM: u32 = 43;

pub fn pattern_kind<S>(kind: &PatternKind<S>) -> Option<u32> {
    match kind {
        PatternKind::Lit(_) | PatternKind::Ident(_) => None,
        PatternKind::Table { .. } => Some(44),
        PatternKind::List { .. } => Some(45),
    }
}

pub const TABLE_PATTERN_PAIR: u32 = 46;

pub fn ty_kind<S>(kind: &TyKind<S>) -> Option<u32> {
    Some(match kind {
        TyKind::Lit(_) | TyKind::Ident(_) => return None,
        TyKind::Paren(_) => 47,
        TyKind::Table { .. } => 48,
        TyKind::Function { .. } => 49,
        TyKind::Union(_) => 50,
    })
}

pub const TABLE_TY_PAIR: u32 = 51;
pub const TABLE_TY_OTHER: u32 = 52;

/// The token kind that a binary operator is kept as.
fn operator(operator: BinOp) -> u32 {
    let kind = match operator {
        BinOp::Add => TokenKind::Add,
        BinOp::Sub => TokenKind::Sub,
        BinOp::Mul => TokenKind::Mul,
        BinOp::Div => TokenKind::Div,
        BinOp::Rem => TokenKind::Rem,
        BinOp::And => TokenKind::And,
        BinOp::Or => TokenKind::Or,
        BinOp::Eq => TokenKind::Eq,
        BinOp::Ne => TokenKind::NotEq,
        BinOp::Lt => TokenKind::Lt,
        BinOp::Le => TokenKind::LtEq,
        BinOp::Gt => TokenKind::Gt,
        BinOp::Ge => TokenKind::GtEq,
        BinOp::Is => TokenKind::Is,
    };
    kind as u32
}

/// ONE, TWO and FLAGS of a record.
#[derive(Default, Clone, Copy)]
struct Own {
    one: u32,
    two: u32,
    flags: u32,
}

impl Own {
    fn counts(n: usize, m: usize) -> Own {
        Own { flags: n as u32 + ((m as u32) << 15), ..Own::default() }
    }

    fn flag_one(mut self, set: bool) -> Own {
        self.flags |= u32::from(set) << 30;
        self
    }

    fn flag_two(mut self, set: bool) -> Own {
        self.flags |= u32::from(set) << 31;
        self
    }

    /// A bare range and the flag that it is there.
    fn bare(mut self, range: &Option<TextRange>) -> Own {
        if let Some(range) = range {
            (self.one, self.two) = (range.start().into(), range.end().into());
        }
        self.flag_one(range.is_some())
    }
}

struct Row<'a> {
    nodes: Vec<[u32; NODE_WORDS]>,
    tokens: &'a [Token],
}

/// Links, 0 for none.
type Link = u32;

impl Row<'_> {
    fn add(&mut self, kind: u32, range: TextRange, own: Own, kids: &[Link]) -> Link {
        let first = kids.first().copied().unwrap_or(0);
        self.nodes.push([kind, range.start().into(), range.end().into(), first, 0, own.one, own.two, own.flags]);
        self.chain(kids);
        self.nodes.len() as Link
    }

    fn chain(&mut self, kids: &[Link]) {
        for pair in kids.windows(2) {
            self.nodes[pair[0] as usize - 1][NEXT] = pair[1];
        }
    }

    /// The token that starts at a place.
    fn starts(&self, at: u32) -> Token {
        let found = self.tokens.binary_search_by_key(&at, |t| t.range.start().into());
        self.tokens[found.expect("a literal is a token")]
    }

    /// The start of the token that ends at a place.
    fn word_start(&self, end: u32) -> u32 {
        let found = self.tokens.binary_search_by_key(&end, |t| t.range.end().into());
        self.tokens[found.expect("a type word is a token")].range.start().into()
    }

    fn ident<S>(&mut self, ident: &Ident<S>) -> Link {
        self.add(IDENT, ident.range, Own::default(), &[])
    }

    fn lit<S>(&mut self, lit: &Lit<S>) -> Link {
        let own = match &lit.kind {
            LitKind::Bool(value) => Own::counts(usize::from(*value), 0),
            LitKind::Int(value) => Own { one: *value as u32, two: (*value >> 32) as u32, flags: 0 },
            LitKind::Str(_) => {
                let raw = self.starts(lit.range.start().into()).kind == TokenKind::RawStr;
                Own::counts(usize::from(raw), 0)
            }
            _ => Own::default(),
        };
        self.add(lit_kind(&lit.kind), lit.range, own, &[])
    }

    fn typed_ident<S>(&mut self, name: &TypedIdent<S>) -> Link {
        let ident = self.ident(&name.ident);
        match &name.ty {
            None => ident,
            Some(ty) => {
                let ty = self.ty(ty);
                self.add(TYPED_IDENT, name.range, Own::default(), &[ident, ty])
            }
        }
    }

    fn params<S>(&mut self, kids: &mut Vec<Link>, params: &Params<S>) -> Own {
        for name in params.params.iter().chain(params.variadic.as_deref()) {
            let link = self.typed_ident(name);
            kids.push(link);
        }
        Own::counts(params.params.len(), 0).flag_one(params.variadic.is_some())
    }

    fn exprs<S>(&mut self, exprs: &[Expr<S>]) -> Vec<Link> {
        exprs.iter().map(|expr| self.expr(expr)).collect()
    }

    fn block<S>(&mut self, block: &Block<S>) -> Link {
        let kids = self.exprs(&block.body);
        self.add(BLOCK, block.range, Own::counts(kids.len(), 0), &kids)
    }

    fn function<S>(&mut self, function: &Function<S>) -> Link {
        let mut kids = Vec::new();
        let own = self.params(&mut kids, &function.params).flag_two(function.returns.is_some());
        for ty in &function.returns {
            let link = self.ty(ty);
            kids.push(link);
        }
        let body = self.block(&function.body);
        kids.push(body);
        self.add(function_kind(function.kind), function.range, own, &kids)
    }

    fn effect<S>(&mut self, effect: &Effect<S>) -> Link {
        let mut kids = Vec::new();
        let own = self.params(&mut kids, &effect.params).flag_two(effect.returns.is_some());
        for ty in &effect.returns {
            let link = self.ty(ty);
            kids.push(link);
        }
        self.add(EFFECT, effect.range, own, &kids)
    }

    fn handler<S>(&mut self, handler: &EffectHandler<S>) -> Link {
        let mut kids = vec![self.ident(&handler.effect)];
        let own = self.params(&mut kids, &handler.params);
        let body = self.block(&handler.body);
        kids.push(body);
        self.add(EFFECT_HANDLER, handler.range, own, &kids)
    }

    /// A member's form, and its part if it has one.
    fn property<S>(&mut self, property: &MemberKind<S>) -> (usize, Option<Link>) {
        match property {
            MemberKind::Bracket(expr) => (0, Some(self.expr(expr))),
            MemberKind::Dot(ident) => (1, Some(self.ident(ident))),
            MemberKind::DoubleColon(ident) => (2, Some(self.ident(ident))),
            MemberKind::BracketMeta => (3, None),
            MemberKind::DotMeta => (4, None),
            MemberKind::DoubleColonMeta => (5, None),
        }
    }

    fn assign_left<S>(&mut self, left: &AssignLeft<S>) -> Link {
        match &left.kind {
            AssignLeftKind::Ident(name) => self.typed_ident(name),
            AssignLeftKind::Member { ident, property } => {
                let table = self.ident(ident);
                let (form, part) = self.property(property);
                let kids: Vec<Link> = [Some(table), part].into_iter().flatten().collect();
                self.add(MEMBER, left.range, Own::counts(form, 0), &kids)
            }
        }
    }

    fn expr<S>(&mut self, expr: &Expr<S>) -> Link {
        let Some(kind) = expr_kind(&expr.kind) else {
            return match &expr.kind {
                ExprKind::Lit(lit) => self.lit(lit),
                ExprKind::Ident(ident) => self.ident(ident),
                _ => unreachable!("every other case has a kind"),
            };
        };
        // The one value that is built before its last parts: the handlers join a Call that is there.
        if let ExprKind::Call { callee, arguments, trailing_lambda, handlers } = &expr.kind {
            let mut kids = vec![self.expr(callee)];
            kids.extend(self.exprs(arguments));
            for lambda in trailing_lambda {
                let link = self.function(lambda);
                kids.push(link);
            }
            let own = Own::counts(arguments.len(), handlers.len()).flag_one(trailing_lambda.is_some());
            let call = self.add(kind, expr.range, own, &kids);
            for handler in handlers {
                let link = self.handler(handler);
                kids.push(link);
            }
            self.chain(&kids);
            return call;
        }
        let mut kids = Vec::new();
        let own = self.inside(&mut kids, expr);
        self.add(kind, expr.range, own, &kids)
    }

    fn inside<S>(&mut self, kids: &mut Vec<Link>, expr: &Expr<S>) -> Own {
        let mut own = Own::default();
        match &expr.kind {
            ExprKind::Lit(_) | ExprKind::Ident(_) | ExprKind::Call { .. } => unreachable!("done before"),
            ExprKind::Break | ExprKind::Continue => {}
            ExprKind::Paren(inner) | ExprKind::Return { argument: inner } => kids.push(self.expr(inner)),
            ExprKind::Block(block) | ExprKind::Loop { body: block } => kids.push(self.block(block)),
            ExprKind::Fn { glo, name, function } => {
                for name in name {
                    kids.push(self.ident(name));
                }
                kids.push(self.function(function));
                own = own.bare(glo).flag_two(name.is_some());
            }
            ExprKind::Effect { glo, name, effect } => {
                kids.push(self.ident(name));
                kids.push(self.effect(effect));
                own = own.bare(glo);
            }
            ExprKind::Table { properties } => {
                for property in properties {
                    let pair = [self.expr(&property.key), self.expr(&property.value)];
                    kids.push(self.add(TABLE_PROPERTY, property.range, Own::default(), &pair));
                }
                own = Own::counts(properties.len(), 0);
            }
            ExprKind::List { items } => {
                kids.extend(self.exprs(items));
                own = Own::counts(items.len(), 0);
            }
            ExprKind::Unary { operator, argument } => {
                kids.push(self.expr(argument));
                own.one = match operator {
                    UnOp::Not => TokenKind::Not as u32,
                    UnOp::Neg => TokenKind::Sub as u32,
                };
            }
            ExprKind::Binary { operator: sign, left, right } => {
                kids.extend([self.expr(left), self.expr(right)]);
                own.one = operator(*sign);
            }
            ExprKind::TypeCheck { left, right } => {
                kids.push(self.expr(left));
                own.one = *right as u32;
                own.two = self.word_start(expr.range.end().into());
            }
            ExprKind::Member { table, property, safe } => {
                kids.push(self.expr(table));
                let (form, part) = self.property(property);
                kids.extend(part);
                own = Own::counts(form, 0).bare(safe);
            }
            _ => own = self.inside_more(kids, expr),
        }
        own
    }

    fn inside_more<S>(&mut self, kids: &mut Vec<Link>, expr: &Expr<S>) -> Own {
        match &expr.kind {
            ExprKind::If { test, consequent, alternate } => {
                kids.extend([self.expr(test), self.block(consequent)]);
                for expr in alternate {
                    kids.push(self.expr(expr));
                }
                Own::default().flag_one(alternate.is_some())
            }
            ExprKind::Match { expr, cases } => {
                kids.push(self.expr(expr));
                for case in cases {
                    let mut parts: Vec<Link> = case.patterns.iter().map(|pattern| self.pattern(pattern)).collect();
                    let own = Own::counts(parts.len(), 0);
                    parts.push(self.expr(&case.body));
                    kids.push(self.add(MATCH_CASE, case.range, own, &parts));
                }
                Own::counts(cases.len(), 0)
            }
            ExprKind::While { test, body } => {
                kids.extend([self.expr(test), self.block(body)]);
                Own::default()
            }
            ExprKind::For { left, right, body } => {
                kids.extend(left.iter().map(|ident| self.ident(ident)));
                kids.extend([self.expr(right), self.block(body)]);
                Own::counts(left.len(), 0)
            }
            ExprKind::Import { path, kind, .. } => {
                kids.extend(path.iter().map(|ident| self.ident(ident)));
                self.import(kids, path.len(), kind)
            }
            ExprKind::GloAssign { left, right } => {
                kids.extend([self.typed_ident(left), self.expr(right)]);
                Own::default()
            }
            ExprKind::Assign { left, right } => {
                kids.extend([self.assign_left(left), self.expr(right)]);
                Own::default()
            }
            ExprKind::AssignOp { operator: sign, left, right } => {
                kids.extend([self.assign_left(left), self.expr(right)]);
                Own { one: operator(*sign), ..Own::default() }
            }
            ExprKind::AssignUnpack { left, right } => {
                kids.extend(left.iter().map(|left| self.assign_left(left)));
                kids.push(self.expr(right));
                Own::counts(left.len(), 0)
            }
            ExprKind::AssignMulti { left, right } => {
                kids.extend(left.iter().map(|left| self.assign_left(left)));
                kids.extend(self.exprs(right));
                Own::counts(left.len(), right.len())
            }
            _ => unreachable!("no other case is left"),
        }
    }

    fn import<S>(&mut self, kids: &mut Vec<Link>, names: usize, kind: &ImportKind<S>) -> Own {
        match kind {
            ImportKind::Simple(alias) => {
                for alias in alias {
                    kids.push(self.ident(alias));
                }
                Own::counts(names, 0).flag_one(alias.is_some())
            }
            ImportKind::Glob => Own::counts(names, 0).flag_one(true).flag_two(true),
            ImportKind::Nested(items) => {
                for item in items {
                    let mut parts = vec![self.ident(&item.name)];
                    for alias in &item.alias {
                        parts.push(self.ident(alias));
                    }
                    let own = Own::default().flag_one(item.alias.is_some());
                    kids.push(self.add(IMPORT_ITEM, item.range, own, &parts));
                }
                Own::counts(names, items.len()).flag_two(true)
            }
        }
    }

    fn pattern<S>(&mut self, pattern: &Pattern<S>) -> Link {
        let mut kids = Vec::new();
        let own = match &pattern.kind {
            PatternKind::Lit(lit) => return self.lit(lit),
            PatternKind::Ident(ident) => return self.ident(ident),
            PatternKind::Table { pairs, others } => {
                for pair in pairs {
                    let parts = [self.lit(&pair.key), self.pattern(&pair.value)];
                    kids.push(self.add(TABLE_PATTERN_PAIR, pair.range, Own::default(), &parts));
                }
                Own::counts(pairs.len(), 0).bare(others)
            }
            PatternKind::List { items, others } => {
                kids.extend(items.iter().map(|item| self.pattern(item)));
                Own::counts(items.len(), 0).bare(others)
            }
        };
        self.add(pattern_kind(&pattern.kind).expect("it has one"), pattern.range, own, &kids)
    }

    fn ty<S>(&mut self, ty: &Ty<S>) -> Link {
        let mut kids = Vec::new();
        let own = match &ty.kind {
            TyKind::Lit(lit) => return self.lit(lit),
            TyKind::Ident(ident) => return self.ident(ident),
            TyKind::Paren(inner) => {
                kids.push(self.ty(inner));
                Own::default()
            }
            TyKind::Table { pairs, others } => {
                for pair in pairs {
                    let parts = [self.ident(&pair.key), self.ty(&pair.value)];
                    kids.push(self.add(TABLE_TY_PAIR, pair.range, Own::default(), &parts));
                }
                for other in others {
                    let parts = [self.ty(&other.key), self.ty(&other.value)];
                    kids.push(self.add(TABLE_TY_OTHER, other.range, Own::default(), &parts));
                }
                Own::counts(pairs.len(), 0).flag_one(others.is_some())
            }
            TyKind::Function { params, variadic, returns } => {
                let parts = params.iter().chain(variadic.as_deref()).chain(returns.as_deref());
                kids.extend(parts.map(|ty| self.ty(ty)));
                Own::counts(params.len(), 0).flag_one(variadic.is_some()).flag_two(returns.is_some())
            }
            TyKind::Union(types) => {
                kids.extend(types.iter().map(|ty| self.ty(ty)));
                Own::counts(types.len(), 0)
            }
        };
        self.add(ty_kind(&ty.kind).expect("it has one"), ty.range, own, &kids)
    }
}

/// The faults of an integer, in the document's order.
pub fn fault(kind: &IntErrorKind) -> u8 {
    match kind {
        IntErrorKind::Empty => 0,
        IntErrorKind::InvalidDigit => 1,
        IntErrorKind::PosOverflow => 2,
        IntErrorKind::NegOverflow => 3,
        other => unreachable!("no fault of from_str_radix: {other:?}"),
    }
}

fn error(words: &mut Words, error: &CompilerError) {
    let from = words.expected.len();
    let (class, found, range) = match error {
        CompilerError::UnexpectedToken { expected, found, range } => {
            words.expected.extend(expected.iter().map(|kind| *kind as u8));
            (0, *found as u32, range)
        }
        CompilerError::ParseIntError { error, range } => (1, u32::from(fault(error.kind())), range),
        other => unreachable!("outside the domain: {other:?}"),
    };
    let count = words.expected.len() - from;
    words.errors.extend([class, found, range.start().into(), range.end().into(), from as u32, count as u32]);
}

/// A program without statements at a place: what the document says of a list of trivia only.
pub fn empty(at: u32) -> Words {
    Words { nodes: vec![PROGRAM, at, at, 0, 0, 0, 0, 0], ..Words::default() }
}

/// The words of a reading of these tokens, whose values were built in the order of `built`.
pub fn of(reading: &Reading, tokens: &[Token], built: &[Built]) -> Words {
    let mut row = Row { nodes: Vec::with_capacity(built.len()), tokens };
    let function = &reading.0.function;
    let kids = row.exprs(&function.body.body);
    row.add(PROGRAM, function.range, Own::counts(kids.len(), 0), &kids);
    assert_eq!(row.nodes.len(), built.len(), "a record for each value in use");
    for (node, (kind, range)) in row.nodes.iter().zip(built) {
        assert_eq!(node[..FIRST], [*kind, range.start().into(), range.end().into()], "the records are in the order of building");
    }
    let mut words = Words { nodes: row.nodes.into_flattened(), ..Words::default() };
    reading.1.iter().for_each(|e| error(&mut words, e));
    words
}
