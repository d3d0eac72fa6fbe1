//! The lister's lines, from the original's own tree: one line for each record, a parent before its children, children in the
//! order in which they are read. With `words` a line goes on after ` ;` with what its record's flags and bare ranges tell: absent parts,
//! lengths of lists, the value of a Bool, the form of a member or import, `glo`, `?` and `...`. The lister prints none of that.

use std::fmt::Write;

use text_size::TextRange;

use crate::compiler::{ast::*, error::CompilerError};
use crate::records::fault;

#[derive(Default)]
pub struct Lines {
    pub text: String,
    pub count: u64,
    pub words: bool,
}

fn span(range: TextRange) -> String {
    format!("{} {}", u32::from(range.start()), u32::from(range.end()))
}

/// A bare range under its name, nothing where it is absent.
fn bare(name: &str, range: &Option<TextRange>) -> String {
    range.map_or(String::new(), |range| format!(" {name} {}", span(range)))
}

/// A name for a part that is there.
fn part<T>(name: &str, part: &Option<T>) -> String {
    if part.is_some() { format!(" {name}") } else { String::new() }
}

fn params<S>(params: &Params<S>) -> String {
    format!(" params {}{}", params.params.len(), part("variadic", &params.variadic))
}

/// A member's form: the case without what it holds.
fn form<S>(property: &MemberKind<S>) -> &'static str {
    match property {
        MemberKind::Bracket(_) => " Bracket",
        MemberKind::Dot(_) => " Dot",
        MemberKind::DoubleColon(_) => " DoubleColon",
        MemberKind::BracketMeta => " BracketMeta",
        MemberKind::DotMeta => " DotMeta",
        MemberKind::DoubleColonMeta => " DoubleColonMeta",
    }
}

/// What an expression's flags tell.
fn flags<S>(kind: &ExprKind<S>) -> String {
    match kind {
        ExprKind::Fn { glo, name, .. } => part("name", name) + &bare("glo", glo),
        ExprKind::Effect { glo, .. } => bare("glo", glo),
        ExprKind::Table { properties } => format!(" properties {}", properties.len()),
        ExprKind::List { items } => format!(" items {}", items.len()),
        ExprKind::Member { property, safe, .. } => form(property).to_owned() + &bare("safe", safe),
        ExprKind::Call { arguments, trailing_lambda, handlers, .. } => {
            format!(" arguments {}{} handlers {}", arguments.len(), part("lambda", trailing_lambda), handlers.len())
        }
        ExprKind::If { alternate, .. } => part("alternate", alternate),
        ExprKind::Match { cases, .. } => format!(" cases {}", cases.len()),
        ExprKind::For { left, .. } => format!(" left {}", left.len()),
        ExprKind::Import { path, kind, .. } => match kind {
            ImportKind::Simple(alias) => format!(" path {} Simple{}", path.len(), part("alias", alias)),
            ImportKind::Nested(items) => format!(" path {} Nested {}", path.len(), items.len()),
            ImportKind::Glob => format!(" path {} Glob", path.len()),
        },
        ExprKind::AssignUnpack { left, .. } => format!(" left {}", left.len()),
        ExprKind::AssignMulti { left, right } => format!(" left {} right {}", left.len(), right.len()),
        _ => String::new(),
    }
}

impl Lines {
    /// Adds words to the line written last.
    fn note(&mut self, words: &str) {
        if self.words && !words.is_empty() {
            self.text.pop();
            writeln!(self.text, " ;{words}").expect("a string has room");
        }
    }

    fn line(&mut self, level: usize, kind: &str, range: TextRange) {
        self.count += 1;
        writeln!(self.text, "{level} {kind} {}", span(range)).expect("a string has room");
    }

    fn detailed(&mut self, level: usize, kind: &str, range: TextRange, detail: &str) {
        self.count += 1;
        writeln!(self.text, "{level} {kind} {} {detail}", span(range)).expect("a string has room");
    }

    pub fn program<S>(&mut self, program: &Program<S>) {
        self.line(0, "Program", program.function.range);
        self.note(&format!(" body {}", program.function.body.body.len()));
        self.exprs(1, &program.function.body.body);
    }

    fn exprs<S>(&mut self, level: usize, exprs: &[Expr<S>]) {
        exprs.iter().for_each(|expr| self.expr(level, expr));
    }

    fn block<S>(&mut self, level: usize, block: &Block<S>) {
        self.line(level, "Block", block.range);
        self.note(&format!(" body {}", block.body.len()));
        self.exprs(level + 1, &block.body);
    }

    fn ident<S>(&mut self, level: usize, ident: &Ident<S>) {
        self.line(level, "Ident", ident.range);
    }

    fn idents<S>(&mut self, level: usize, idents: &[Ident<S>]) {
        idents.iter().for_each(|ident| self.ident(level, ident));
    }

    fn lit<S>(&mut self, level: usize, lit: &Lit<S>) {
        let kind = match &lit.kind {
            LitKind::Null => "Null",
            LitKind::Bool(_) => "Bool",
            LitKind::Int(value) => return self.detailed(level, "Int", lit.range, &value.to_string()),
            LitKind::Float(_) => "Float",
            LitKind::Str(_) => "Str",
            LitKind::Bytes(_) => "Bytes",
        };
        self.line(level, kind, lit.range);
        if let LitKind::Bool(value) = lit.kind {
            self.note(&format!(" {value}"));
        }
    }

    fn typed_ident<S>(&mut self, level: usize, name: &TypedIdent<S>) {
        let Some(ty) = &name.ty else {
            return self.ident(level, &name.ident);
        };
        self.line(level, "TypedIdent", name.range);
        self.ident(level + 1, &name.ident);
        self.ty(level + 1, ty);
    }

    fn params<S>(&mut self, level: usize, params: &Params<S>) {
        params.params.iter().for_each(|name| self.typed_ident(level, name));
        params.variadic.iter().for_each(|name| self.typed_ident(level, name));
    }

    fn function<S>(&mut self, level: usize, function: &Function<S>) {
        self.line(level, &format!("{:?}", function.kind), function.range);
        self.note(&(params(&function.params) + &part("returns", &function.returns)));
        self.params(level + 1, &function.params);
        function.returns.iter().for_each(|ty| self.ty(level + 1, ty));
        self.block(level + 1, &function.body);
    }

    fn effect<S>(&mut self, level: usize, effect: &Effect<S>) {
        self.line(level, "Effect", effect.range);
        self.note(&(params(&effect.params) + &part("returns", &effect.returns)));
        self.params(level + 1, &effect.params);
        effect.returns.iter().for_each(|ty| self.ty(level + 1, ty));
    }

    fn handler<S>(&mut self, level: usize, handler: &EffectHandler<S>) {
        self.line(level, "EffectHandler", handler.range);
        self.note(&params(&handler.params));
        self.ident(level + 1, &handler.effect);
        self.params(level + 1, &handler.params);
        self.block(level + 1, &handler.body);
    }

    fn property<S>(&mut self, level: usize, property: &MemberKind<S>) {
        match property {
            MemberKind::Bracket(expr) => self.expr(level, expr),
            MemberKind::Dot(ident) | MemberKind::DoubleColon(ident) => self.ident(level, ident),
            MemberKind::BracketMeta | MemberKind::DotMeta | MemberKind::DoubleColonMeta => {}
        }
    }

    fn assign_left<S>(&mut self, level: usize, left: &AssignLeft<S>) {
        match &left.kind {
            AssignLeftKind::Ident(name) => self.typed_ident(level, name),
            AssignLeftKind::Member { ident, property } => {
                self.line(level, "Member", left.range);
                self.note(form(property));
                self.ident(level + 1, ident);
                self.property(level + 1, property);
            }
        }
    }

    fn import<S>(&mut self, level: usize, path: &[Ident<S>], kind: &ImportKind<S>) {
        self.idents(level, path);
        match kind {
            ImportKind::Simple(alias) => alias.iter().for_each(|alias| self.ident(level, alias)),
            ImportKind::Glob => {}
            ImportKind::Nested(items) => {
                for item in items {
                    self.line(level, "ImportItem", item.range);
                    self.note(&part("alias", &item.alias));
                    self.ident(level + 1, &item.name);
                    item.alias.iter().for_each(|alias| self.ident(level + 1, alias));
                }
            }
        }
    }

    fn expr<S>(&mut self, level: usize, expr: &Expr<S>) {
        let (kind, detail) = match &expr.kind {
            ExprKind::Lit(lit) => return self.lit(level, lit),
            ExprKind::Ident(ident) => return self.ident(level, ident),
            ExprKind::Unary { operator, .. } => ("Unary", format!("{operator:?}")),
            ExprKind::Binary { operator, .. } => ("Binary", format!("{operator:?}")),
            ExprKind::AssignOp { operator, .. } => ("AssignOp", format!("{operator:?}")),
            ExprKind::TypeCheck { right, .. } => ("TypeCheck", format!("{right:?}")),
            other => (case(other), String::new()),
        };
        if detail.is_empty() {
            self.line(level, kind, expr.range);
        } else {
            self.detailed(level, kind, expr.range, &detail);
        }
        self.note(&flags(&expr.kind));
        self.inside(level + 1, &expr.kind);
    }

    /// The children of an expression that has a record of its own.
    fn inside<S>(&mut self, level: usize, kind: &ExprKind<S>) {
        match kind {
            ExprKind::Lit(_) | ExprKind::Ident(_) | ExprKind::Break | ExprKind::Continue => {}
            ExprKind::Paren(expr) => self.expr(level, expr),
            ExprKind::Block(block) | ExprKind::Loop { body: block } => self.block(level, block),
            ExprKind::Fn { name, function, .. } => {
                name.iter().for_each(|name| self.ident(level, name));
                self.function(level, function);
            }
            ExprKind::Effect { name, effect, .. } => {
                self.ident(level, name);
                self.effect(level, effect);
            }
            ExprKind::Table { properties } => {
                for property in properties {
                    self.line(level, "TableProperty", property.range);
                    self.expr(level + 1, &property.key);
                    self.expr(level + 1, &property.value);
                }
            }
            ExprKind::List { items } => self.exprs(level, items),
            ExprKind::Unary { argument, .. } | ExprKind::Return { argument } => self.expr(level, argument),
            ExprKind::Binary { left, right, .. } => {
                self.expr(level, left);
                self.expr(level, right);
            }
            ExprKind::TypeCheck { left, .. } => self.expr(level, left),
            ExprKind::Member { table, property, .. } => {
                self.expr(level, table);
                self.property(level, property);
            }
            other => self.inside_more(level, other),
        }
    }

    fn inside_more<S>(&mut self, level: usize, kind: &ExprKind<S>) {
        match kind {
            ExprKind::Call { callee, arguments, trailing_lambda, handlers } => {
                self.expr(level, callee);
                self.exprs(level, arguments);
                trailing_lambda.iter().for_each(|lambda| self.function(level, lambda));
                handlers.iter().for_each(|handler| self.handler(level, handler));
            }
            ExprKind::If { test, consequent, alternate } => {
                self.expr(level, test);
                self.block(level, consequent);
                alternate.iter().for_each(|expr| self.expr(level, expr));
            }
            ExprKind::Match { expr, cases } => {
                self.expr(level, expr);
                cases.iter().for_each(|case| self.match_case(level, case));
            }
            ExprKind::While { test, body } => {
                self.expr(level, test);
                self.block(level, body);
            }
            ExprKind::For { left, right, body } => {
                self.idents(level, left);
                self.expr(level, right);
                self.block(level, body);
            }
            ExprKind::Import { path, kind, .. } => self.import(level, path, kind),
            other => self.assignment(level, other),
        }
    }

    fn assignment<S>(&mut self, level: usize, kind: &ExprKind<S>) {
        match kind {
            ExprKind::GloAssign { left, right } => {
                self.typed_ident(level, left);
                self.expr(level, right);
            }
            ExprKind::Assign { left, right } | ExprKind::AssignOp { left, right, .. } => {
                self.assign_left(level, left);
                self.expr(level, right);
            }
            ExprKind::AssignUnpack { left, right } => {
                left.iter().for_each(|left| self.assign_left(level, left));
                self.expr(level, right);
            }
            ExprKind::AssignMulti { left, right } => {
                left.iter().for_each(|left| self.assign_left(level, left));
                self.exprs(level, right);
            }
            _ => unreachable!("no other case is left"),
        }
    }

    fn match_case<S>(&mut self, level: usize, case: &MatchCase<S>) {
        self.line(level, "MatchCase", case.range);
        self.note(&format!(" patterns {}", case.patterns.len()));
        case.patterns.iter().for_each(|pattern| self.pattern(level + 1, pattern));
        self.expr(level + 1, &case.body);
    }

    fn pattern<S>(&mut self, level: usize, pattern: &Pattern<S>) {
        match &pattern.kind {
            PatternKind::Lit(lit) => self.lit(level, lit),
            PatternKind::Ident(ident) => self.ident(level, ident),
            PatternKind::Table { pairs, others } => {
                self.line(level, "Table", pattern.range);
                self.note(&format!(" pairs {}{}", pairs.len(), bare("others", others)));
                for pair in pairs {
                    self.line(level + 1, "TablePatternPair", pair.range);
                    self.lit(level + 2, &pair.key);
                    self.pattern(level + 2, &pair.value);
                }
            }
            PatternKind::List { items, others } => {
                self.line(level, "List", pattern.range);
                self.note(&format!(" items {}{}", items.len(), bare("others", others)));
                items.iter().for_each(|item| self.pattern(level + 1, item));
            }
        }
    }

    fn ty<S>(&mut self, level: usize, ty: &Ty<S>) {
        match &ty.kind {
            TyKind::Lit(lit) => self.lit(level, lit),
            TyKind::Ident(ident) => self.ident(level, ident),
            TyKind::Paren(inner) => {
                self.line(level, "Paren", ty.range);
                self.ty(level + 1, inner);
            }
            TyKind::Table { pairs, others } => {
                self.line(level, "Table", ty.range);
                self.note(&format!(" pairs {}{}", pairs.len(), part("others", others)));
                for pair in pairs {
                    self.line(level + 1, "TableTyPair", pair.range);
                    self.ident(level + 2, &pair.key);
                    self.ty(level + 2, &pair.value);
                }
                for other in others {
                    self.line(level + 1, "TableTyOther", other.range);
                    self.ty(level + 2, &other.key);
                    self.ty(level + 2, &other.value);
                }
            }
            TyKind::Function { params, variadic, returns } => {
                self.line(level, "Function", ty.range);
                let more = part("variadic", variadic) + &part("returns", returns);
                self.note(&format!(" params {}{more}", params.len()));
                params.iter().for_each(|ty| self.ty(level + 1, ty));
                variadic.iter().chain(returns).for_each(|ty| self.ty(level + 1, ty));
            }
            TyKind::Union(types) => {
                self.line(level, "Union", ty.range);
                self.note(&format!(" types {}", types.len()));
                types.iter().for_each(|ty| self.ty(level + 1, ty));
            }
        }
    }

    pub fn error(&mut self, error: &CompilerError) {
        let line = match error {
            CompilerError::UnexpectedToken { expected, found, range } => {
                let kinds: String = expected.iter().map(|kind| format!(" {}", *kind as u8)).collect();
                format!("{} {}{kinds}", *found as u8, span(*range))
            }
            CompilerError::ParseIntError { error, range } => {
                format!("int {} {}", fault(error.kind()), span(*range))
            }
            other => unreachable!("outside the domain: {other:?}"),
        };
        writeln!(self.text, "error {line}").expect("a string has room");
    }
}

/// The case's name, for the cases that have no detail.
fn case<S>(kind: &ExprKind<S>) -> &'static str {
    match kind {
        ExprKind::Lit(_) => "Lit",
        ExprKind::Ident(_) => "Ident",
        ExprKind::Paren(_) => "Paren",
        ExprKind::Block(_) => "Block",
        ExprKind::Fn { .. } => "Fn",
        ExprKind::Effect { .. } => "Effect",
        ExprKind::Table { .. } => "Table",
        ExprKind::List { .. } => "List",
        ExprKind::Unary { .. } => "Unary",
        ExprKind::Binary { .. } => "Binary",
        ExprKind::TypeCheck { .. } => "TypeCheck",
        ExprKind::Member { .. } => "Member",
        ExprKind::Call { .. } => "Call",
        ExprKind::If { .. } => "If",
        ExprKind::Match { .. } => "Match",
        ExprKind::Loop { .. } => "Loop",
        ExprKind::While { .. } => "While",
        ExprKind::For { .. } => "For",
        ExprKind::Break => "Break",
        ExprKind::Continue => "Continue",
        ExprKind::Return { .. } => "Return",
        ExprKind::Import { .. } => "Import",
        ExprKind::GloAssign { .. } => "GloAssign",
        ExprKind::Assign { .. } => "Assign",
        ExprKind::AssignOp { .. } => "AssignOp",
        ExprKind::AssignUnpack { .. } => "AssignUnpack",
        ExprKind::AssignMulti { .. } => "AssignMulti",
    }
}
