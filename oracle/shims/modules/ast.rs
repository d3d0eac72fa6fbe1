//! The tree's types, with the two macros that they are written with.

use crate::utils::Locatable;

macro_rules! impl_locatable {
    ($name:ident) => {
        impl<S> Locatable for $name<S> {
            fn range(&self) -> TextRange {
                self.range
            }
        }
    };
}

macro_rules! impl_kind_display {
    ($name:ident) => {
        impl<S: fmt::Display> fmt::Display for $name<S> {
            fn fmt(&self, f: &mut fmt::Formatter<'_>) -> fmt::Result {
                fmt::Display::fmt(&self.kind, f)
            }
        }
    };
}

mod assign;
mod block;
mod effect;
mod expr;
mod function;
mod ident;
mod import;
mod lit;
mod member;
mod operator;
mod params;
mod pattern;
mod program;
mod ty;

pub use self::{
    assign::*, block::*, effect::*, expr::*, function::*, ident::*, import::*, lit::*, member::*, operator::*,
    params::*, pattern::*, program::*, ty::*,
};
