//! Stands in for the crate `thiserror`: Error, with Display by way of Debug. No listing shows it.

extern crate proc_macro;

use proc_macro::{TokenStream, TokenTree};

#[proc_macro_derive(Error, attributes(error))]
pub fn error(item: TokenStream) -> TokenStream {
    let mut words = item
        .into_iter()
        .skip_while(|t| !matches!(t, TokenTree::Ident(i) if i.to_string() == "enum"));
    let name = words.nth(1).expect("a named type");
    format!(
        "impl ::std::fmt::Display for {name} {{
            fn fmt(&self, f: &mut ::std::fmt::Formatter<'_>) -> ::std::fmt::Result {{
                ::std::fmt::Debug::fmt(self, f)
            }}
        }}
        impl ::std::error::Error for {name} {{}}"
    )
    .parse()
    .expect("an impl")
}
