//! Stands in for the crate `derive_more`: Display by way of Debug. No listing shows it.

extern crate proc_macro;

use proc_macro::{TokenStream, TokenTree};

/// The name that follows `struct` or `enum`.
fn name(item: TokenStream) -> String {
    let mut words = item.into_iter().skip_while(
        |t| !matches!(t, TokenTree::Ident(i) if i.to_string() == "struct" || i.to_string() == "enum"),
    );
    words.nth(1).expect("a named type").to_string()
}

#[proc_macro_derive(Display, attributes(display))]
pub fn display(item: TokenStream) -> TokenStream {
    format!(
        "impl ::std::fmt::Display for {} {{
            fn fmt(&self, f: &mut ::std::fmt::Formatter<'_>) -> ::std::fmt::Result {{
                ::std::fmt::Debug::fmt(self, f)
            }}
        }}",
        name(item)
    )
    .parse()
    .expect("an impl")
}
