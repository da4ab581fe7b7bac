//! Ours, in place of the crate `thiserror`: the derive `Error` alone, with its attribute
//! `#[error(..)]`.
//!
//! The type becomes a standard error. Its text is its `Debug` form: the texts in `#[error(..)]` are
//! accepted and not used, since no answer prints one.

use proc_macro::{TokenStream, TokenTree};

/// The name that follows `enum` or `struct`.
fn name_of(item: TokenStream) -> String {
    let mut tokens = item.into_iter();
    while let Some(token) = tokens.next() {
        let word = token.to_string();
        if word == "enum" || word == "struct" {
            if let Some(TokenTree::Ident(name)) = tokens.next() {
                return name.to_string();
            }
        }
    }
    panic!("derive(Error) stands on an enum or a struct")
}

#[proc_macro_derive(Error, attributes(error))]
pub fn derive_error(item: TokenStream) -> TokenStream {
    let name = name_of(item);
    let code = format!(
        "impl ::core::fmt::Display for {name} {{
            fn fmt(&self, f: &mut ::core::fmt::Formatter<'_>) -> ::core::fmt::Result {{
                ::core::fmt::Debug::fmt(self, f)
            }}
        }}
        impl ::std::error::Error for {name} {{}}"
    );
    code.parse().expect("the code above is Rust")
}
