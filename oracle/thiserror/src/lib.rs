// A stand-in for the crate thiserror: its derive, for enums without parameters. The messages are dropped, no comparison reads them.

use proc_macro::{TokenStream, TokenTree};

/// Gives an enum `Display` (as its `Debug`) and `std::error::Error`.
#[proc_macro_derive(Error, attributes(error))]
pub fn error(input: TokenStream) -> TokenStream {
    let mut tokens = input.into_iter();
    tokens
        .by_ref()
        .find(|t| matches!(t, TokenTree::Ident(word) if word.to_string() == "enum"))
        .expect("an enum");
    let name = tokens.next().expect("the enum's name").to_string();
    format!(
        "impl ::std::fmt::Display for {name} {{
             fn fmt(&self, f: &mut ::std::fmt::Formatter<'_>) -> ::std::fmt::Result {{
                 ::std::fmt::Debug::fmt(self, f)
             }}
         }}
         impl ::std::error::Error for {name} {{}}"
    )
    .parse()
    .expect("two impls")
}
