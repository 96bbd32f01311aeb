//! Stand-in for the crate `thiserror`: its `Error` derive gives the `From` of each `#[from]` variant, which `?`
//! needs, and nothing else.
extern crate proc_macro;
use proc_macro::{Delimiter, TokenStream, TokenTree};

#[proc_macro_derive(Error, attributes(error, from))]
pub fn error(input: TokenStream) -> TokenStream {
    let tokens: Vec<TokenTree> = input.into_iter().collect();
    let at = tokens.iter().position(|t| t.to_string() == "enum").expect("an enum");
    let name = tokens[at + 1].to_string();
    let TokenTree::Group(body) = tokens.last().expect("a body") else {
        panic!("an enum has a body");
    };
    let variants: Vec<TokenTree> = body.stream().into_iter().collect();
    let mut out = String::new();
    for pair in variants.windows(2) {
        if let [TokenTree::Ident(variant), TokenTree::Group(fields)] = pair
            && fields.delimiter() == Delimiter::Parenthesis
            && let Some(source) = from_type(fields.stream())
        {
            out += &format!(
                "impl From<{source}> for {name} {{ fn from(e: {source}) -> Self {{ {name}::{variant}(e) }} }}"
            );
        }
    }
    out.parse().expect("an impl")
}

/// The type of a field marked `#[from]`.
fn from_type(fields: TokenStream) -> Option<String> {
    let tokens: Vec<TokenTree> = fields.into_iter().collect();
    let marked = tokens.len() > 2 && tokens[0].to_string() == "#" && tokens[1].to_string() == "[from]";
    marked.then(|| tokens[2..].iter().cloned().collect::<TokenStream>().to_string())
}
