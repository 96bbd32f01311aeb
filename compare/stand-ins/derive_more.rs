//! Stand-in for the crate `derive_more`: the derives that the Rust names, each expanding to nothing. What they
//! would add (`is_..` readers, `Display`) is never called here.
extern crate proc_macro;
use proc_macro::TokenStream;

#[proc_macro_derive(IsVariant)]
pub fn is_variant(_: TokenStream) -> TokenStream {
    TokenStream::new()
}

#[proc_macro_derive(Display, attributes(display))]
pub fn display(_: TokenStream) -> TokenStream {
    TokenStream::new()
}
