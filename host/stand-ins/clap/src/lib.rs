//! Stands in for clap: the derive that the Rust's enums name, expanding to nothing.

use proc_macro::TokenStream;

/// Adds nothing: no comparison reads a command line.
#[proc_macro_derive(ValueEnum, attributes(value, clap))]
pub fn value_enum(_item: TokenStream) -> TokenStream {
    TokenStream::new()
}
