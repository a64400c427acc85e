//! Dew's counters derive `serde::Serialize`. Nothing here serialises them, so
//! the derive accepts the attribute and adds no code.

use proc_macro::TokenStream;

#[proc_macro_derive(Serialize, attributes(serde))]
pub fn serialize(_item: TokenStream) -> TokenStream {
    TokenStream::new()
}
