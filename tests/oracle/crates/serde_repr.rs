//! Stand-in: serde_repr's derives, which give nothing.
use proc_macro::TokenStream;

#[proc_macro_derive(Serialize_repr)]
pub fn serialize(_: TokenStream) -> TokenStream { TokenStream::new() }

#[proc_macro_derive(Deserialize_repr)]
pub fn deserialize(_: TokenStream) -> TokenStream { TokenStream::new() }
