//! Stands in for thiserror: `#[derive(Error)]` adds nothing, since message texts are left out.

use proc_macro::TokenStream;

#[proc_macro_derive(Error, attributes(error))]
pub fn derive_error(_: TokenStream) -> TokenStream {
    TokenStream::new()
}
