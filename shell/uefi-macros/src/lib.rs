//! The attribute macro of the `uefi` stub.

use proc_macro::TokenStream;

/// Leaves the protocol's struct as it stands; its GUID is not needed here.
#[proc_macro_attribute]
pub fn unsafe_protocol(_guid: TokenStream, item: TokenStream) -> TokenStream {
    item
}
