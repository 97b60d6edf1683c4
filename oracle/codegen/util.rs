//! Stand-in for the crate's `util`: text to identifier.

use proc_macro2::{Ident, Span};

pub trait ToIdent {
    fn to_ident(&self) -> Ident;
}

impl ToIdent for str {
    fn to_ident(&self) -> Ident {
        Ident::new(self, Span::call_site())
    }
}
