//! Stand-in for syn: the two names that `leaf.rs` and the generator import. Spans play no part in the comparison.

pub use proc_macro2::Ident;

pub mod spanned {
    use proc_macro2::{Span, TokenStream};

    pub trait Spanned {
        fn span(&self) -> Span;
    }

    impl Spanned for TokenStream {
        fn span(&self) -> Span {
            Span::call_site()
        }
    }
}
