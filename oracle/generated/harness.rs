//! What generated code is compiled against: a lexer over one text, without callbacks. Each text stands behind four bytes that are not its
//! own, so that an end before its beginning can be told.
#![allow(warnings)]

pub const BEFORE: usize = 4;

pub struct _Lexer<'s> {
    text: &'s [u8],
    end: usize,
}

/// A leaf, and its end as far as it is from the text's beginning.
pub struct Token {
    leaf: usize,
    end: isize,
}

pub trait Logos<'s> {
    type Error: Default;
}

impl<'s> Logos<'s> for Token {
    type Error = ();
}

pub enum CallbackResult<'s, T: Logos<'s>> {
    Error(T::Error),
}

pub type _Option<T> = Option<T>;
pub type _Result<T, E> = Result<T, E>;

pub trait Chunk<'s>: Sized {
    fn at(text: &'s [u8], offset: usize) -> Option<Self>;
}

impl<'s> Chunk<'s> for u8 {
    fn at(text: &'s [u8], offset: usize) -> Option<u8> {
        text.get(offset).copied()
    }
}

impl<'s, const N: usize> Chunk<'s> for &'s [u8; N] {
    fn at(text: &'s [u8], offset: usize) -> Option<&'s [u8; N]> {
        text.get(offset..)?.first_chunk()
    }
}

impl<'s> _Lexer<'s> {
    fn offset(&self) -> usize {
        BEFORE
    }

    fn read<C: Chunk<'s>>(&self, offset: usize) -> Option<C> {
        assert!(offset < self.text.len() + 100, "endless");
        C::at(self.text, offset)
    }

    fn end(&mut self, offset: usize) {
        self.end = offset;
    }

    fn end_to_boundary(&mut self, offset: usize) {
        self.end = offset;
    }

    /// What the code has found where it stops.
    fn taken(&self, leaf: Option<usize>) -> Option<Result<Token, ()>> {
        Some(leaf.map(|leaf| Token { leaf, end: self.end as isize - BEFORE as isize }).ok_or(()))
    }
}

type Lex = for<'s, 'l> fn(&'l mut _Lexer<'s>) -> Option<Result<Token, ()>>;

/// Prints the reading of a text, by each of the two forms of the generated code if they differ.
pub fn read(forms: [Lex; 2], text: &[u8]) {
    let text = [&b"????"[..], text].concat();
    let readings = forms.map(|lex| match std::panic::catch_unwind(|| lex(&mut _Lexer { text: &text, end: BEFORE })) {
        Err(_) => "endless".to_string(),
        Ok(None) => "no-token".to_string(),
        Ok(Some(Err(()))) => "none".to_string(),
        Ok(Some(Ok(Token { leaf, end }))) => format!("{leaf},{end}"),
    });
    println!("{}", if readings[0] == readings[1] { readings[0].clone() } else { readings.join("/") });
}
