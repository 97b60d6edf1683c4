//! Stand-in for the macro parser: what `Pattern::compile_lit` names. It is never called.

pub struct Quoted<T> {
    text: T,
}

impl<T: Clone> Quoted<T> {
    pub fn value(&self) -> T {
        self.text.clone()
    }
}

pub enum Literal {
    Utf8(Quoted<String>),
    Bytes(Quoted<Vec<u8>>),
}

impl Literal {
    pub fn token(&self) -> String {
        String::new()
    }
}
