//! Stand-in for regex-syntax: the names that `pattern.rs` imports. Nothing is parsed: `hir::stage` lays a tree down, and the next `parse`
//! answers with it, unsimplified (docs/RULES.md, "Pattern trees").

pub mod hir {
    use std::cell::RefCell;

    thread_local! {
        static STAGED: RefCell<Option<Hir>> = const { RefCell::new(None) };
    }

    pub fn stage(hir: Hir) {
        STAGED.with(|staged| *staged.borrow_mut() = Some(hir));
    }

    pub(crate) fn take() -> Option<Hir> {
        STAGED.with(|staged| staged.borrow_mut().take())
    }

    #[derive(Clone, Debug, Eq, PartialEq)]
    pub struct Hir {
        kind: HirKind,
        properties: Properties,
    }

    #[derive(Clone, Debug, Eq, PartialEq)]
    pub enum HirKind {
        Empty,
        Literal(Literal),
        Class(Class),
        Look(Look),
        Repetition(Repetition),
        Capture(Capture),
        Concat(Vec<Hir>),
        Alternation(Vec<Hir>),
    }

    #[derive(Clone, Debug, Eq, PartialEq)]
    pub struct Literal(pub Box<[u8]>);

    /// A class is one of the six that `pattern.rs` knows as dots, or any other.
    #[derive(Clone, Debug, Eq, PartialEq)]
    pub enum Class {
        Dot(Dot),
        Other,
    }

    #[derive(Clone, Debug, Eq, PartialEq)]
    pub enum Dot {
        AnyChar,
        AnyByte,
        AnyCharExceptLF,
        AnyByteExceptLF,
        AnyCharExceptCRLF,
        AnyByteExceptCRLF,
    }

    #[derive(Clone, Debug, Eq, PartialEq)]
    pub struct Look;

    #[derive(Clone, Debug, Eq, PartialEq)]
    pub struct Repetition {
        pub min: u32,
        pub max: Option<u32>,
        pub greedy: bool,
        pub sub: Box<Hir>,
    }

    #[derive(Clone, Debug, Eq, PartialEq)]
    pub struct Capture {
        pub sub: Box<Hir>,
    }

    #[derive(Clone, Debug, Eq, PartialEq)]
    pub struct Properties {
        minimum_len: usize,
    }

    impl Properties {
        pub fn minimum_len(&self) -> Option<usize> {
            Some(self.minimum_len)
        }
    }

    impl Hir {
        pub fn of(kind: HirKind) -> Hir {
            Hir { kind, properties: Properties { minimum_len: 1 } }
        }

        /// A leaf's pattern where only its least length is asked for.
        pub fn of_minimum_len(minimum_len: usize) -> Hir {
            Hir { kind: HirKind::Empty, properties: Properties { minimum_len } }
        }

        pub fn dot(dot: Dot) -> Hir {
            Hir::of(HirKind::Class(Class::Dot(dot)))
        }

        pub fn literal(bytes: impl Into<Box<[u8]>>) -> Hir {
            Hir::of(HirKind::Literal(Literal(bytes.into())))
        }

        pub fn kind(&self) -> &HirKind {
            &self.kind
        }

        pub fn properties(&self) -> &Properties {
            &self.properties
        }
    }
}

pub struct ParserBuilder;

impl ParserBuilder {
    pub fn new() -> ParserBuilder {
        ParserBuilder
    }

    pub fn utf8(&mut self, _yes: bool) -> &mut ParserBuilder {
        self
    }

    pub fn unicode(&mut self, _yes: bool) -> &mut ParserBuilder {
        self
    }

    pub fn case_insensitive(&mut self, _yes: bool) -> &mut ParserBuilder {
        self
    }

    pub fn build(&self) -> Parser {
        Parser
    }
}

pub struct Parser;

impl Parser {
    pub fn parse(&mut self, _pattern: &str) -> Result<hir::Hir, &'static str> {
        hir::take().ok_or("no tree is staged")
    }
}
