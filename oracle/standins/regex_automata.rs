//! Stand-in for regex-automata: the names that `graph/mod.rs`, `graph/dfa_util.rs` and `leaf.rs` import, over a table of docs/FORMATS.md.
//!
//! `table::stage` lays a table down; the DFA that is built next answers from it as docs/FORMATS.md, "Table", says. The
//! patterns that the builder is given are not looked at. The table must have passed conditions 1 to 7.

/// The table that stands under the next DFA.
pub mod table {
    use std::cell::RefCell;

    thread_local! {
        static STAGED: RefCell<Option<Vec<u16>>> = const { RefCell::new(None) };
    }

    pub fn stage(words: &[u16]) {
        STAGED.with(|staged| *staged.borrow_mut() = Some(words.to_vec()));
    }

    pub(crate) fn take() -> Option<Vec<u16>> {
        STAGED.with(|staged| staged.borrow_mut().take())
    }
}

pub use util::primitives::PatternID;

pub mod util {
    pub mod primitives {
        #[derive(Clone, Copy, Debug, Eq, Hash, Ord, PartialEq, PartialOrd)]
        pub struct StateID(pub(crate) usize);

        impl StateID {
            pub fn as_usize(&self) -> usize {
                self.0
            }
        }

        #[derive(Clone, Copy, Debug, Eq, Hash, Ord, PartialEq, PartialOrd)]
        pub struct PatternID(pub(crate) usize);

        impl PatternID {
            pub fn as_usize(&self) -> usize {
                self.0
            }
        }
    }
}

#[derive(Clone, Copy, Debug)]
pub enum Anchored {
    Yes,
}

#[derive(Clone, Copy, Debug)]
pub enum MatchKind {
    All,
}

/// The error of both builders, which only a missing table can cause.
#[derive(Debug)]
pub struct BuildError;

impl std::fmt::Display for BuildError {
    fn fmt(&self, f: &mut std::fmt::Formatter<'_>) -> std::fmt::Result {
        f.write_str("no table is staged")
    }
}

pub mod nfa {
    pub mod thompson {
        use crate::BuildError;

        /// Carries the staged table from one builder to the next.
        pub struct NFA {
            pub(crate) words: Vec<u16>,
        }

        pub struct Config;

        impl Config {
            pub fn shrink(self, _yes: bool) -> Config {
                self
            }

            pub fn utf8(self, _yes: bool) -> Config {
                self
            }
        }

        pub struct Compiler;

        impl Compiler {
            pub fn configure(&mut self, _config: Config) -> &mut Compiler {
                self
            }

            pub fn build_many_from_hir<H>(&self, _hirs: &[H]) -> Result<NFA, BuildError> {
                crate::table::take().map(|words| NFA { words }).ok_or(BuildError)
            }
        }

        impl NFA {
            pub fn config() -> Config {
                Config
            }

            pub fn compiler() -> Compiler {
                Compiler
            }
        }
    }
}

pub mod dfa {
    use crate::util::primitives::{PatternID, StateID};
    use crate::Anchored;

    #[derive(Clone, Copy, Debug)]
    pub enum StartKind {
        Anchored,
    }

    pub trait Automaton {
        fn next_state(&self, state: StateID, byte: u8) -> StateID;
        fn next_eoi_state(&self, state: StateID) -> StateID;
        fn is_match_state(&self, state: StateID) -> bool;
        fn match_len(&self, state: StateID) -> usize;
        fn match_pattern(&self, state: StateID, index: usize) -> PatternID;
        fn has_empty(&self) -> bool;
        fn universal_start_state(&self, mode: Anchored) -> Option<StateID>;
    }

    pub mod dense {
        use super::{Automaton, StartKind};
        use crate::nfa::thompson::NFA;
        use crate::util::primitives::{PatternID, StateID};
        use crate::{Anchored, BuildError, MatchKind};
        use std::marker::PhantomData;

        /// A table of docs/FORMATS.md, answering as a DFA.
        #[derive(Clone, Debug)]
        pub struct DFA<T> {
            words: Vec<u16>,
            form: PhantomData<T>,
        }

        pub struct Config;

        impl Config {
            pub fn accelerate(self, _yes: bool) -> Config {
                self
            }

            pub fn byte_classes(self, _yes: bool) -> Config {
                self
            }

            pub fn minimize(self, _yes: bool) -> Config {
                self
            }

            pub fn match_kind(self, _kind: MatchKind) -> Config {
                self
            }

            pub fn start_kind(self, _kind: StartKind) -> Config {
                self
            }
        }

        pub struct Builder;

        impl Builder {
            pub fn configure(&mut self, _config: Config) -> &mut Builder {
                self
            }

            pub fn build_from_nfa(&self, nfa: &NFA) -> Result<DFA<Vec<u32>>, BuildError> {
                Ok(DFA { words: nfa.words.clone(), form: PhantomData })
            }
        }

        impl DFA<Vec<u32>> {
            pub fn config() -> Config {
                Config
            }

            pub fn builder() -> Builder {
                Builder
            }

            /// A table of one dead state, for graphs that are not built from a table.
            pub fn none() -> DFA<Vec<u32>> {
                let mut words = vec![1, 0, 0, 0];
                words.resize(4 + 258, 0);
                DFA { words, form: PhantomData }
            }
        }

        impl<T> DFA<T> {
            fn word(&self, at: usize) -> usize {
                usize::from(self.words[at])
            }

            /// Word `column` of a state's 258: 256 byte targets, the end target, the head of the chain.
            fn step(&self, state: StateID, column: usize) -> usize {
                let leaves = self.word(2);
                self.word(4 + 3 * leaves + 258 * state.0 + column)
            }

            /// The leaves of a state's chain, in the chain's order.
            fn chain(&self, state: StateID) -> Vec<usize> {
                let (states, leaves) = (self.word(0), self.word(2));
                let records = 4 + 3 * leaves + 258 * states;
                let mut found = Vec::new();
                let mut record = self.step(state, 257);
                while record != 0 {
                    found.push(self.word(records + 2 * (record - 1)));
                    record = self.word(records + 2 * (record - 1) + 1);
                }
                found
            }
        }

        impl<T> Automaton for DFA<T> {
            fn next_state(&self, state: StateID, byte: u8) -> StateID {
                StateID(self.step(state, usize::from(byte)))
            }

            fn next_eoi_state(&self, state: StateID) -> StateID {
                StateID(self.step(state, 256))
            }

            fn is_match_state(&self, state: StateID) -> bool {
                self.step(state, 257) != 0
            }

            fn match_len(&self, state: StateID) -> usize {
                self.chain(state).len()
            }

            fn match_pattern(&self, state: StateID, index: usize) -> PatternID {
                PatternID(self.chain(state)[index])
            }

            fn has_empty(&self) -> bool {
                (0..self.word(2)).any(|leaf| self.word(4 + 3 * leaf + 2) == 1)
            }

            fn universal_start_state(&self, _mode: Anchored) -> Option<StateID> {
                let start = self.word(1);
                (start != 65_535).then_some(StateID(start))
            }
        }
    }
}
