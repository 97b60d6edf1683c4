//! The calls into the original crate.

use crate::classes::Flags;
use crate::tables::checked;
use logos_codegen::generator::{Config, Generator};
use logos_codegen::graph::{self, ByteClass, Graph};
use logos_codegen::leaf::Leaf;
use logos_codegen::pattern::Pattern;
use logos_codegen::util::ToIdent;
use proc_macro2::{Span, TokenStream};
use regex_syntax::hir::{self, Hir};

/// A generator over a graph, for a type named Token.
fn generating<T>(graph: &Graph, machine: bool, ask: impl FnOnce(&mut Generator) -> T) -> T {
    let name = "Token".to_ident();
    let this = "Token".parse::<TokenStream>().expect("tokens");
    let config = Config { use_state_machine_codegen: machine };
    ask(&mut Generator::new(config, &name, &this, graph, &None))
}

/// A generator over a graph, its store holding these classes.
pub fn generator_of<T>(graph: &Graph, held: &[Flags], ask: impl FnOnce(&mut Generator) -> T) -> T {
    generating(graph, true, |generator| {
        for flags in held {
            generator.mask_number(&ByteClass::of_flags(flags));
        }
        ask(generator)
    })
}

/// The body of the generated `lex`, as a state machine or as calls.
pub fn generated_code(graph: &Graph, machine: bool) -> String {
    generating(graph, machine, |generator| generator.generate().to_string())
}

/// The mask store alone.
pub fn masks_of<T>(held: &[Flags], ask: impl FnOnce(&mut Generator) -> T) -> T {
    generator_of(&Graph::of_rows(&[], 0, Vec::new()), held, ask)
}

/// A leaf as far as a table knows it: a priority, and whether it can match empty text.
fn leaf(priority: usize, empty: bool) -> Leaf {
    hir::stage(Hir::of_minimum_len(if empty { 0 } else { 1 }));
    let pattern = Pattern::compile(false, "", String::new(), true, false).expect("a staged tree");
    Leaf::new(Span::call_site(), pattern).priority(priority)
}

/// So many leaves of which nothing is asked.
pub fn leaves(count: usize) -> Vec<Leaf> {
    vec![leaf(0, false); count]
}

/// The leaves of a table, which conditions 1 to 7 take.
pub fn leaves_of_table(words: &[u16]) -> Vec<Leaf> {
    let table = checked(words).expect("a legal table");
    (0..table.leaves).map(|number| leaf(table.priority(number), table.empty_flag(number) == 1)).collect()
}

/// `Graph::new` over the table that is staged, with its leaves.
pub fn graph_of_staged(leaves: Vec<Leaf>) -> Graph {
    Graph::new(leaves, graph::Config { utf8_mode: true }).expect("a staged table")
}

/// `Graph::new` over the stand-in that answers from a table, which conditions 1 to 7 take.
pub fn graph_of_table(words: &[u16]) -> Graph {
    let leaves = leaves_of_table(words);
    regex_automata::table::stage(words);
    graph_of_staged(leaves)
}
