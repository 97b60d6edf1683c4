//! The code that the original generates, as a program, and what it must print.
//!
//! `as_generated` is the walk of the generated code. It differs from the walk of docs/RULES.md by the rules of `Departure`; the program
//! shows that it is these and no others.

use crate::builds::built;
use crate::graphs::{graph_of_words, NONE};
use crate::original::generated_code;
use crate::random::Random;
use crate::readings::{text_for_graph, Case};
use crate::tables::cases::{delayed, layered, wild};
use crate::tables::checked;
use crate::walks::{clean, read_graph};

/// Eight texts for a random table, as cases of readings.
pub fn random_cases(random: &mut Random) -> Vec<Case> {
    let states = random.within(2, 7);
    let table = match random.below(4) {
        0 | 1 => delayed(random, states),
        2 => layered(random, states),
        _ => wild(random, states),
    };
    let table = table.words();
    let graph = built(&table).graph;
    let texts = (0..8).map(|at| text_for_graph(random, &graph, 3 * at)).collect::<Vec<_>>();
    texts.into_iter().map(|text| Case::Table { table: table.clone(), text }).collect()
}

fn table_and_text(line: &str) -> (Vec<u16>, Vec<u8>) {
    match Case::of_line(line) {
        Case::Table { table, text } if checked(&table).is_ok() => (table, text),
        _ => panic!("not a legal table: {line}"),
    }
}

/// A program that reads each case's text by both forms of the code generated for its table. Neighbours with one table share the code.
pub fn program(lines: &[String]) -> String {
    let mut program = include_str!("../generated/harness.rs").to_string();
    let mut calls = String::new();
    let mut last = Vec::new();
    for (number, (table, text)) in lines.iter().map(|line| table_and_text(line)).enumerate() {
        let built = built(&table);
        if built.states == 0 {
            // the original's `generate` panics on a graph without states
            calls += "    println!(\"none\");\n";
            continue;
        }
        let graph = graph_of_words(&built.graph);
        if table != last {
            for (name, machine) in [("machine", true), ("calls", false)] {
                let body = generated_code(&graph, machine);
                program += &format!("fn {name}_{number}<'s>(lex: &mut _Lexer<'s>) -> _Option<_Result<Token, ()>> {{ {body} }}\n");
            }
            calls += &format!("    let forms: [Lex; 2] = [machine_{number}, calls_{number}];\n");
            last = table;
        }
        calls += &format!("    read(forms, &{text:?});\n");
    }
    program + "fn main() {\n    std::panic::set_hook(Box::new(|_| {}));\n" + &calls + "}\n"
}

/// Where the generated code departs from the walk of docs/RULES.md.
#[derive(Default)]
struct Departure {
    /// Accept is read at the root before any byte, with an end of -1.
    accept_at_root: bool,
    /// At the root, without a byte to read, there is no token, whatever the end edge leads to.
    end_at_root: bool,
    /// Early is read after an end step, with an end past the text.
    early_after_end: bool,
    /// Further end steps follow the first.
    more_end_steps: bool,
}

impl Departure {
    fn names(&self) -> String {
        let all = [
            (self.accept_at_root, "accept-at-root"),
            (self.end_at_root, "end-at-root"),
            (self.early_after_end, "early-after-end"),
            (self.more_end_steps, "more-end-steps"),
        ];
        all.into_iter().filter(|(yes, _)| *yes).map(|(_, name)| name).collect::<Vec<_>>().join(" ")
    }
}

/// The reading of a text by the rules of the generated code.
fn as_generated(graph: &[u16], text: &[u8]) -> (String, Departure) {
    let word = |state: usize, column: usize| graph[2 + 258 * state + column];
    let root = usize::from(graph[1]);
    let (mut state, mut offset) = (root, 0);
    let mut last: Option<(u16, isize)> = None;
    let mut departure = Departure::default();
    loop {
        // the fast loop comes before the marks
        while offset < text.len() && word(state, usize::from(text[offset])) == state as u16 {
            offset += 1;
        }
        let (accept, early) = (word(state, 257) % 256, word(state, 257) / 256);
        if early != 255 {
            departure.early_after_end |= offset > text.len();
            last = Some((early, offset as isize));
        } else if accept != 255 {
            departure.accept_at_root |= offset == 0;
            last = Some((accept, offset as isize - 1));
        }
        let at_end = offset >= text.len();
        if at_end && state == root && offset == 0 {
            departure.end_at_root = true;
            return ("no-token".to_string(), departure);
        }
        let target = if at_end { word(state, 256) } else { word(state, usize::from(text[offset])) };
        if target == NONE {
            return (last.map_or("none".to_string(), |(leaf, end)| format!("{leaf},{end}")), departure);
        }
        departure.more_end_steps |= offset > text.len();
        offset += 1;
        state = usize::from(target);
        if offset >= text.len() + 96 {
            return ("endless".to_string(), departure);
        }
    }
}

/// What the program must print for a case; behind it, if the reading of docs/RULES.md differs, that reading and the rules that were departed from.
pub fn answer(line: &str) -> String {
    let (table, text) = table_and_text(line);
    let built = built(&table);
    if built.states == 0 {
        return "none".to_string();
    }
    let (reading, departure) = as_generated(&built.graph, &text);
    let paper = read_graph(&built.graph, &text).map_or("none".to_string(), |(leaf, end)| format!("{leaf},{end}"));
    // no token and a reading of none are two words for one thing
    if paper == reading || (paper == "none" && reading == "no-token") {
        return reading;
    }
    let clean = if clean(&checked(&table).expect("a legal table"), built.errors) { "clean" } else { "not-clean" };
    format!("{reading} # {clean} {paper} {}", departure.names())
}
