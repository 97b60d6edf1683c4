//! The stored list of readings and scans (docs/ORACLE.md, "readings.bin").

use super::cases::{text_for_graph, text_for_table};
use super::read;
use crate::builds::{built, k1};
use crate::display::{damaged, free_graph};
use crate::form::Stored;
use crate::graphs::{self, NONE};
use crate::random::Random;
use crate::tables::cases::{delayed, layered, many_rounds, wild};
use crate::tables::{checked, State, Table};
use crate::walks::{clean, read_graph, scan, Piece, Reading};
use crate::words::{packed_runs, runs};

/// A reading as one number: the leaf, 65,535 for none, and above it the end, 0 with none.
pub fn reading_number(reading: Reading) -> usize {
    let (leaf, end) = reading.unwrap_or((65_535, 0));
    leaf + 65_536 * end
}

/// The pieces as a list of entries has them: start, end and leaf, 65,535 for a gap, a word each.
fn entries(pieces: &[Piece]) -> Vec<u8> {
    let words = pieces.iter().flat_map(|(leaf, start, end)| [*start, *end, leaf.unwrap_or(65_535)]);
    words.flat_map(|word| (word as u32).to_le_bytes()).collect()
}

/// A table, both buffers after its build, and what they read in these texts.
fn store_table(stored: &mut Stored, number: usize, table: &[u16], texts: &[Vec<u8>]) {
    let built = built(table);
    let is_clean = clean(&checked(table).expect("a legal table"), built.errors);
    let fill = (1 + 20_011 * number % 65_521) as u16;
    let (mut graph, mut errors) = (built.graph.clone(), built.error_words.clone());
    graph.resize(2 + 258 * usize::from(table[0]), 0);
    graph.resize(graph.len() + number % 5, fill);
    errors.resize(errors.len() + number % 7, fill);
    let numbers = [usize::from(is_clean), usize::from(fill), built.states, built.root, built.errors, built.error_words.len()];
    stored.case(0, &numbers, &[&packed_runs(table), &packed_runs(&graph), &packed_runs(&errors)]);
    for text in texts {
        let read = read(table, &built.graph, is_clean, text);
        let numbers = [reading_number(read.by_table), reading_number(read.by_graph)];
        stored.case(2, &numbers, &[text, &entries(&read.pieces)]);
    }
}

/// Tables in which one rule of reading decides, most with an answer that differs between table and graph.
fn single_rules() -> Vec<(Table, Vec<Vec<u8>>)> {
    let texts = || [&b""[..], b"a", b"b", b"ab", b"aa", b"ba", b"aab", b"abab", b"aaaa"].map(<[u8]>::to_vec).to_vec();
    let mut tables = vec![k1(1), k1(2), k1(0)];
    let mut changed = |change: &dyn Fn(&mut Table)| {
        let mut table = k1(1);
        change(&mut table);
        tables.push(table);
    };
    changed(&|table| table.start = 65_535);
    changed(&|table| table.start = 0);
    changed(&|table| table.start = 2);
    changed(&|table| table.leaves[0].empty = true);
    // an early root; an end edge to a state with byte edges; an end edge to itself
    changed(&|table| table.states[1].targets = [3; 256]);
    changed(&|table| table.states[1].end = 2);
    changed(&|table| table.states[3].end = 3);
    changed(&|table| {
        table.states[1].end = 3;
        table.states[3].targets[97] = 3;
    });
    // without the third rule of a clean table
    changed(&|table| table.states[2].end = 0);
    changed(&|table| table.states[1] = State { targets: [1; 256], end: 0, head: 1 });
    // state 0 alive
    changed(&|table| {
        table.start = 0;
        table.states[0].targets[97] = 3;
    });
    changed(&|table| {
        table.states[0].targets[97] = 1;
        table.states[0].end = 2;
        table.states[0].head = 1;
    });
    tables.push(many_rounds(3, false));
    tables.into_iter().map(|table| (table, texts())).collect()
}

/// The list; each image comes with its sample.
pub fn list(images: &[(Vec<u16>, Vec<u8>)]) -> Vec<u8> {
    let mut stored = Stored::default();
    let mut random = Random::new(8);
    let mut tables = single_rules().into_iter().map(|(table, texts)| (table.words(), texts)).collect::<Vec<_>>();
    tables.extend(images.iter().map(|(image, sample)| (image.clone(), vec![sample.clone()])));
    for round in 0..280 {
        let table = loop {
            let table = match round % 5 {
                0 | 1 => delayed(&mut random, 4 + round / 20),
                2 => layered(&mut random, 3 + round / 15),
                _ => wild(&mut random, 2 + round / 45),
            };
            if runs(&table.words()).len() <= 200 {
                break table.words();
            }
        };
        let mut texts = vec![Vec::new()];
        texts.extend((0..8).map(|at| text_for_table(&mut random, &table, 4 + 4 * at)));
        tables.push((table, texts));
    }
    for (number, (table, texts)) in tables.iter().enumerate() {
        store_table(&mut stored, number, table, texts);
    }
    for graph in listed_graphs(&mut random) {
        store_graph(&mut stored, &mut random, &graph);
    }
    stored.0
}

/// Graph words that no build need have made, and ones that 12 refuses.
fn listed_graphs(random: &mut Random) -> Vec<Vec<u16>> {
    let mut graphs = vec![vec![], vec![0], vec![0, 0], vec![0, 1], vec![0, 0, 5], vec![1, 0], vec![1025, 0], vec![65_535, 0]];
    let row = |marks: u16, end: u16| [vec![0; 256], vec![end, marks]].concat();
    // one state that leads to itself, under every kind of marks
    for marks in [NONE, 7, 255, 65_280, 254 + 256 * 255, 255 + 256 * 254, 1 + 256 * 2] {
        for end in [NONE, 0] {
            graphs.push([vec![1, 0], row(marks, end)].concat());
        }
    }
    for (at, value) in [(1, 1), (2, 1), (257, 1), (258, 1), (258, 65_534), (257, 65_534)] {
        let mut graph = [vec![1, 0], row(0, 0)].concat();
        graph[at] = value;
        graphs.push(graph);
    }
    graphs.push([vec![1, 0], row(0, 0)[..257].to_vec()].concat());
    graphs.push([vec![1, 0], row(0, 0), vec![9, 9]].concat());
    for round in 0..50 {
        let graph = loop {
            let graph = free_graph(random, 1 + round % 5);
            if runs(&graph).len() <= 200 {
                break graph;
            }
        };
        graphs.push(if round % 5 == 4 { damaged(random, graph) } else { graph });
    }
    graphs
}

fn store_graph(stored: &mut Stored, random: &mut Random, graph: &[u16]) {
    let refusal = if graphs::legal(graph) { 0 } else { 12 };
    stored.case(1, &[refusal], &[&packed_runs(graph)]);
    if refusal != 0 {
        return;
    }
    let texts = [0, 1, 4, 9, 20].map(|longest| text_for_graph(random, graph, longest));
    for (at, text) in texts.iter().enumerate() {
        // from the start, inside, at the end, past it
        let offset = [0, text.len() / 2, text.len(), text.len() + 1, 0][at];
        let past = offset > text.len();
        let pieces = if past { Vec::new() } else { scan(graph, text, offset) };
        let numbers = [reading_number(read_graph(graph, text)), offset, if past { 14 } else { 0 }];
        stored.case(3, &numbers, &[text, &entries(&pieces)]);
    }
}
