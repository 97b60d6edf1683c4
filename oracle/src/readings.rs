//! Readings and scans of texts: by a table and by the original's graph of it, and by any graph words.

use crate::builds::built;
use crate::form::{bytes_of, bytes_text, number};
use crate::graphs;
use crate::tables::checked;
use crate::walks::{clean, read_graph, read_table, scan, Piece, Reading};
use crate::words::{words_of, words_text};

mod cases;
mod list;

pub use cases::{random_case, text_for_graph};
pub use list::{list, reading_number};

pub enum Case {
    /// A table, and a text that it and its graph read.
    Table { table: Vec<u16>, text: Vec<u8> },
    /// Graph words, a text that they read, and an offset that the scan begins at.
    Graph { graph: Vec<u16>, text: Vec<u8>, offset: usize },
}

/// The two readings of a text, and its scan.
pub struct Read {
    pub by_table: Reading,
    pub by_graph: Reading,
    pub pieces: Vec<Piece>,
}

/// What a legal table, whose build gave this graph, reads in a text. A clean table and its graph read alike.
pub fn read(table: &[u16], graph: &[u16], is_clean: bool, text: &[u8]) -> Read {
    let by_table = read_table(&checked(table).expect("a legal table"), text);
    let by_graph = read_graph(graph, text);
    assert!(!is_clean || by_table == by_graph, "a clean table and its graph read differently: {} {text:?}", words_text(table));
    Read { by_table, by_graph, pieces: scan(graph, text, 0) }
}

fn reading_text(reading: Reading) -> String {
    reading.map_or("none".to_string(), |(leaf, end)| format!("{leaf},{end}"))
}

fn pieces_text(pieces: &[Piece]) -> String {
    let shown = pieces.iter().map(|(leaf, start, end)| match leaf {
        Some(leaf) => format!("token:{leaf},{start},{end} "),
        None => format!("gap:{start},{end} "),
    });
    shown.collect::<String>() + "ended"
}

impl Case {
    pub fn line(&self) -> String {
        match self {
            Case::Table { table, text } => format!("table {} {}", words_text(table), bytes_text(text)),
            Case::Graph { graph, text, offset } => format!("graph {} {} {offset}", words_text(graph), bytes_text(text)),
        }
    }

    pub fn of_line(line: &str) -> Case {
        let words = line.split(' ').collect::<Vec<_>>();
        match words[0] {
            "table" => Case::Table { table: words_of(words[1]), text: bytes_of(words[2]) },
            _ => Case::Graph { graph: words_of(words[1]), text: bytes_of(words[2]), offset: number(words[3]) },
        }
    }

    pub fn answer(&self) -> String {
        match self {
            Case::Table { table, text } => match checked(table) {
                Ok(legal) => {
                    let built = built(table);
                    let clean = clean(&legal, built.errors);
                    let read = read(table, &built.graph, clean, text);
                    let [by_table, by_graph] = [read.by_table, read.by_graph].map(reading_text);
                    format!("clean {} table {by_table} graph {by_graph} scan {}", u8::from(clean), pieces_text(&read.pieces))
                }
                Err(number) => format!("table refused-{number}"),
            },
            Case::Graph { graph, .. } if !graphs::legal(graph) => "graph refused-12 scan refused-12".to_string(),
            Case::Graph { graph, text, offset } => {
                let scanned = if *offset > text.len() { "refused-14".to_string() } else { pieces_text(&scan(graph, text, *offset)) };
                format!("graph {} scan {scanned}", reading_text(read_graph(graph, text)))
            }
        }
    }
}
