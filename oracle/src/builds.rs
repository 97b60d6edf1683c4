//! Builds: what `Graph::new` makes of a table, laid out as docs/FORMATS.md says, and which tables and buffers are refused.

use crate::form::number;
use crate::graphs::words_of_graph;
use crate::original::graph_of_table;
use crate::tables::checked;
use crate::words::{words_of, words_text};
use logos_codegen::graph::GraphError;

mod cases;
mod list;

pub use cases::{damaged, random_case};
pub use list::{k1, k14, list, ties};

pub struct Case {
    pub table: Vec<u16>,
    /// A byte after the last word makes the image one of odd length.
    pub odd: Option<u8>,
    /// Lengths of the two buffers, in words.
    pub graph_buffer: usize,
    pub error_buffer: usize,
}

/// What the call returns, and what it writes.
pub struct Built {
    pub states: usize,
    pub root: usize,
    pub errors: usize,
    pub graph: Vec<u16>,
    pub error_words: Vec<u16>,
    /// The graph's `Display`.
    pub text: String,
    /// A line for each error.
    pub lines: Vec<String>,
}

/// Kind and leaves.
fn parts(error: &GraphError) -> (u16, Vec<u16>) {
    match error {
        GraphError::NoUniversalStart => (0, vec![]),
        GraphError::EmptyMatch(leaf) => (1, vec![leaf.0 as u16]),
        GraphError::Disambiguation(leaves) => (2, leaves.iter().map(|leaf| leaf.0 as u16).collect()),
    }
}

/// Kind, leaf count, leaves.
pub fn error_words(error: &GraphError) -> Vec<u16> {
    let (kind, leaves) = parts(error);
    [&[kind, leaves.len() as u16], &leaves[..]].concat()
}

/// "one line an error, as `error 2 0 1` (kind, then leaves)", without its end.
fn error_line(error: &GraphError) -> String {
    let (kind, leaves) = parts(error);
    leaves.iter().fold(format!("error {kind}"), |line, leaf| format!("{line} {leaf}"))
}

/// The build of a table that conditions 1 to 7 take, without a look at buffers.
pub fn built(table: &[u16]) -> Built {
    let graph = graph_of_table(table);
    let words = words_of_graph(&graph);
    Built {
        states: usize::from(words[0]),
        root: usize::from(words[1]),
        errors: graph.errors().count(),
        error_words: graph.errors().flat_map(error_words).collect(),
        text: graph.to_string(),
        lines: graph.errors().map(error_line).collect(),
        graph: words,
    }
}

impl Case {
    /// The call on words: 1 to 9.
    pub fn of_words(&self) -> Result<Built, u8> {
        let states = checked(&self.table)?.states;
        if self.graph_buffer < 2 + 258 * states {
            return Err(8);
        }
        let built = built(&self.table);
        if self.error_buffer < built.error_words.len() {
            return Err(9);
        }
        Ok(built)
    }

    /// Whether the call on the image, words low byte first, is refused by 13.
    pub fn image_refused(&self) -> bool {
        self.odd.is_some() || 2 * self.table.len() > 65_536
    }

    pub fn line(&self) -> String {
        let odd = self.odd.map_or("-".to_string(), |byte| byte.to_string());
        format!("table {} {} {odd} {}", self.graph_buffer, self.error_buffer, words_text(&self.table))
    }

    pub fn of_line(line: &str) -> Case {
        let words = line.split(' ').collect::<Vec<_>>();
        Case {
            graph_buffer: number(words[1]),
            error_buffer: number(words[2]),
            odd: (words[3] != "-").then(|| number(words[3]) as u8),
            table: words_of(words[4]),
        }
    }

    pub fn answer(&self) -> String {
        let outcome = self.of_words();
        let told = match &outcome {
            Ok(built) => format!("{},{},{},{}", built.states, built.root, built.errors, built.error_words.len()),
            Err(number) => format!("refused-{number}"),
        };
        let image = if self.image_refused() { "refused-13" } else { &told };
        let written = outcome.as_ref().map_or(String::new(), |built| {
            let text = built.text.replace('\n', "¶");
            format!(" graph {} errors {} text {text}", words_text(&built.graph), words_text(&built.error_words))
        });
        format!("words {told} image {image}{written}")
    }
}

/// What the graph printer prints for an image.
pub fn printed(image: &[u8]) -> String {
    let table = image.chunks_exact(2).map(|pair| u16::from_le_bytes([pair[0], pair[1]])).collect();
    let odd = (image.len() % 2 == 1).then(|| image[image.len() - 1]);
    let case = Case { table, odd, graph_buffer: 32_768, error_buffer: 32_768 };
    if case.image_refused() {
        return "refused 13\n".to_string();
    }
    if let Err(number) = case.of_words() {
        return format!("refused {number}\n");
    }
    let built = built(&case.table);
    built.lines.iter().fold(built.text + "\n", |text, line| text + line + "\n")
}
