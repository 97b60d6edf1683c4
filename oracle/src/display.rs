//! The text of a graph: the original's `Display`, for any graph words that condition 12 takes. And the line of an error, from its words.

use crate::graphs::{graph_of_words, legal};
use crate::words::{words_of, words_text};

mod cases;
mod errors;
mod list;

pub use cases::{damaged, free_graph, random_case, some_graph};
pub use list::list;

pub struct Case {
    pub graph: Vec<u16>,
}

impl Case {
    pub fn text(&self) -> Result<String, u8> {
        if !legal(&self.graph) {
            return Err(12);
        }
        Ok(graph_of_words(&self.graph).to_string())
    }

    pub fn line(&self) -> String {
        format!("graph {}", words_text(&self.graph))
    }

    pub fn of_line(line: &str) -> Case {
        Case { graph: words_of(&line["graph ".len()..]) }
    }

    pub fn answer(&self) -> String {
        match self.text() {
            Ok(text) => format!("text {}", text.replace('\n', "¶")),
            Err(number) => format!("refused-{number}"),
        }
    }
}
