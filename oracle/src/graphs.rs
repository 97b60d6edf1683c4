//! Graph words (docs/FORMATS.md), refusal 12, and the original's graphs in both forms.

use crate::original::leaves;
use logos_codegen::graph::Graph;
use logos_codegen::views::Row;

pub const NONE: u16 = 65_535;

/// State count, root, then 258 words a state.
pub fn words_of_graph(graph: &Graph) -> Vec<u16> {
    let rows = graph.rows();
    let mut words = vec![rows.len() as u16, graph.root().number() as u16];
    for row in rows {
        let target = |to: Option<usize>| to.map_or(NONE, |state| state as u16);
        words.extend(row.targets.map(target));
        words.push(target(row.end));
        words.push((row.accept.unwrap_or(255) + 256 * row.early.unwrap_or(255)) as u16);
    }
    words
}

/// Whether condition 12 takes the words.
pub fn legal(words: &[u16]) -> bool {
    if words.len() < 2 {
        return false;
    }
    let (count, root) = (usize::from(words[0]), usize::from(words[1]));
    if count > 1024 || words.len() < 2 + 258 * count {
        return false;
    }
    let targets_legal = (0..count).all(|state| (0..257).all(|step| legal_target(words[2 + 258 * state + step], count)));
    targets_legal && (root < count || (count == 0 && root == 0))
}

fn legal_target(word: u16, count: usize) -> bool {
    usize::from(word) < count || word == NONE
}

/// The original's graph of legal words.
pub fn graph_of_words(words: &[u16]) -> Graph {
    let rows = words[2..2 + 258 * usize::from(words[0])].chunks(258).map(row).collect::<Vec<_>>();
    // a mark names a leaf below 255
    Graph::of_rows(&rows, usize::from(words[1]), leaves(255))
}

fn row(words: &[u16]) -> Row {
    let target = |word: u16| (word != NONE).then_some(usize::from(word));
    let leaf = |mark: u16| (mark != 255).then_some(usize::from(mark));
    Row {
        targets: std::array::from_fn(|byte| target(words[byte])),
        end: target(words[256]),
        accept: leaf(words[257] % 256),
        early: leaf(words[257] / 256),
    }
}
