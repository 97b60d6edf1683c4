//! The stored list of graphs and their texts, and of errors and their lines (docs/ORACLE.md, "display.bin").

use super::cases::{damaged, free_graph, some_graph};
use super::errors::conflicts;
use super::Case;
use crate::form::Stored;
use crate::graphs::NONE;
use crate::random::Random;
use crate::words::packed_runs;

/// State 0 leads by each byte to a state of its own: every byte is shown alone. With `width` above 1, that many bytes go together, from `first`
/// on.
fn every_byte(first: usize, width: usize) -> Vec<u16> {
    let states = 1 + (256 - first).div_ceil(width);
    let mut words = vec![states as u16, 0];
    words.extend((0..256).map(|byte: usize| if byte < first { NONE } else { 1 + ((byte - first) / width) as u16 }));
    words.extend([NONE, NONE]);
    for _ in 1..states {
        words.extend([NONE; 258]);
    }
    words
}

/// For each two of these bytes a state that leads on by the bytes from one to the other: ends with and without an escape.
fn every_range() -> Vec<u16> {
    let ends = [0, 8, 9, 10, 13, 14, 31, 32, 33, 34, 39, 91, 92, 93, 126, 127, 128, 255];
    let ranges = ends.iter().flat_map(|&first| ends.iter().filter(move |&&last| first < last).map(move |&last| first..=last));
    let ranges = ranges.collect::<Vec<_>>();
    let states = ranges.len() as u16;
    let mut words = vec![states, states - 1];
    for (number, range) in ranges.iter().enumerate() {
        words.extend((0..256).map(|byte: usize| if range.contains(&byte) { number as u16 } else { NONE }));
        words.extend([NONE, NONE]);
    }
    words
}

/// 1,024 states; the last leads by each byte and by the end step to one of the last 257, and has both marks.
fn largest() -> Vec<u16> {
    let mut words = [vec![1024, 1023], vec![NONE; 258 * 1023]].concat();
    words.extend((0..257).map(|step| 1023 - step));
    words.push(254 + 256 * 254);
    words
}

/// Two states, both marks on each; then one word changed, to the edge of condition 12 and past it, or a word cut off or added.
fn edges() -> Vec<Vec<u16>> {
    let mut sound = vec![2, 1];
    for _ in 0..2 {
        sound.extend([1; 256]);
        sound.extend([0, 3 + 256 * 4]);
    }
    let mut graphs = vec![sound.clone(), sound[..sound.len() - 1].to_vec(), [&sound[..], &[9]].concat()];
    for (at, values) in [
        (0, vec![0, 1, 3, 1024, 1025, 65_535]),
        (1, vec![0, 2, 65_535]),
        (2, vec![0, 2, 65_534, 65_535]),
        (2 + 255, vec![0, 2, 65_535]),
        (2 + 256, vec![1, 2, 65_534, 65_535]),
        (2 + 257, vec![0, 254, 255, 65_279, 65_280, 65_534, 65_535]),
        (2 + 258, vec![0, 2, 65_535]),
        (2 + 258 + 255, vec![0, 2, 65_535]),
        (2 + 258 + 256, vec![1, 2, 65_535]),
    ] {
        graphs.extend(values.into_iter().map(|value| {
            let mut graph = sound.clone();
            graph[at] = value;
            graph
        }));
    }
    graphs
}

fn graphs() -> Vec<Vec<u16>> {
    let mut random = Random::new(7);
    let mut graphs = vec![vec![], vec![0], vec![0, 0], vec![0, 1], vec![0, 0, 7, 7], vec![1, 0]];
    graphs.extend([every_byte(0, 1), every_byte(0, 2), every_byte(1, 2), every_byte(2, 3), every_byte(31, 97)]);
    graphs.push([vec![1024, 1023], vec![NONE; 258 * 1024]].concat());
    graphs.push([vec![1025, 0], vec![NONE; 258 * 1025]].concat());
    graphs.extend([every_range(), largest()]);
    graphs.extend(edges());
    graphs.extend((0..60).map(|round| free_graph(&mut random, 1 + round % 4)));
    graphs.extend((0..60).map(|_| some_graph(&mut random, 6)));
    graphs.extend((0..6).map(|_| some_graph(&mut random, 40)));
    for _ in 0..40 {
        let graph = some_graph(&mut random, 4);
        graphs.push(damaged(&mut random, graph));
    }
    graphs
}

/// Words, and the text of them or a refusal.
fn store(stored: &mut Stored, kind: usize, words: &[u16], text: Result<String, u8>) {
    let refusal = text.as_ref().err().copied().unwrap_or(0);
    stored.case(kind, &[usize::from(refusal)], &[&packed_runs(words), text.unwrap_or_default().as_bytes()]);
}

pub fn list() -> Vec<u8> {
    let mut stored = Stored::default();
    for graph in graphs() {
        let case = Case { graph };
        store(&mut stored, 0, &case.graph, case.text());
    }
    for (words, line) in conflicts() {
        store(&mut stored, 1, &words, line);
    }
    stored.0
}
