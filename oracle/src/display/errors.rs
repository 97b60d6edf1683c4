//! Words of errors (kind, leaf count, leaves), and the line of the error that they begin with.

use crate::builds::{built, k1, k14, ties};
use crate::random::Random;
use crate::tables::cases::wild;
use crate::tables::{Leaf, Table};

/// Words, and the line of the error that they begin with; 9 where they end before it does.
pub type Conflict = (Vec<u16>, Result<String, u8>);

/// The line of words that no build writes, or 9, by the form in docs/FORMATS.md alone.
fn line_of(words: &[u16]) -> Result<String, u8> {
    let leaves = words.get(1).and_then(|count| words.get(2..2 + usize::from(*count))).ok_or(9)?;
    Ok([&words[..1], leaves].concat().iter().fold("error".to_string(), |line, number| format!("{line} {number}")))
}

/// The first errors of a table's build, with the original's lines for them: each with some of the words that follow it, and cut short by a word.
fn of_build(table: &Table, most: usize) -> Vec<Conflict> {
    let built = built(&table.words());
    let mut found = Vec::new();
    let mut at = 0;
    for (number, line) in built.lines.into_iter().enumerate().take(most) {
        let end = at + 2 + usize::from(built.error_words[at + 1]);
        let given = built.error_words.len().min(end + number % 5);
        assert_eq!(line_of(&built.error_words[at..end]).as_ref(), Ok(&line), "the words of an error and its line");
        found.push((built.error_words[at..given].to_vec(), Ok(line)));
        found.push((built.error_words[at..end - 1].to_vec(), Err(9)));
        at = end;
    }
    found
}

/// Tables whose builds have errors of each kind: no start; leaves that can be empty; ties of two to 255 leaves.
fn tables() -> Vec<Table> {
    let mut tables = [2, 3, 12, 101, 255].map(k1).to_vec();
    tables.extend([k14(), ties()]);
    tables.extend([0, 1].map(|leaves| Table { start: 65_535, ..k1(leaves) }));
    for empties in [vec![true], vec![false, true, true], vec![true; 255]] {
        let mut table = k1(1);
        table.leaves = empties.into_iter().map(|empty| Leaf { priority: 2, empty }).collect();
        tables.push(table);
    }
    tables
}

/// Any kinds and leaves, and words that end early.
fn free() -> Vec<Vec<u16>> {
    let numbers = [0, 1, 2, 3, 9, 10, 99, 100, 254, 255, 999, 1000, 9999, 10_000, 65_535];
    let mut words = vec![vec![], vec![2], vec![0, 1], vec![1, 1], vec![2, 2, 0], vec![0, 65_535], vec![65_535, 65_535, 0, 0]];
    for (place, kind) in numbers.into_iter().enumerate() {
        for count in [0, 1, 2, 15] {
            let leaves = (0..count).map(|i| numbers[(place + usize::from(i)) % numbers.len()]);
            words.push([kind, count].into_iter().chain(leaves).collect());
        }
    }
    words.push([vec![2, 1000], vec![65_535; 1000]].concat());
    words.push([vec![2, 1000], vec![65_535; 999]].concat());
    words
}

pub fn conflicts() -> Vec<Conflict> {
    let mut random = Random::new(8);
    let mut found = tables().iter().flat_map(|table| of_build(table, 255)).collect::<Vec<_>>();
    found.extend((0..200).flat_map(|round| of_build(&wild(&mut random, 2 + round % 9), 4)));
    found.extend(free().into_iter().map(|words| {
        let line = line_of(&words);
        (words, line)
    }));
    found
}
