//! Words in runs: how tables, graphs and trees stand in the case lines, and tables and graphs in the stored lists.

use crate::form::{number, Stored};
use std::fmt::Display;

/// Words in runs, as a part of a case: for each run how often, which word.
pub fn packed_runs(words: &[u16]) -> Vec<u8> {
    let mut stored = Stored::default();
    for (times, value) in runs(words) {
        stored.half(times);
        stored.half(usize::from(value));
    }
    stored.0
}

/// Equal neighbours as one, up to 65,535 of them.
pub fn runs<W: Copy + PartialEq>(words: &[W]) -> Vec<(usize, W)> {
    let mut found: Vec<(usize, W)> = Vec::new();
    for &word in words {
        match found.last_mut() {
            Some((times, value)) if *value == word && *times < 65_535 => *times += 1,
            _ => found.push((1, word)),
        }
    }
    found
}

/// Words as `5,0*258,7`; no words as `-`.
pub fn words_text<W: Copy + Display + PartialEq>(words: &[W]) -> String {
    if words.is_empty() {
        return "-".to_string();
    }
    let shown = runs(words).into_iter().map(|(times, value)| if times == 1 { value.to_string() } else { format!("{value}*{times}") });
    shown.collect::<Vec<_>>().join(",")
}

pub fn words_of<W: Copy + TryFrom<usize>>(text: &str) -> Vec<W> {
    let mut words = Vec::new();
    for run in text.split(',').filter(|_| text != "-") {
        let (value, times) = run.split_once('*').unwrap_or((run, "1"));
        let value = W::try_from(number(value)).unwrap_or_else(|_| panic!("a word too large: {value}"));
        words.resize(words.len() + number(times), value);
    }
    words
}
