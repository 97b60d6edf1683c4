//! Random texts for tables and graphs.

use super::Case;
use crate::builds::damaged;
use crate::display;
use crate::graphs::{self, NONE};
use crate::random::Random;
use crate::tables::cases::random_table;

/// A text that mostly follows steps which lead somewhere. `step` gives a state's target by a byte, none where there is no edge.
pub fn following(random: &mut Random, start: usize, longest: usize, step: impl Fn(usize, u8) -> Option<usize>) -> Vec<u8> {
    let mut text = Vec::new();
    let mut state = Some(start);
    let stray = random.pick(&[0, 2, 10]);
    for _ in 0..random.below(longest + 1) {
        let lead = |byte: &u8| state.is_some_and(|state| step(state, *byte).is_some());
        // the first of a few bytes that leads on
        let tried = [0; 8].map(|_| random.byte());
        let from = random.byte();
        let byte = if random.percent(stray) {
            from
        } else {
            tried.into_iter().find(lead).or_else(|| (0..=255).map(|more: u8| from.wrapping_add(more)).find(lead)).unwrap_or(from)
        };
        text.push(byte);
        // behind a stop the scan begins anew
        state = state.and_then(|state| step(state, byte)).or(Some(start));
    }
    text
}

/// A text for a legal table.
pub fn text_for_table(random: &mut Random, words: &[u16], longest: usize) -> Vec<u8> {
    let table = crate::tables::checked(words).expect("a legal table");
    let start = if table.start == 65_535 { 0 } else { table.start };
    following(random, start, longest, |state, byte| Some(table.step(state, usize::from(byte))).filter(|&to| to != 0))
}

/// A text for graph words.
pub fn text_for_graph(random: &mut Random, words: &[u16], longest: usize) -> Vec<u8> {
    if !graphs::legal(words) || words[0] == 0 {
        return (0..random.below(4)).map(|_| random.byte()).collect();
    }
    let target = |state: usize, byte: u8| words[2 + 258 * state + usize::from(byte)];
    following(random, usize::from(words[1]), longest, |state, byte| Some(target(state, byte)).filter(|&to| to != NONE).map(usize::from))
}

pub fn random_case(random: &mut Random) -> Case {
    let longest = random.pick(&[0, 3, 12, 40]);
    if random.percent(60) {
        let most = random.pick(&[4, 8, 20, 60]);
        let mut table = random_table(random, most).words();
        let text = text_for_table(random, &table, longest);
        if random.percent(10) {
            table = damaged(random, table);
        }
        return Case::Table { table, text };
    }
    let graph = display::random_case(random).graph;
    let text = text_for_graph(random, &graph, longest);
    let offset = match random.below(6) {
        0 => text.len() + 1,
        1 => text.len(),
        2 => random.below(text.len() + 1),
        _ => 0,
    };
    Case::Graph { graph, text, offset }
}
