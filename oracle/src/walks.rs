//! Readings and scans by docs/RULES.md: small walkers over a table and over graph words.

use crate::graphs::NONE;
use crate::tables::Legal;

/// Leaf and end; none if nothing is read.
pub type Reading = Option<(usize, usize)>;

/// The table's reading of a text.
pub fn read_table(table: &Legal, text: &[u8]) -> Reading {
    if table.start == 65_535 || table.start == 0 {
        return None;
    }
    let mut last = None;
    let mut state = table.start;
    let steps = text.iter().map(|&byte| usize::from(byte)).chain([256]);
    for (before, step) in steps.enumerate() {
        state = table.step(state, step);
        if state == 0 {
            break;
        }
        if let Some(leaf) = table.leaf(state) {
            last = Some((leaf, before));
        }
    }
    last
}

/// The reading of a text by graph words that condition 12 takes.
pub fn read_graph(words: &[u16], text: &[u8]) -> Reading {
    if words[0] == 0 {
        return None;
    }
    let word = |state: usize, column: usize| words[2 + 258 * state + column];
    let accept = |state: usize| Some(usize::from(word(state, 257) % 256)).filter(|&leaf| leaf != 255);
    let early = |state: usize| Some(usize::from(word(state, 257) / 256)).filter(|&leaf| leaf != 255);
    let mut last = None;
    let mut state = usize::from(words[1]);
    for taken in 0..=text.len() {
        match (early(state), accept(state)) {
            (Some(leaf), _) => last = Some((leaf, taken)),
            (None, Some(leaf)) if taken > 0 => last = Some((leaf, taken - 1)),
            _ => {}
        }
        let step = text.get(taken).map_or(256, |&byte| usize::from(byte));
        let target = word(state, step);
        if target == NONE {
            return last;
        }
        state = usize::from(target);
    }
    // the end step has been taken
    accept(state).map(|leaf| (leaf, text.len())).or(last)
}

/// A token's leaf, none for a gap; start; end.
pub type Piece = (Option<usize>, usize, usize);

/// The scan from an offset, which is not past the text, up to its end.
pub fn scan(words: &[u16], text: &[u8], mut offset: usize) -> Vec<Piece> {
    let mut pieces = Vec::new();
    while offset < text.len() {
        let piece = match read_graph(words, &text[offset..]) {
            Some((leaf, end)) if end > 0 => (Some(leaf), offset, offset + end),
            _ => (None, offset, offset + 1),
        };
        offset = piece.2;
        pieces.push(piece);
    }
    pieces
}

/// Whether a table is clean, the errors of its build being so many.
pub fn clean(table: &Legal, errors: usize) -> bool {
    let dead = table.head(0) == 0 && (0..257).all(|step| table.step(0, step) == 0);
    errors == 0 && dead && table.reached().into_iter().all(|state| table.step(state, 256) != 0 || !all_one_leaf(table, state))
}

/// All 256 byte steps lead to states of one same leaf.
fn all_one_leaf(table: &Legal, state: usize) -> bool {
    let first = table.leaf(table.step(state, 0));
    first.is_some() && (1..256).all(|byte| table.leaf(table.step(state, byte)) == first)
}
