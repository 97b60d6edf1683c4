//! Graph words of a small lexer (words, numbers, blanks, punctuation, strings with escapes), and texts for it.

use crate::graphs::NONE;
use crate::random::Random;

const LETTERS: &[u8] = b"abcdefghijklmnopqrstuvwxyz";
const DIGITS: &[u8] = b"0123456789";
const BLANKS: &[u8] = b" \n";
const PUNCTUATION: &[u8] = b",;:()";

const ROOT: usize = 0;
/// The marks words of the states: none, or a leaf as early, as a clean table without looks gives them.
const MARKS: [u16; 10] = [NONE, early(0), early(1), early(2), early(3), NONE, early(4), NONE, NONE, early(1)];

const fn early(leaf: u16) -> u16 {
    255 + 256 * leaf
}

fn place(state: usize, column: usize) -> usize {
    2 + 258 * state + column
}

/// Reads one token and stops after it. No state has an end edge.
pub fn lexer() -> Vec<u16> {
    let all = (u8::MIN..=u8::MAX).collect::<Vec<_>>();
    let [word, number, blank, mark, string, closed, escape, point, fraction] = [1, 2, 3, 4, 5, 6, 7, 8, 9];
    // a later edge takes the place of an earlier one
    let edges: [(usize, &[u8], usize); 16] = [
        (ROOT, LETTERS, word),
        (word, LETTERS, word),
        (word, DIGITS, word),
        (ROOT, DIGITS, number),
        (number, DIGITS, number),
        (number, b".", point),
        (point, DIGITS, fraction),
        (fraction, DIGITS, fraction),
        (ROOT, BLANKS, blank),
        (blank, BLANKS, blank),
        (ROOT, PUNCTUATION, mark),
        (ROOT, b"\"", string),
        (string, &all, string),
        (string, b"\"", closed),
        (string, b"\\", escape),
        (escape, &all, string),
    ];
    let mut words = vec![NONE; place(MARKS.len(), 0)];
    (words[0], words[1]) = (MARKS.len() as u16, ROOT as u16);
    for (state, marks) in MARKS.into_iter().enumerate() {
        words[place(state, 257)] = marks;
    }
    for (from, bytes, to) in edges {
        for &byte in bytes {
            words[place(from, usize::from(byte))] = to as u16;
        }
    }
    words
}

/// Reads on after a token as from the root, so that one reading takes a whole text.
pub fn joined() -> Vec<u16> {
    let mut words = lexer();
    for state in 1..MARKS.len() {
        for byte in 0..256 {
            let at = place(state, byte);
            if words[at] == NONE && MARKS[state] != NONE {
                words[at] = words[place(ROOT, byte)];
            }
        }
    }
    words
}

/// Kinds of token: words and numbers, with and without a fraction, and blanks; the last is a string.
pub const RUNS: std::ops::Range<usize> = 0..7;
pub const STRINGS: std::ops::Range<usize> = 7..8;
pub const ALL: std::ops::Range<usize> = 0..8;

/// A token of so many bytes or a few more.
fn token(random: &mut Random, kind: usize, length: usize, text: &mut Vec<u8>) {
    let mut run = |bytes: &[u8]| (0..length).map(|_| random.pick(bytes)).collect::<Vec<_>>();
    match kind {
        0..=2 => text.extend(run(LETTERS)),
        3 | 4 => text.extend(run(DIGITS)),
        5 => text.extend([&run(DIGITS)[..], b".0"].concat()),
        6 => text.extend(run(BLANKS)),
        _ => text.extend([b"\"", &run(LETTERS)[..], b"\\n\""].concat()),
    }
}

/// A text of at least `size` bytes: tokens of these kinds, of `least` to `most` bytes or a few more, with a blank or punctuation after each.
pub fn text(random: &mut Random, kinds: std::ops::Range<usize>, size: usize, least: usize, most: usize) -> Vec<u8> {
    let mut text = Vec::with_capacity(size + most + 8);
    while text.len() < size {
        let kind = random.within(kinds.start, kinds.end - 1);
        let length = random.within(least, most);
        token(random, kind, length, &mut text);
        let separators = if random.percent(60) { BLANKS } else { PUNCTUATION };
        text.push(random.pick(separators));
    }
    text
}
