//! The readings as Rust loops with unchecked indexing: the same steps as crates/readings/src/read.rt, crates/scans/src and crates/words/src/graph.rt take.
//! Nothing but the check of the graph words keeps the indices inside.

pub const NONE: usize = 65_535;

pub fn word(words: &[u16], at: usize) -> usize {
    usize::from(unsafe { *words.get_unchecked(at) })
}

pub fn byte(text: &[u8], at: usize) -> usize {
    usize::from(unsafe { *text.get_unchecked(at) })
}

pub fn place(state: usize, column: usize) -> usize {
    2 + 258 * state + column
}

/// Whether condition 12 takes the words.
pub fn fits(graph: &[u16]) -> bool {
    if graph.len() < 2 {
        return false;
    }
    let (count, root) = (word(graph, 0), word(graph, 1));
    if count > 1024 || graph.len() < 2 + 258 * count {
        return false;
    }
    for state in 0..count {
        for column in 0..257 {
            let target = word(graph, place(state, column));
            if target >= count && target != NONE {
                return false;
            }
        }
    }
    root < count || (count == 0 && root == 0)
}

/// The record at a state with these marks, entered by so many byte steps.
pub fn entered(marks: usize, taken: usize, last: Option<(usize, usize)>) -> Option<(usize, usize)> {
    let (accept, early) = (marks % 256, marks / 256);
    if early != 255 {
        Some((early, taken))
    } else if accept != 255 && taken != 0 {
        Some((accept, taken - 1))
    } else {
        last
    }
}

fn walk(graph: &[u16], text: &[u8]) -> Option<(usize, usize)> {
    let mut last = None;
    if word(graph, 0) == 0 {
        return last;
    }
    let mut state = word(graph, 1);
    for taken in 0..text.len() {
        last = entered(word(graph, place(state, 257)), taken, last);
        let target = word(graph, place(state, byte(text, taken)));
        if target == NONE {
            return last;
        }
        state = target;
    }
    last = entered(word(graph, place(state, 257)), text.len(), last);
    let target = word(graph, place(state, 256));
    if target == NONE {
        return last;
    }
    let accept = word(graph, place(target, 257)) % 256;
    if accept == 255 {
        last
    } else {
        Some((accept, text.len()))
    }
}

/// Leaf and end; or 12.
#[inline(never)]
pub fn read_graph(graph: &[u16], text: &[u8]) -> Result<Option<(usize, usize)>, u8> {
    if !fits(graph) {
        return Err(12);
    }
    Ok(walk(graph, text))
}

/// End, and leaf, or 65,535 for a gap, of the token or gap at an offset below the length.
fn entry(graph: &[u16], text: &[u8], at: usize) -> (usize, usize) {
    match walk(graph, unsafe { text.get_unchecked(at..) }) {
        Some((leaf, end)) if end != 0 => (at + end, leaf),
        _ => (at + 1, NONE),
    }
}

/// The next token or gap from the offset on, which moves to its end: whether there is one; or 12 or 14.
#[inline(never)]
pub fn scan_next(graph: &[u16], text: &[u8], at: &mut usize, out: &mut [usize; 3]) -> Result<bool, u8> {
    if !fits(graph) {
        return Err(12);
    }
    if *at > text.len() {
        return Err(14);
    }
    if *at == text.len() {
        return Ok(false);
    }
    let (end, leaf) = entry(graph, text, *at);
    *out = [*at, end, leaf];
    *at = end;
    Ok(true)
}

/// As many tokens and gaps from the offset on as there is room for, three words each, and the offset after them; or 12 or 14.
#[inline(never)]
pub fn scan_list(graph: &[u16], text: &[u8], from: usize, out: &mut [usize]) -> Result<(usize, usize), u8> {
    if !fits(graph) {
        return Err(12);
    }
    if from > text.len() {
        return Err(14);
    }
    let mut at = from;
    for number in 0..out.len() / 3 {
        if at == text.len() {
            return Ok((number, at));
        }
        let (end, leaf) = entry(graph, text, at);
        unsafe {
            *out.get_unchecked_mut(3 * number) = at;
            *out.get_unchecked_mut(3 * number + 1) = end;
            *out.get_unchecked_mut(3 * number + 2) = leaf;
        }
        at = end;
    }
    Ok((out.len() / 3, at))
}
