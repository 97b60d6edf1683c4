//! Scans by a plan as Rust loops with unchecked indexing: the same steps as crates/runner and crates/plans take. The graph, the store and the plan are
//! checked once, and nothing but that check keeps the indices inside.

use super::loops::{byte, entered, fits, place, word, NONE};

/// A mask store: eight tables of 256 bytes, mask i being bit i mod 8 of table i / 8, and how many masks it holds.
#[derive(Clone)]
pub struct Store {
    pub tables: [u8; 2048],
    pub count: usize,
}

/// Comparisons, at most three, and their exceptions, at most two.
#[derive(Clone, Copy, Default)]
struct Tests {
    count: u8,
    first: [u8; 3],
    last: [u8; 3],
    holes: [u8; 3],
    except: [u8; 2],
}

/// What is worked out of a graph before texts are run: of each state's first two edges the targets and, where a class costs at most 2, the comparisons.
struct Prepared {
    ends: Vec<u16>,
    tests: Vec<Tests>,
}

type Class = [bool; 256];

/// The byte edges of a state, by target.
fn edges(graph: &[u16], state: usize) -> Vec<(usize, Class)> {
    let mut targets = (0..256).map(|column| word(graph, place(state, column))).filter(|&target| target != NONE).collect::<Vec<_>>();
    targets.sort_unstable();
    targets.dedup();
    targets.into_iter().map(|target| (target, std::array::from_fn(|column| word(graph, place(state, column)) == target))).collect()
}

/// The maximal ranges of a class, neighbours that one byte parts being joined: first, last, exceptions.
fn comparisons(class: &Class) -> Vec<(u8, u8, Vec<u8>)> {
    let mut joined: Vec<(u8, u8, Vec<u8>)> = Vec::new();
    for byte in (u8::MIN..=u8::MAX).filter(|&byte| class[usize::from(byte)]) {
        match joined.last_mut() {
            Some((_, last, _)) if *last + 1 == byte => *last = byte,
            Some((_, last, except)) if *last + 2 == byte => {
                except.push(byte - 1);
                *last = byte;
            }
            _ => joined.push((byte, byte, Vec::new())),
        }
    }
    joined
}

/// The operations of comparisons: 1 for a single byte, else one for each end that is not 0 or 255, and the exceptions.
fn cost(joined: &[(u8, u8, Vec<u8>)]) -> usize {
    let ends = |first: u8, last: u8| if first == last { 1 } else { usize::from(first != 0) + usize::from(last != 255) };
    joined.iter().map(|(first, last, except)| ends(*first, *last) + except.len()).sum()
}

fn has(store: &Store, mask: usize, byte: usize) -> bool {
    store.tables[256 * (mask / 8) + byte] >> (mask % 8) & 1 != 0
}

/// The number of a class in a store.
fn number(store: &Store, class: &Class) -> Option<usize> {
    (0..store.count).find(|&mask| (0..256).all(|byte| has(store, mask, byte) == class[byte]))
}

/// The plan of a state on a store; none if it lacks a class.
fn row(graph: &[u16], state: usize, store: &Store) -> Option<[u16; 3]> {
    let edges = edges(graph, state);
    let mut row = [0, 0, 0];
    if let Some((_, class)) = edges.iter().find(|(target, _)| *target == state) {
        row[0] = 1 + number(store, class)? as u16;
    }
    if edges.len() > 2 {
        return Some([row[0], NONE as u16, NONE as u16]);
    }
    for (at, (_, class)) in edges.iter().enumerate().filter(|(_, (target, _))| *target != state) {
        row[1 + at] = if cost(&comparisons(class)) > 2 { 2 + number(store, class)? as u16 } else { 1 };
    }
    Some(row)
}

/// Whether the words are the plan of the graph on the store, which counts at most 64 and repeats no class.
fn is_plan(graph: &[u16], plan: &[u16], store: &Store) -> bool {
    let class = |mask: usize| -> Class { std::array::from_fn(|byte| has(store, mask, byte)) };
    store.count <= 64
        && (0..store.count).all(|mask| number(store, &class(mask)) == Some(mask))
        && (0..word(graph, 0)).all(|state| row(graph, state, store).is_some_and(|row| row[..] == plan[3 * state..3 * state + 3]))
}

fn tests_of(class: &Class) -> Tests {
    let mut tests = Tests::default();
    let mut used = 0;
    for (at, (first, last, except)) in comparisons(class).into_iter().enumerate() {
        (tests.first[at], tests.last[at], tests.holes[at]) = (first, last, except.len() as u8);
        for byte in except {
            tests.except[used] = byte;
            used += 1;
        }
        tests.count += 1;
    }
    tests
}

fn prepare(graph: &[u16]) -> Prepared {
    let states = word(graph, 0);
    let mut prepared = Prepared { ends: vec![0; 2 * states], tests: vec![Tests::default(); 2 * states] };
    for state in 0..states {
        let edges = edges(graph, state);
        for (at, (target, class)) in edges.iter().enumerate().take(2) {
            prepared.ends[2 * state + at] = *target as u16;
            if edges.len() <= 2 && cost(&comparisons(class)) <= 2 {
                prepared.tests[2 * state + at] = tests_of(class);
            }
        }
    }
    prepared
}

/// Whether a mask has a byte.
fn mask_has(tables: &[u8; 2048], mask: usize, byte: usize) -> bool {
    unsafe { *tables.get_unchecked(256 * (mask / 8) + byte) >> (mask % 8) & 1 != 0 }
}

/// Whether one of the comparisons holds: inside a joined range and no exception.
fn some_holds(tests: &Tests, byte: u8) -> bool {
    let mut used = 0;
    for at in 0..usize::from(tests.count) {
        unsafe {
            let end = used + usize::from(*tests.holes.get_unchecked(at));
            if *tests.first.get_unchecked(at) <= byte
                && byte <= *tests.last.get_unchecked(at)
                && !tests.except.get_unchecked(used..end).contains(&byte)
            {
                return true;
            }
            used = end;
        }
    }
    false
}

/// Whether the edge of a plan's word takes a byte.
fn takes(by: usize, tests: &Tests, tables: &[u8; 2048], byte: usize) -> bool {
    match by {
        0 => false,
        1 => some_holds(tests, byte as u8),
        _ => mask_has(tables, by - 2, byte),
    }
}

/// The target of a byte by a state's plan, or 65,535.
fn led(graph: &[u16], plan: &[u16], tables: &[u8; 2048], prepared: &Prepared, state: usize, byte: usize) -> usize {
    let first = word(plan, 3 * state + 1);
    if first == NONE {
        return word(graph, place(state, byte));
    }
    let tests = |edge: usize| unsafe { prepared.tests.get_unchecked(2 * state + edge) };
    if takes(first, tests(0), tables, byte) {
        return word(&prepared.ends, 2 * state);
    }
    if takes(word(plan, 3 * state + 2), tests(1), tables, byte) {
        return word(&prepared.ends, 2 * state + 1);
    }
    NONE
}

/// The place of the first byte from k on that the mask lacks.
fn self_run(tables: &[u8; 2048], mask: usize, text: &[u8], mut k: usize) -> usize {
    while k < text.len() && mask_has(tables, mask, byte(text, k)) {
        k += 1;
    }
    k
}

fn run(graph: &[u16], plan: &[u16], tables: &[u8; 2048], prepared: &Prepared, text: &[u8]) -> Option<(usize, usize)> {
    let mut last = None;
    if word(graph, 0) == 0 {
        return last;
    }
    let (mut state, mut k) = (word(graph, 1), 0);
    loop {
        let own = word(plan, 3 * state);
        if own != 0 {
            k = self_run(tables, own - 1, text, k);
        }
        last = entered(word(graph, place(state, 257)), k, last);
        if k == text.len() {
            break;
        }
        let target = led(graph, plan, tables, prepared, state, byte(text, k));
        if target == NONE {
            return last;
        }
        state = target;
        k += 1;
    }
    let target = word(graph, place(state, 256));
    if target == NONE {
        return last;
    }
    let accept = word(graph, place(target, 257)) % 256;
    if accept == 255 {
        last
    } else {
        Some((accept, text.len()))
    }
}

/// What `scan_list` of loops.rs answers, by a plan and a store; or 12, 14 or 15.
#[inline(never)]
pub fn scan_planned(graph: &[u16], plan: &[u16], store: &Store, text: &[u8], from: usize, out: &mut [usize]) -> Result<(usize, usize), u8> {
    if !fits(graph) {
        return Err(12);
    }
    if from > text.len() || plan.len() < 3 * word(graph, 0) || !is_plan(graph, plan, store) {
        return Err(14);
    }
    let prepared = prepare(graph);
    let mut at = from;
    for number in 0..out.len() / 3 {
        if at == text.len() {
            return Ok((number, at));
        }
        let (end, leaf) = match run(graph, plan, &store.tables, &prepared, unsafe { text.get_unchecked(at..) }) {
            Some((leaf, end)) if end != 0 => (at + end, leaf),
            _ => (at + 1, NONE),
        };
        unsafe {
            *out.get_unchecked_mut(3 * number) = at;
            *out.get_unchecked_mut(3 * number + 1) = end;
            *out.get_unchecked_mut(3 * number + 2) = leaf;
        }
        at = end;
    }
    Ok((out.len() / 3, at))
}
