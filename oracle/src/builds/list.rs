//! The stored list of builds (docs/ORACLE.md, "builds.bin").

use super::cases::{damaged, sufficing};
use super::Case;
use crate::form::Stored;
use crate::random::Random;
use crate::tables::cases::{delayed, dense, layered, many_rounds, random_table, wild};
use crate::tables::{Leaf, State, Table};
use crate::words::{packed_runs, runs};

/// K1, with so many leaves of one priority on its last state.
pub fn k1(leaves: usize) -> Table {
    let mut table = Table { start: 1, leaves: Vec::new(), states: vec![State::dead(); 4], records: Vec::new() };
    table.leaves.resize(leaves, Leaf { priority: 2, empty: false });
    table.states[1].targets[usize::from(b'a')] = 2;
    table.states[2] = State { targets: [3; 256], end: 3, head: 0 };
    table.states[3].head = table.chain(&(0..leaves).collect::<Vec<_>>());
    table
}

/// K14: two states with one tie.
pub fn k14() -> Table {
    let mut table = k1(2);
    table.states.push(table.states[3].clone());
    table.states[2].end = 4;
    table
}

/// Ties of several leaves on states that the start leads to in another order than the errors are sorted in.
pub fn ties() -> Table {
    let mut table = k1(4);
    let chains: [&[usize]; 8] = [&[0, 1, 2], &[2, 3], &[0, 2], &[0, 1], &[0, 1, 2, 3], &[1, 3], &[0, 1], &[3]];
    for (number, chain) in chains.iter().enumerate() {
        let head = table.chain(chain);
        table.states.push(State { head, ..State::dead() });
        table.states[1].targets[usize::from(b'b') + number] = 4 + number as u16;
    }
    table
}

/// So many states, each leading to the next by every byte.
fn one_after_another(states: usize) -> Table {
    let mut table = k1(1);
    table.states.resize(states, State::dead());
    for state in 3..states - 1 {
        table.states[state].targets = [state as u16 + 1; 256];
    }
    table
}

/// Tables in which each rule of the build is decided by one word.
fn single_words() -> Vec<Table> {
    let mut tables = vec![k1(1), k1(2), k1(0), k14(), k1(255), ties()];
    let mut changed = |change: &dyn Fn(&mut Table)| {
        let mut table = k1(1);
        change(&mut table);
        tables.push(table);
    };
    // rule 5: no end step; an end step to a state without the leaf; a byte without an edge
    changed(&|table| table.states[2].end = 0);
    changed(&|table| table.states[2].end = 1);
    changed(&|table| table.states[2].targets[255] = 0);
    changed(&|table| table.states[2].targets[0] = 0);
    changed(&|table| table.states[2].targets[128] = 1);
    // rule 6: a second parent that is not early; a leaf on the start, which has no parent; an end edge as parent
    changed(&|table| table.states[1].targets[98] = 3);
    changed(&|table| table.states[1].head = 1);
    changed(&|table| table.states[1].end = 3);
    // state 0 reached and alive, as start, with a leaf, leading on
    changed(&|table| table.start = 0);
    changed(&|table| table.states[0].end = 1);
    changed(&|table| table.states[0].head = 1);
    changed(&|table| {
        table.start = 0;
        table.states[0] = State { targets: [2; 256], end: 3, head: 1 };
    });
    // rule 1
    changed(&|table| table.start = 65_535);
    changed(&|table| table.leaves[0].empty = true);
    changed(&|table| {
        table.start = 65_535;
        table.leaves[0].empty = true;
    });
    changed(&|table| {
        table.leaves = [true, false, true].map(|empty| Leaf { priority: 2, empty }).to_vec();
    });
    // the last or the first of 255 leaves is the best
    for best in [0, 254] {
        changed(&|table| {
            *table = k1(255);
            table.leaves[best].priority = 65_536;
        });
    }
    // priorities that differ in one half only
    for priority in [3, 65_538, 0] {
        changed(&|table| {
            *table = k1(3);
            table.leaves[1].priority = priority;
        });
    }
    tables
}

/// Each condition by one word or length, at its edge and just past it.
fn refusals() -> Vec<Case> {
    let plain = |table: Vec<u16>| Case { graph_buffer: 2 + 258 * 4, error_buffer: 0, odd: None, table };
    let sound = k1(1).words();
    let mut cases = (0..=5).map(|length| plain(sound[..length].to_vec())).collect::<Vec<_>>();
    let steps = 7;
    let records = steps + 4 * 258;
    let words = [
        (0, vec![0, 3, 5, 1024, 1025, 65_535]),
        (1, vec![0, 3, 4, 5, 65_534, 65_535]),
        (2, vec![0, 2, 255, 256, 65_535]),
        (3, vec![0, 2, 4095, 4096, 65_535]),
        (6, vec![1, 2, 65_535]),
        (steps, vec![3, 4, 65_535]),
        (steps + 255, vec![3, 4]),
        (steps + 256, vec![3, 4, 65_535]),
        (steps + 3 * 258 + 256, vec![3, 4]),
        (steps + 257, vec![0, 1, 2, 65_535]),
        (steps + 3 * 258 + 257, vec![0, 2]),
        (records, vec![1, 255, 65_535]),
        (records + 1, vec![1, 2, 65_535]),
    ];
    for (at, values) in words {
        for value in values {
            let mut table = sound.clone();
            table[at] = value;
            cases.push(plain(table));
        }
    }
    cases.push(plain([&sound[..], &[0]].concat()));
    cases.push(plain(sound[..sound.len() - 1].to_vec()));
    cases.push(Case { odd: Some(7), ..plain(sound.clone()) });
    cases.push(Case { odd: Some(0), ..plain(vec![]) });
    cases.push(Case { odd: Some(0), ..plain(vec![0; 4]) });
    for graph_buffer in [0, 1, 2, 2 + 258 * 4 - 1, 2 + 258 * 4, 2 + 258 * 4 + 3] {
        cases.push(Case { graph_buffer, ..plain(sound.clone()) });
    }
    let tied = k14().words();
    for error_buffer in [0, 1, 4, 7, 8, 9] {
        cases.push(Case { graph_buffer: 2 + 258 * 5, error_buffer, ..plain(tied.clone()) });
    }
    // a chain whose leaves do not ascend, used by no state
    for pair in [[0, 1], [1, 0], [1, 1]] {
        let mut table = k1(2);
        table.records = vec![(pair[1], 0), (pair[0], 1)];
        table.states[3].head = 0;
        cases.push(plain(table.words()));
    }
    cases
}

/// The first table made whose words are at most so many runs.
fn within(most: usize, mut make: impl FnMut() -> Table) -> Vec<u16> {
    loop {
        let words = make().words();
        if runs(&words).len() <= most {
            return words;
        }
    }
}

/// The largest tables.
fn large(random: &mut Random) -> Vec<Vec<u16>> {
    let mut largest = one_after_another(1024).words();
    let mut tables = vec![largest.clone()];
    largest[0] = 1025;
    tables.push(largest.clone());
    largest.extend([0; 258]);
    tables.push(largest);
    tables.extend([one_after_another(126).words(), one_after_another(127).words()]);
    tables.push(many_rounds(400, false).words());
    tables.push(many_rounds(60, true).words());
    tables.push(within(6000, || layered(random, 700)));
    tables.push(within(3000, || layered(random, 300)));
    tables.push(within(3000, || delayed(random, 200)));
    tables
}

/// The kind is the refusal of the image, 10 for 13. Both buffers are given whole, as they are after the call on words; `fill` is what they held.
fn store(stored: &mut Stored, fill: u16, case: &Case) {
    let outcome = case.of_words();
    let refusal = usize::from(outcome.as_ref().err().copied().unwrap_or(0));
    let kind = if case.image_refused() { 10 } else { refusal };
    let mut numbers = vec![usize::from(fill), refusal, 0, 0, 0, 0];
    let (mut graph, mut errors) = (Vec::new(), Vec::new());
    if let Ok(built) = outcome {
        numbers[2..].copy_from_slice(&[built.states, built.root, built.errors, built.error_words.len()]);
        graph = built.graph;
        graph.resize(2 + 258 * usize::from(case.table[0]), 0);
        errors = built.error_words;
    }
    graph.resize(case.graph_buffer, fill);
    errors.resize(case.error_buffer, fill);
    let odd = case.odd.into_iter().collect::<Vec<_>>();
    stored.case(kind, &numbers, &[&packed_runs(&case.table), &odd, &packed_runs(&graph), &packed_runs(&errors)]);
}

/// The list, with these images among its tables.
pub fn list(images: &[(Vec<u16>, Vec<u8>)]) -> Vec<u8> {
    let mut stored = Stored::default();
    let mut random = Random::new(6);
    let mut tables = single_words().iter().map(Table::words).collect::<Vec<_>>();
    tables.extend(large(&mut random));
    tables.extend(images.iter().map(|(image, _)| image.clone()));
    tables.extend((0..120).map(|round| within(500, || wild(&mut random, 2 + round % 9))));
    tables.extend((0..10).map(|_| within(1500, || wild(&mut random, 40))));
    tables.extend((0..3).map(|_| dense(&mut random, 6).words()));
    tables.extend((0..25).map(|round| within(500, || layered(&mut random, 3 + round))));
    tables.extend((0..40).map(|round| within(500, || delayed(&mut random, 3 + round))));
    let mut cases = refusals();
    cases.extend(tables.into_iter().map(|table| sufficing(&mut random, table)));
    for _ in 0..60 {
        let table = within(300, || random_table(&mut random, 4));
        let table = damaged(&mut random, table);
        cases.push(sufficing(&mut random, table));
    }
    for (number, case) in cases.iter().enumerate() {
        store(&mut stored, (1 + 20_011 * number % 65_521) as u16, case);
    }
    stored.0
}
