//! Random builds: legal tables under buffers of every kind, and damaged tables.

use super::{built, Case};
use crate::random::Random;
use crate::tables::cases::{dense, layered, many_rounds, random_table, wild};
use crate::tables::{checked, Leaf, Table};

/// A case of a table under buffers that suffice, with some words to spare.
pub fn sufficing(random: &mut Random, table: Vec<u16>) -> Case {
    let (states, needed) = match checked(&table) {
        Ok(legal) => (legal.states, built(&table).error_words.len()),
        Err(_) => (1, 0),
    };
    Case { graph_buffer: 2 + 258 * states + random.below(4), error_buffer: needed + random.below(4), odd: None, table }
}

/// Words that stand at the edge of some condition.
fn edge_word(random: &mut Random, table: &[u16]) -> u16 {
    let [states, _, leaves, records] = [0, 1, 2, 3].map(|at| table[at]);
    let edges = [0, 1, 2, 255, 256, 1024, 1025, 4095, 4096, 65_534, 65_535];
    let near = [states, states.wrapping_sub(1), leaves, leaves.wrapping_sub(1), records, records.wrapping_add(1)];
    if random.percent(50) {
        random.pick(&edges)
    } else {
        random.pick(&near)
    }
}

/// The place of a word of some part of a table: header, leaf entries, steps, heads or records.
fn some_place(random: &mut Random, table: &[u16]) -> usize {
    let [states, _, leaves, records] = [0, 1, 2, 3].map(|at| usize::from(table[at]));
    let steps = 4 + 3 * leaves;
    let after = steps + 258 * states;
    match random.below(6) {
        0 => random.pick(&[0, 1, 1, 1, 2, 3]),
        1 if leaves > 0 => random.within(4, steps - 1),
        2 => steps + 258 * random.below(states) + random.pick(&[0, 97, 255, 256]),
        3 => steps + 258 * random.below(states) + 257,
        4 if records > 0 => random.within(after, table.len() - 1),
        _ => random.below(table.len()),
    }
}

/// One or two words changed, or words cut off or added. The rules say what becomes of it.
pub fn damaged(random: &mut Random, mut table: Vec<u16>) -> Vec<u16> {
    for _ in 0..random.within(1, 2) {
        let place = some_place(random, &table);
        match random.below(8) {
            0 => table.truncate(random.pick(&[0, 1, 2, 3, 4, 5])),
            1 => {
                table.pop();
            }
            2 => table.push(0),
            _ => table[place] = edge_word(random, &table),
        }
        if table.len() < 4 || checked(&table).is_err() {
            break;
        }
    }
    table
}

/// Leaves of one priority or two, in a few chains that states share: ties of up to 255 leaves, equal ones, and chains that differ late.
fn tied(random: &mut Random) -> Table {
    let states = random.within(3, 40);
    let mut table = wild(random, states);
    let leaves = random.pick(&[2, 3, 5, 40, 255]);
    let pool: &[u32] = if random.percent(50) { &[7] } else { &[7, 7, 7, 65_543] };
    table.leaves = (0..leaves).map(|_| Leaf { priority: random.pick(pool), empty: false }).collect();
    table.records.clear();
    let share = random.pick(&[10, 50, 95]);
    let heads = (0..random.within(1, 6))
        .map(|_| {
            let chosen = (0..leaves).filter(|_| random.percent(share)).collect::<Vec<_>>();
            table.chain(&chosen)
        })
        .collect::<Vec<_>>();
    for state in 0..states {
        let leads_on = table.states[state].targets.iter().any(|&target| target != 0);
        table.states[state].head = if state > 0 || leads_on { random.pick(&heads) } else { 0 };
    }
    table
}

/// Each state leads to the next one, so that all but state 0 are reached, and most stay apart.
fn connected(random: &mut Random, states: usize) -> Table {
    let mut table = wild(random, states);
    let byte = usize::from(random.byte());
    for state in 1..states - 1 {
        table.states[state].targets[byte] = state as u16 + 1;
    }
    table.start = 1;
    table
}

/// Tables of kinds that `random_table` has seldom or never: the largest, every byte of many states for itself, hundreds of rounds, many ties.
fn rare_table(random: &mut Random) -> Table {
    let [middling, some, rounds] = [(31, 300), (1000, 1024), (135, 510)].map(|(least, most)| random.within(least, most));
    let large = if random.percent(50) { 1024 } else { some };
    match random.below(12) {
        0 => dense(random, middling),
        1 => wild(random, large),
        2 => layered(random, large),
        3 => many_rounds(rounds, random.percent(50)),
        4 | 5 => connected(random, large),
        _ => tied(random),
    }
}

pub fn random_case(random: &mut Random) -> Case {
    let most = match random.below(100) {
        0..=59 => 6,
        60..=91 => 30,
        92..=98 => 126,
        _ => 1024,
    };
    let mut table = if random.percent(5) { rare_table(random) } else { random_table(random, most) }.words();
    if random.percent(25) {
        table = damaged(random, table);
    }
    let mut case = sufficing(random, table);
    match random.below(20) {
        0 => case.graph_buffer = random.below(case.graph_buffer),
        1 => case.error_buffer = random.below(case.error_buffer + 1),
        2 => case.error_buffer = 0,
        3 => case.odd = Some(random.byte()),
        _ => {}
    }
    case
}
