//! Tables to build from.

use crate::random::Random;
use crate::tables::cases::many_rounds;
use crate::tables::{Leaf, State, Table};

fn leaves(count: u32) -> Vec<Leaf> {
    (0..count).map(|priority| Leaf { priority, empty: false }).collect()
}

/// Every step of every state but state 0 to a random state, and at half of them a leaf, or two of which the second has the higher priority.
pub fn dense(random: &mut Random, states: usize) -> Vec<u16> {
    let mut table = Table { start: 1, leaves: leaves(8), states: vec![State::dead()], records: Vec::new() };
    for _ in 1..states {
        let mut chosen = (0..random.within(1, 2)).map(|_| random.below(8)).collect::<Vec<_>>();
        chosen.sort_unstable();
        chosen.dedup();
        let head = if random.percent(50) { table.chain(&chosen) } else { 0 };
        let targets = std::array::from_fn(|_| random.below(states) as u16);
        table.states.push(State { targets, end: random.below(states) as u16, head });
    }
    table.words()
}

/// States that merge one a round, in half as many rounds as there are states. One or two are not reached.
pub fn ladder(states: usize) -> Vec<u16> {
    let mut table = many_rounds((states - 3) / 2, false);
    table.states.resize(states, State::dead());
    table.words()
}

/// State 0 is not reached; the rows of the others differ in their end targets only, so that no two are equal.
pub fn last_word(states: usize) -> Vec<u16> {
    let mut table = Table { start: 1, leaves: leaves(1), states: vec![State::dead()], records: Vec::new() };
    let head = table.chain(&[0]);
    for state in 1..states {
        let end = if state == states - 1 { 1 } else { state + 1 };
        table.states.push(State { targets: [2; 256], end: end as u16, head });
    }
    table.words()
}
