//! Random legal tables of several kinds.

use super::{Leaf, State, Table};
use crate::random::Random;

/// Byte to class: runs of bytes, or each byte for itself.
pub fn alphabet(random: &mut Random, classes: usize) -> [usize; 256] {
    if random.percent(30) {
        return std::array::from_fn(|_| random.below(classes));
    }
    let mut class = random.below(classes);
    let change = random.pick(&[1, 3, 10, 40]);
    std::array::from_fn(|_| {
        if random.percent(change) {
            class = random.below(classes);
        }
        class
    })
}

/// Leaves with few distinct priorities, so that ties come up; some differ in the high half only.
fn leaves(random: &mut Random) -> Vec<Leaf> {
    let count = random.pick(&[0, 1, 1, 1, 2, 2, 2, 3, 3, 3, 4, 4, 6, 6, 12, 255]);
    let pool: &[u32] = if random.percent(50) { &[2, 4] } else { &[0, 1, 65_535, 65_536, 65_537, 131_072, u32::MAX] };
    let distinct = random.percent(30);
    (0..count).map(|leaf| Leaf { priority: if distinct { 7 * leaf as u32 % 256 } else { random.pick(pool) }, empty: false }).collect()
}

/// The head of a chain of some leaves, none in some cases.
fn some_chain(random: &mut Random, table: &mut Table, share: usize) -> u16 {
    let leaves = table.leaves.len();
    if leaves == 0 || !random.percent(share) {
        return 0;
    }
    let mut chosen = vec![random.below(leaves)];
    while random.percent(40) && chosen.len() < 40 {
        chosen.push(random.below(leaves));
    }
    chosen.sort_unstable();
    chosen.dedup();
    table.chain(&chosen)
}

/// State 0 in few cases only, since it is mostly dead.
fn some_start(random: &mut Random, states: usize) -> u16 {
    if states == 1 || random.percent(6) {
        return 0;
    }
    random.within(1, states - 1) as u16
}

/// Any steps to any states, by classes of bytes; state 0 may have steps and leaves of its own.
pub fn wild(random: &mut Random, states: usize) -> Table {
    let mut table = Table { start: some_start(random, states), leaves: leaves(random), states: Vec::new(), records: Vec::new() };
    let classes = random.pick(&[1, 2, 3, 5, 9]);
    let shared = random.percent(60).then(|| alphabet(random, classes));
    let dead_share = random.pick(&[0, 5, 30, 60]);
    let end_share = random.pick(&[0, 20, 60, 100]);
    let leaf_share = random.pick(&[20, 50, 100]);
    // a few favoured targets make states alike
    let favoured = (0..random.within(1, 4)).map(|_| random.below(states) as u16).collect::<Vec<_>>();
    let alive = random.percent(25);
    for number in 0..states {
        let classes_of = shared.unwrap_or_else(|| alphabet(random, classes));
        let some = |random: &mut Random| match random.below(100) {
            x if x < dead_share => 0,
            x if x < 60 => random.pick(&favoured),
            _ => random.below(states) as u16,
        };
        let by_class = (0..classes).map(|_| some(random)).collect::<Vec<_>>();
        let end = if random.percent(end_share) { some(random) } else { 0 };
        let mut state = State { targets: classes_of.map(|class| by_class[class]), end, head: 0 };
        state.head = some_chain(random, &mut table, leaf_share);
        let dead = number == 0 && !alive;
        table.states.push(if dead { State::dead() } else { state });
    }
    if random.percent(3) {
        table.start = 65_535;
    }
    if random.percent(4) {
        for leaf in &mut table.leaves {
            leaf.empty = random.percent(40);
        }
    }
    table
}

/// Every byte of every state for itself.
pub fn dense(random: &mut Random, states: usize) -> Table {
    let mut table = wild(random, states);
    for state in &mut table.states {
        state.targets = std::array::from_fn(|_| random.below(states) as u16);
    }
    table
}

/// Layers that lead downwards only, with few distinct rows, so that states merge layer by layer, a round each.
pub fn layered(random: &mut Random, states: usize) -> Table {
    let states = states.max(3);
    let mut table = Table { start: 0, leaves: leaves(random), states: vec![State::dead(); states], records: Vec::new() };
    // places from the lowest layer up, behind state 0; the last is the start
    let last = states - 2;
    let ascending = random.percent(50);
    let place = |at: usize| if ascending { 1 + at } else { states - 1 - at };
    let width = random.within(1, 1 + last / 3);
    let cut = random.pick(&[0, 1, 97, 255]);
    let end_share = random.pick(&[0, 10, 50]);
    for at in 0..last {
        let layer = at / width * width;
        let mut state = State::dead();
        if layer > 0 {
            let [low, high, end] = [0; 3].map(|_| place(random.within(layer - width, layer - 1)) as u16);
            state.targets = std::array::from_fn(|byte| if byte < cut { low } else { high });
            state.end = if random.percent(end_share) { end } else { 0 };
        }
        state.head = some_chain(random, &mut table, if layer > 0 { 10 } else { 70 });
        table.states[place(at)] = state;
    }
    let reached = last.min(256);
    table.states[place(last)].targets = std::array::from_fn(|byte| place(last - 1 - byte * reached / 256) as u16);
    table.start = place(last) as u16;
    table
}

/// The table of an automaton that tells each match one step late, as regex-automata does. Clean unless leaves tie.
pub fn delayed(random: &mut Random, states: usize) -> Table {
    let mut table = Table { start: 1, leaves: leaves(random), states: Vec::new(), records: Vec::new() };
    let count = table.leaves.len();
    if random.percent(60) {
        for (number, leaf) in table.leaves.iter_mut().enumerate() {
            leaf.priority = (7 * number % 256) as u32;
        }
    }
    // plain states: steps by class, `plain` for none; leaves
    let plain = (states / 2).max(2);
    let classes = random.pick(&[1, 2, 3, 5]);
    let classes_of = alphabet(random, classes);
    let none_share = random.pick(&[0, 15, 45]);
    let steps = (0..plain)
        .map(|_| (0..classes).map(|_| if random.percent(none_share) { plain } else { random.below(plain) }).collect::<Vec<_>>())
        .collect::<Vec<_>>();
    let matched = (0..=plain)
        .map(|state| {
            let matches = count > 0 && state > 0 && state < plain && random.percent(60);
            let mut leaves = if matches { vec![random.below(count)] } else { vec![] };
            if matches && random.percent(20) {
                leaves.push(random.below(count));
                leaves.sort_unstable();
                leaves.dedup();
            }
            leaves
        })
        .collect::<Vec<_>>();
    // a state of the table: a plain state, and the leaves of the one before it
    let mut found: Vec<(usize, Vec<usize>)> = vec![(plain, vec![]), (0, vec![])];
    let mut at = 0;
    while at < found.len() {
        let (state, leaves) = found[at].clone();
        let head = table.chain(&leaves);
        let mut led = |to: usize, leaves: &[usize]| {
            let key = (to, leaves.to_vec());
            found.iter().position(|held| *held == key).unwrap_or_else(|| {
                found.push(key);
                found.len() - 1
            }) as u16
        };
        let row = if state == plain {
            State { head, ..State::dead() }
        } else {
            let by_class = (0..classes).map(|class| led(steps[state][class], &matched[state])).collect::<Vec<_>>();
            State { targets: classes_of.map(|class| by_class[class]), end: led(plain, &matched[state]), head }
        };
        table.states.push(row);
        at += 1;
    }
    table.shuffled(random)
}

/// Round j of the merge takes b_j into a_j; `mixed` sets the two rows of states one after the other instead of face to face.
pub fn many_rounds(k: usize, mixed: bool) -> Table {
    let a = |i: usize| if i == 0 { 2 } else { 2 + i } as u16;
    let b = |i: usize| match (i, mixed) {
        (0, _) => 2,
        (_, false) => 2 * k + 3 - i,
        (_, true) => 2 + k + i,
    } as u16;
    let mut table = Table { start: 1, leaves: vec![Leaf { priority: 2, empty: false }], states: Vec::new(), records: Vec::new() };
    table.states.resize(2 * k + 3, State::dead());
    table.states[2].head = table.chain(&[0]);
    table.states[1].targets[0] = a(k);
    table.states[1].targets[1] = b(k);
    for i in 1..=k {
        table.states[usize::from(a(i))].targets[0] = a(i - 1);
        table.states[usize::from(b(i))].targets[0] = b(i - 1);
    }
    table
}

impl Table {
    /// The same table with its states numbered otherwise, state 0 excepted.
    fn shuffled(mut self, random: &mut Random) -> Table {
        let count = self.states.len();
        let mut new = (0..count as u16).collect::<Vec<_>>();
        for at in (2..count).rev() {
            new.swap(at, random.within(1, at));
        }
        let old = self.states.clone();
        for (number, state) in old.into_iter().enumerate() {
            let place = |to: u16| new[usize::from(to)];
            self.states[usize::from(new[number])] = State { targets: state.targets.map(place), end: place(state.end), head: state.head };
        }
        self.start = new[usize::from(self.start)];
        self
    }
}

pub fn random_table(random: &mut Random, most: usize) -> Table {
    let least = if random.percent(5) { 1 } else { most.min(3) };
    let states = random.within(least, most);
    match random.below(10) {
        0..=3 => wild(random, states),
        4 => dense(random, states.min(30)),
        5 | 6 => layered(random, states),
        7 => many_rounds(random.within(1, 1 + most.min(400) / 3), random.percent(50)),
        _ => delayed(random, states),
    }
}
