//! Random plans and runs.

use super::{plan, Case, Store};
use crate::classes::{random_class, Flags};
use crate::display;
use crate::graphs::{self, NONE};
use crate::random::Random;
use crate::readings::text_for_graph;

/// The classes of a graph's edges, by state and target.
fn edge_classes(graph: &[u16]) -> Vec<Flags> {
    let mut classes = Vec::new();
    for row in graph[2..2 + 258 * usize::from(graph[0])].chunks(258) {
        let mut targets = row[..256].to_vec();
        targets.sort_unstable();
        targets.dedup();
        classes.extend(targets.into_iter().filter(|&to| to != NONE).map(|to| std::array::from_fn(|byte| row[byte] == to)));
    }
    classes
}

/// A legal store: random classes, and some of the graph's own.
pub fn legal_store(random: &mut Random, graph: &[u16], most: usize) -> Store {
    let own = if graphs::legal(graph) { edge_classes(graph) } else { Vec::new() };
    let mut classes: Vec<Flags> = Vec::new();
    for _ in 0..random.below(most + 1) {
        let class = if !own.is_empty() && random.percent(30) { random.pick(&own) } else { random_class(random) };
        if !classes.contains(&class) {
            classes.push(class);
        }
    }
    Store { fill: random.byte(), count: classes.len(), classes }
}

/// A store that counts too many, or holds one class twice.
pub fn illegal_store(random: &mut Random, graph: &[u16]) -> Store {
    let mut store = legal_store(random, graph, 20);
    if store.classes.is_empty() || random.percent(40) {
        store.count = random.pick(&[65, 66, 255, 65_535, 65_536]);
    } else {
        let again = random.pick(&store.classes);
        store.classes.push(again);
        store.count += 1;
    }
    store
}

/// A store of so many classes that the graph does not need.
pub fn filled_store(random: &mut Random, graph: &[u16], count: usize) -> Store {
    let own = if graphs::legal(graph) { edge_classes(graph) } else { Vec::new() };
    let mut classes: Vec<Flags> = Vec::new();
    while classes.len() < count {
        let class = random_class(random);
        if !classes.contains(&class) && !own.contains(&class) {
            classes.push(class);
        }
    }
    Store { fill: random.byte(), count, classes }
}

/// A full store that holds the classes which a graph needs, but for some, in any places among others.
pub fn full_store(random: &mut Random, graph: &[u16], lacking: usize) -> Store {
    let empty = Store { fill: 0, classes: Vec::new(), count: 0 };
    let needed = plan(graph, &empty, 3 * usize::from(graph[0])).unwrap_or_else(|_| panic!("a plan")).held;
    let mut store = filled_store(random, graph, 64 + lacking - needed.len());
    for class in needed.into_iter().skip(lacking) {
        let at = random.below(store.classes.len() + 1);
        store.classes.insert(at, class);
    }
    store.count = store.classes.len();
    store
}

pub fn some_store(random: &mut Random, graph: &[u16]) -> Store {
    match random.below(10) {
        0 => illegal_store(random, graph),
        1 => {
            let count = random.within(56, 64);
            filled_store(random, graph, count)
        }
        2..=5 => Store { fill: random.byte(), classes: Vec::new(), count: 0 },
        _ => legal_store(random, graph, 12),
    }
}

pub fn random_case(random: &mut Random) -> Case {
    let graph = display::random_case(random).graph;
    let states = if graphs::legal(&graph) { usize::from(graph[0]) } else { 1 };
    let store = some_store(random, &graph);
    if random.percent(40) {
        let buffer = if random.percent(10) { random.below(3 * states + 1) } else { 3 * states + random.below(3) };
        return Case::Plan { graph, store, buffer };
    }
    // most runs take the plan that was made and the store that it grew
    let (mut given, mut after) = match plan(&graph, &store, 3 * states) {
        Ok(planned) => {
            let after = Store { fill: store.fill, count: planned.held.len(), classes: planned.held };
            (planned.words, if random.percent(90) { after } else { store })
        }
        Err(_) => (vec![0; 3 * states], store),
    };
    match random.below(16) {
        0 if !given.is_empty() => {
            let at = random.below(given.len());
            let word = given[at];
            given[at] = random.pick(&[0, 1, 2, word ^ 1, word.wrapping_add(1), word.wrapping_sub(1), NONE]);
        }
        1 => {
            given.pop();
        }
        2 => given.push(random.next() as u16),
        3 if after.count < 60 && after.count == after.classes.len() => {
            // more classes than the plan needs
            let more = filled_store(random, &graph, 3);
            let fresh = more.classes.into_iter().filter(|class| !after.classes.contains(class)).collect::<Vec<_>>();
            after.classes.extend(fresh);
            after.count = after.classes.len();
        }
        _ => {}
    }
    let longest = random.pick(&[0, 3, 12, 40]);
    let text = text_for_graph(random, &graph, longest);
    Case::Run { graph, store: after, plan: given, text }
}
