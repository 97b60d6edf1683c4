//! The stored list of plans and runs (docs/ORACLE.md, "plans.bin").

use super::cases::{filled_store, full_store, illegal_store, legal_store, some_store};
use super::shapes::{all_around, forked, needing, wide};
use super::{plan, run, Store};
use crate::builds::built;
use crate::classes::packed;
use crate::display::{damaged, free_graph, some_graph};
use crate::form::Stored;
use crate::graphs::{self, NONE};
use crate::random::Random;
use crate::readings::{reading_number, text_for_graph};
use crate::words::{packed_runs, runs};

/// A run: with the store before or after planning, so many words of the plan, and one of them changed.
struct Attempt {
    after: bool,
    length: usize,
    change: Option<(usize, u16)>,
    text: Vec<u8>,
}

/// Runs on the texts, and on some more.
fn attempts(random: &mut Random, graph: &[u16], words: &[u16], texts: &[Vec<u8>]) -> Vec<Attempt> {
    let whole = words.len();
    let sound = |text: Vec<u8>| Attempt { after: true, length: whole, change: None, text };
    let mut attempts = texts.iter().cloned().map(sound).collect::<Vec<_>>();
    attempts.extend((0..4).map(|at| sound(text_for_graph(random, graph, 8 * at))));
    attempts.push(Attempt { after: false, ..sound(text_for_graph(random, graph, 6)) });
    if whole > 0 {
        attempts.push(Attempt { length: whole - 1, ..sound(b"a".to_vec()) });
        let at = random.below(whole);
        let other = random.pick(&[0, 1, 2, words[at].wrapping_add(1), words[at].wrapping_sub(1), NONE]);
        attempts.push(Attempt { change: Some((at, other)), ..sound(b"a".to_vec()) });
    }
    attempts
}

/// A graph, its store, the length of the plan buffer, and texts to run.
struct Planning {
    graph: Vec<u16>,
    store: Store,
    buffer: usize,
    texts: Vec<Vec<u8>>,
}

impl Planning {
    fn new(graph: Vec<u16>, store: Store, buffer: usize) -> Planning {
        Planning { graph, store, buffer, texts: Vec::new() }
    }
}

/// Planning: the kind is 0, or 1, 2, 3 for refusal 12, 14, 15. The plan buffer is given whole, as it is afterwards; `fill` is what it held.
fn store_case(stored: &mut Stored, random: &mut Random, fill: u16, case: &Planning) {
    let Planning { graph, store, buffer, texts } = case;
    let planned = plan(graph, store, *buffer);
    let kind = [0, 12, 14, 15].iter().position(|&number| number == planned.as_ref().err().copied().unwrap_or(0));
    let mut after = store.clone();
    let mut out = Vec::new();
    if let Ok(planned) = &planned {
        // the masks that were held keep their places, and so do classes behind them that no count covers
        after.count = planned.held.len();
        after.classes = [&planned.held[..], store.classes.get(planned.held.len()..).unwrap_or_default()].concat();
        out = planned.words.clone();
    }
    out.resize(*buffer, fill);
    let masks = |store: &Store| store.classes.iter().take(64).flat_map(packed).collect::<Vec<_>>();
    stored.case(
        kind.expect("12, 14 or 15"),
        &[usize::from(fill), usize::from(store.fill), store.count, after.count],
        &[&packed_runs(graph), &masks(store), &masks(&after), &packed_runs(&out)],
    );
    let Ok(planned) = planned else {
        return;
    };
    for Attempt { after: grown, length, change, text } in attempts(random, graph, &planned.words, texts) {
        let mut given = planned.words[..length].to_vec();
        if let Some((at, value)) = change {
            given[at] = value;
        }
        let outcome = run(graph, if grown { &after } else { store }, &given, &text);
        let (at, value) = change.unwrap_or((65_535, 0));
        let refusal = usize::from(outcome.err().unwrap_or(0));
        let numbers = [usize::from(grown), length, at, usize::from(value), refusal, reading_number(outcome.ok().flatten())];
        stored.case(if refusal == 0 { 4 } else { 5 }, &numbers, &[&text]);
    }
}

/// Graphs of a shape, on stores that suit it.
fn shaped(images: &[(Vec<u16>, Vec<u8>)], cases: &mut Vec<Planning>) {
    let mut random = Random::new(10);
    let empty = Store { fill: 0x5A, classes: Vec::new(), count: 0 };
    for (graph, texts) in all_around() {
        let buffer = 3 * usize::from(graph[0]) + random.below(2);
        let store = legal_store(&mut random, &graph, 3);
        cases.push(Planning { graph, store, buffer, texts });
    }
    // 64 classes, and 65
    for held in [0, 1] {
        let graph = forked(32);
        let store = filled_store(&mut random, &graph, held);
        cases.push(Planning::new(graph, store, 96));
    }
    // a full store that holds all that is needed, and one that lacks a class
    let built = images.iter().map(|(image, _)| built(image).graph);
    let graphs = [needing(1), needing(64), forked(5), forked(32)].into_iter().chain(built).collect::<Vec<_>>();
    for (graph, lacking) in graphs.iter().flat_map(|graph| [(graph, 0), (graph, 1)]) {
        let store = full_store(&mut random, graph, lacking);
        cases.push(Planning::new(graph.clone(), store, 3 * usize::from(graph[0])));
    }
    // the most states, and one more
    for (states, buffer) in [(1024, 3072), (1024, 3071), (1025, 3075)] {
        cases.push(Planning::new(wide(states), empty.clone(), buffer));
    }
}

pub fn list(images: &[(Vec<u16>, Vec<u8>)]) -> Vec<u8> {
    let mut stored = Stored::default();
    let mut random = Random::new(9);
    let empty = Store { fill: 0, classes: Vec::new(), count: 0 };
    let mut cases: Vec<Planning> = Vec::new();
    // a graph without states: 15 is judged too
    for store in [empty.clone(), illegal_store(&mut random, &[0, 0]), filled_store(&mut random, &[0, 0], 64)] {
        cases.push(Planning::new(vec![0, 0], store, 0));
    }
    for masks in [1, 8, 9, 63, 64, 65] {
        cases.push(Planning::new(needing(masks), empty.clone(), 3 * masks));
    }
    for (held, masks) in [(60, 4), (60, 5), (64, 1), (64, 0), (63, 2)] {
        let graph = needing(masks);
        let store = filled_store(&mut random, &graph, held);
        cases.push(Planning::new(graph, store, 3 * masks + 1));
    }
    for buffer in 0..=3 {
        cases.push(Planning::new(needing(1), empty.clone(), buffer));
    }
    for (image, _) in images {
        let graph = built(image).graph;
        let buffer = 3 * usize::from(graph[0]);
        cases.push(Planning::new(graph.clone(), empty.clone(), buffer));
        cases.push(Planning::new(graph.clone(), legal_store(&mut random, &graph, 10), buffer));
    }
    for round in 0..300 {
        let graph = loop {
            let graph = if round % 2 == 0 { free_graph(&mut random, 1 + round % 5) } else { some_graph(&mut random, 2 + round / 20) };
            if runs(&graph).len() <= 250 {
                break graph;
            }
        };
        let graph = if round % 15 == 14 { damaged(&mut random, graph) } else { graph };
        let states = if graphs::legal(&graph) { usize::from(graph[0]) } else { 1 };
        let store = if round % 4 == 0 { some_store(&mut random, &graph) } else { legal_store(&mut random, &graph, round % 5) };
        cases.push(Planning::new(graph, store, 3 * states + random.below(3)));
    }
    shaped(images, &mut cases);
    // two refusals at once: the first of 12, 14 and 15 is told
    let counting = Store { count: 65, ..empty };
    for (graph, buffer) in [(vec![1, 0], 3), (needing(1), 2)] {
        cases.push(Planning::new(graph, counting.clone(), buffer));
    }
    for (number, case) in cases.iter().enumerate() {
        store_case(&mut stored, &mut random, (20_011 * number % 65_521) as u16, case);
    }
    stored.0
}
