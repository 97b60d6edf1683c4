//! Plans and planned runs: what the original's generator chooses for each state of a graph, and readings by those choices.

use crate::classes::{held_classes, packed, store_legal, unpacked, Flags};
use crate::form::{bytes_of, bytes_text, number};
use crate::graphs::{self, graph_of_words, NONE};
use crate::original::generator_of;
use crate::walks::{read_graph, Reading};
use crate::words::{words_of, words_text};
use logos_codegen::graph::Graph;
use logos_codegen::views::{Choices, Fork};

mod cases;
mod list;
mod shapes;

pub use cases::random_case;
pub use list::list;

/// A store as a caller may hand it in: these classes as masks from 0 on, in tables otherwise filled with one byte, and a count.
#[derive(Clone)]
pub struct Store {
    pub fill: u8,
    pub classes: Vec<Flags>,
    pub count: usize,
}

pub enum Case {
    /// Planning into a buffer of so many words.
    Plan {
        graph: Vec<u16>,
        store: Store,
        buffer: usize,
    },
    Run {
        graph: Vec<u16>,
        store: Store,
        plan: Vec<u16>,
        text: Vec<u8>,
    },
}

impl Store {
    fn tables(&self) -> Vec<u8> {
        let mut tables = vec![self.fill; 2048];
        for (i, class) in self.classes.iter().take(64).enumerate() {
            for byte in 0..256 {
                let entry = &mut tables[256 * (i / 8) + byte];
                *entry = *entry & !(1 << (i % 8)) | u8::from(class[byte]) << (i % 8);
            }
        }
        tables
    }

    fn legal(&self) -> bool {
        store_legal(&self.tables(), self.count)
    }

    fn held(&self) -> Vec<Flags> {
        held_classes(&self.tables(), self.count)
    }
}

/// What planning gives: the words, the classes that the store then holds, and the original's choices behind the words.
pub struct Planned {
    pub words: Vec<u16>,
    pub held: Vec<Flags>,
    choices: Vec<Choices>,
}

/// The original's plan for legal graph words and a legal store; none where the store would pass 64.
fn planned(graph: &[u16], store: &Store) -> Option<Planned> {
    let before = store.held();
    let original = graph_of_words(graph);
    generator_of(&original, &before, |generator| {
        let choices = original.iter_states().map(|state| generator.choices(state)).collect::<Vec<_>>();
        let mut luts = generator.tables().concat();
        luts.resize(256 * generator.masks_held().div_ceil(8), 0);
        let words = choices.iter().enumerate().flat_map(|(state, choice)| plan_row(&original, state, choice)).collect();
        let held = held_classes(&luts, generator.masks_held());
        (held.len() <= 64).then_some(Planned { words, held, choices })
    })
}

/// Three words a state. The generated conditions are held against the edges' own bytes.
fn plan_row(graph: &Graph, state: usize, choice: &Choices) -> [u16; 3] {
    let self_word = choice.self_mask.map_or(0, |mask| mask as u16 + 1);
    let Some(forks) = &choice.forks else {
        return [self_word, NONE, NONE];
    };
    let edges = &graph.get_state(graph.iter_states().nth(state).expect("a state")).normal;
    let mut row = [self_word, 0, 0];
    let mut forks = forks.iter();
    for (at, (class, target)) in edges.iter().enumerate().filter(|(_, (_, target))| target.number() != state) {
        let (led_to, fork) = forks.next().expect("a fork for each other edge");
        assert_eq!(*led_to, target.number());
        row[1 + at] = match fork {
            Fork::Mask(mask) => 2 + *mask as u16,
            Fork::Comparisons(holds) => {
                assert_eq!(**holds, class.to_table());
                1
            }
        };
    }
    assert!(forks.next().is_none(), "a fork without an edge");
    row
}

/// Refusals of planning: 12, 14, 15.
pub fn plan(graph: &[u16], store: &Store, buffer: usize) -> Result<Planned, u8> {
    if !graphs::legal(graph) {
        return Err(12);
    }
    if buffer < 3 * usize::from(graph[0]) {
        return Err(14);
    }
    if !store.legal() {
        return Err(15);
    }
    planned(graph, store).ok_or(15)
}

/// Refusals of a run: 12; 14 for a short plan; 15; 14 for a plan that is not the one, or names a mask that is not held.
pub fn run(graph: &[u16], store: &Store, given: &[u16], text: &[u8]) -> Result<Reading, u8> {
    let planned = plan(graph, store, given.len())?;
    // a plan whose masks are all held adds none
    if planned.words[..] != given[..planned.words.len()] || planned.held.len() != store.count {
        return Err(14);
    }
    let reading = run_choices(graph, &planned, text);
    assert_eq!(reading, read_graph(graph, text), "a run and the walk read differently: {} {text:?}", words_text(graph));
    Ok(reading)
}

/// The run by the choices of the generated code: masks from the original's tables, comparisons as its conditions hold.
fn run_choices(graph: &[u16], planned: &Planned, text: &[u8]) -> Reading {
    if graph[0] == 0 {
        return None;
    }
    let word = |state: usize, column: usize| graph[2 + 258 * state + column];
    let leaf = |mark: u16| (mark != 255).then_some(usize::from(mark));
    let mask_has = |mask: usize, byte: u8| planned.held[mask][usize::from(byte)];
    let mut last = None;
    let mut state = usize::from(graph[1]);
    let mut k = 0;
    loop {
        let choice = &planned.choices[state];
        if let Some(mask) = choice.self_mask {
            k += text[k..].iter().take_while(|&&byte| mask_has(mask, byte)).count();
        }
        let marks = word(state, 257);
        match (leaf(marks / 256), leaf(marks % 256)) {
            (Some(early), _) => last = Some((early, k)),
            (None, Some(accept)) if k > 0 => last = Some((accept, k - 1)),
            _ => {}
        }
        let Some(&byte) = text.get(k) else {
            let end = word(state, 256);
            let accept = if end == NONE { None } else { leaf(word(usize::from(end), 257) % 256) };
            return accept.map(|accept| (accept, text.len())).or(last);
        };
        let next = match &choice.forks {
            None => Some(word(state, usize::from(byte))).filter(|&to| to != NONE).map(usize::from),
            Some(forks) => forks.iter().find(|(_, fork)| fits(fork, byte, mask_has)).map(|(target, _)| *target),
        };
        let Some(target) = next else {
            return last;
        };
        state = target;
        k += 1;
    }
}

fn fits(fork: &Fork, byte: u8, mask_has: impl Fn(usize, u8) -> bool) -> bool {
    match fork {
        Fork::Mask(mask) => mask_has(*mask, byte),
        Fork::Comparisons(holds) => holds[usize::from(byte)],
    }
}

// ---- lines

/// Classes with slashes between; none as `-`.
fn classes_text(classes: &[Flags]) -> String {
    let shown = classes.iter().map(|class| bytes_text(&packed(class))).collect::<Vec<_>>();
    if shown.is_empty() {
        return "-".to_string();
    }
    shown.join("/")
}

impl Store {
    fn text(&self) -> String {
        format!("{} {} {}", self.count, self.fill, classes_text(&self.classes))
    }

    fn of_words(words: &[&str]) -> Store {
        let classes = words[2].split('/').filter(|text| *text != "-").map(|text| unpacked(&bytes_of(text))).collect();
        Store { count: number(words[0]), fill: number(words[1]) as u8, classes }
    }
}

impl Case {
    pub fn line(&self) -> String {
        match self {
            Case::Plan { graph, store, buffer } => format!("plan {} {} {buffer}", words_text(graph), store.text()),
            Case::Run { graph, store, plan, text } => {
                format!("run {} {} {} {}", words_text(graph), store.text(), words_text(plan), bytes_text(text))
            }
        }
    }

    pub fn of_line(line: &str) -> Case {
        let words = line.split(' ').collect::<Vec<_>>();
        let (graph, store) = (words_of(words[1]), Store::of_words(&words[2..5]));
        match words[0] {
            "plan" => Case::Plan { graph, store, buffer: number(words[5]) },
            _ => Case::Run { graph, store, plan: words_of(words[5]), text: bytes_of(words[6]) },
        }
    }

    pub fn answer(&self) -> String {
        match self {
            Case::Plan { graph, store, buffer } => match plan(graph, store, *buffer) {
                Ok(planned) => {
                    let added = classes_text(&planned.held[store.count..]);
                    format!("plan {} held {} added {added}", words_text(&planned.words), planned.held.len())
                }
                Err(number) => format!("refused-{number}"),
            },
            Case::Run { graph, store, plan, text } => match run(graph, store, plan, text) {
                Ok(Some((leaf, end))) => format!("{leaf},{end}"),
                Ok(None) => "none".to_string(),
                Err(number) => format!("refused-{number}"),
            },
        }
    }
}
