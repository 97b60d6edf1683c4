//! What is measured: a task for our call and for the Rust, with both answers.

use super::clock::{Clock, Pair};
use super::planned::{self, Store};
use super::{calls, loops};
use crate::builds::error_words;
use crate::graphs::words_of_graph;
use crate::original::{graph_of_staged, leaves_of_table};
use crate::walks;
use logos_codegen::graph::Graph;
use logos_codegen::leaf::Leaf;
use std::hint::black_box;

/// Leaf and end.
type Reading = Option<(usize, usize)>;

/// One reading of a text by graph words.
pub struct Read {
    graph: Vec<u16>,
    text: Vec<u8>,
    ours: Reading,
    rust: Reading,
}

impl Read {
    pub fn new(graph: Vec<u16>, text: Vec<u8>) -> Read {
        Read { graph, text, ours: None, rust: None }
    }
}

impl Pair for Read {
    fn ours(&mut self, clock: &mut Clock) {
        self.ours = clock.time(|| calls::read_graph(black_box(&self.graph), black_box(&self.text)));
    }

    fn rust(&mut self, clock: &mut Clock) {
        self.rust = clock.time(|| loops::read_graph(black_box(&self.graph), black_box(&self.text))).expect("a graph");
    }

    fn compare(&self) {
        let read = self.ours.map_or(0, |(_, end)| end);
        assert!(2 * read > self.text.len(), "the reading stops early");
        assert_eq!(self.ours, self.rust);
    }
}

/// How a side scans a whole text: by a call an entry, by one call that walks the graph, by one call that runs its plan.
#[derive(Clone, Copy)]
pub enum Way {
    OurNext,
    RustNext,
    OurWalk,
    RustWalk,
    OurPlan,
    RustPlan,
}

/// The scan of a whole text into a list, in two ways.
pub struct Scan {
    graph: Vec<u16>,
    plan: Vec<u16>,
    store: Store,
    text: Vec<u8>,
    ways: [Way; 2],
    ours: Entries,
    rust: Entries,
}

/// Three words an entry: start, end, and leaf, or 65,535 for a gap.
#[derive(Default)]
struct Entries {
    words: Vec<usize>,
    count: usize,
}

impl Scan {
    /// There is room for as many entries as the text has, and one more, so that the scan ends. The plan is made on an empty store.
    pub fn new(graph: Vec<u16>, text: Vec<u8>, ways: [Way; 2]) -> Scan {
        let room = 3 * (walks::scan(&graph, &text, 0).len() + 1);
        let entries = || Entries { words: vec![0; room], count: 0 };
        let mut store = Store { tables: [0; 2048], count: 0 };
        let plan = calls::plan(&graph, &mut store);
        Scan { ours: entries(), rust: entries(), graph, plan, store, text, ways }
    }

    /// Each entry by a call that says whether there was one.
    fn entries(mut next: impl FnMut(&mut [usize; 3]) -> bool, entries: &mut Entries) {
        let (room, _) = entries.words.as_chunks_mut::<3>();
        entries.count = 0;
        while next(&mut room[entries.count]) {
            entries.count += 1;
        }
    }

    fn scan(&self, way: Way, clock: &mut Clock, entries: &mut Entries) {
        let (graph, text, plan, store) = (black_box(&self.graph), black_box(&self.text), black_box(&self.plan), black_box(&self.store));
        let (mut at, out) = (0, &mut entries.words);
        entries.count = match way {
            Way::OurNext => return clock.time(|| Scan::entries(|out| calls::scan_next(graph, text, &mut at, out), entries)),
            Way::RustNext => {
                return clock.time(|| Scan::entries(|out| loops::scan_next(graph, text, &mut at, out).expect("a graph"), entries))
            }
            Way::OurWalk => clock.time(|| calls::scan_list(graph, text, out)),
            Way::RustWalk => clock.time(|| loops::scan_list(graph, text, 0, out)).expect("a graph").0,
            Way::OurPlan => clock.time(|| calls::scan_planned(graph, plan, store, text, out)),
            Way::RustPlan => clock.time(|| planned::scan_planned(graph, plan, store, text, 0, out)).expect("a plan").0,
        }
    }
}

impl Pair for Scan {
    fn ours(&mut self, clock: &mut Clock) {
        let mut entries = std::mem::take(&mut self.ours);
        self.scan(self.ways[0], clock, &mut entries);
        self.ours = entries;
    }

    fn rust(&mut self, clock: &mut Clock) {
        let mut entries = std::mem::take(&mut self.rust);
        self.scan(self.ways[1], clock, &mut entries);
        self.rust = entries;
    }

    fn compare(&self) {
        assert_eq!(self.ours.count, self.rust.count);
        let listed = 3 * self.ours.count;
        assert!(self.ours.words[..listed] == self.rust.words[..listed], "the entries differ");
    }
}

/// The build of a table.
pub struct Build {
    table: Vec<u16>,
    leaves: Vec<Leaf>,
    graph: Vec<u16>,
    errors: Vec<u16>,
    /// States, root, errors, error words.
    ours: [usize; 4],
    rust: Option<Graph>,
}

impl Build {
    pub fn new(table: Vec<u16>) -> Build {
        let leaves = leaves_of_table(&table);
        Build { graph: vec![0; 2 + 258 * usize::from(table[0])], errors: vec![0; 65_536], ours: [0; 4], rust: None, leaves, table }
    }
}

impl Pair for Build {
    fn ours(&mut self, clock: &mut Clock) {
        self.ours = clock.time(|| calls::build(black_box(&self.table), &mut self.graph, &mut self.errors));
    }

    /// The leaves are made before, and the graph is given back after.
    fn rust(&mut self, clock: &mut Clock) {
        let leaves = self.leaves.clone();
        regex_automata::table::stage(&self.table);
        self.rust = Some(clock.time(|| graph_of_staged(black_box(leaves))));
    }

    fn compare(&self) {
        let graph = self.rust.as_ref().expect("a graph");
        let words = words_of_graph(graph);
        let errors = graph.errors().flat_map(error_words).collect::<Vec<_>>();
        let told = [usize::from(words[0]), usize::from(words[1]), graph.errors().count(), errors.len()];
        assert!(told[0] > 0, "a graph without states");
        assert_eq!(self.ours, told);
        assert!(self.graph[..words.len()] == words, "the graphs differ");
        assert_eq!(self.errors[..errors.len()], errors);
    }
}
