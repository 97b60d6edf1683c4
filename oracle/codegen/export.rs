//! Takes the place of `graph/export.rs`, which the port leaves out. As a child of `graph` it may use that module's private items, so it
//! opens them to the driver without a change to the original's file.

use super::{ByteClass, Comparisons, Graph, State, StateData, StateType};
use crate::leaf::{Leaf, LeafId};
use crate::views::Row;
use regex_automata::dfa::dense::DFA;
use std::collections::HashMap;

impl ByteClass {
    /// The class of 256 flags, its bytes added in ascending order by `add_byte`.
    pub fn of_flags(flags: &[bool; 256]) -> ByteClass {
        let mut class = ByteClass::new();
        for byte in u8::MIN..=u8::MAX {
            if flags[usize::from(byte)] {
                class.add_byte(byte);
            }
        }
        class
    }
}

impl Comparisons {
    /// First and last byte, and the exceptions.
    pub fn parts(&self) -> (u8, u8, &[u8]) {
        (*self.range.start(), *self.range.end(), &self.except)
    }
}

impl State {
    pub fn number(&self) -> usize {
        self.0
    }
}

impl Graph {
    /// A graph that no build made: its edges are grouped by target, as `Graph::new` groups them.
    pub fn of_rows(rows: &[Row], root: usize, leaves: Vec<Leaf>) -> Graph {
        let states = rows
            .iter()
            .map(|row| {
                let mut edges: HashMap<State, ByteClass> = HashMap::new();
                for byte in u8::MIN..=u8::MAX {
                    if let Some(target) = row.targets[usize::from(byte)] {
                        edges.entry(State(target)).or_insert(ByteClass::new()).add_byte(byte);
                    }
                }
                let mut data = StateData::new();
                data.set_normal_edges(edges);
                data.eoi = row.end.map(State);
                data.state_type = StateType { accept: row.accept.map(LeafId), early: row.early.map(LeafId) };
                data
            })
            .collect();
        Graph { leaves, dfa: DFA::none(), states, root: State(root), errors: Vec::new() }
    }

    /// The states as rows. Where two edges claim one byte, the original has broken its own rule.
    pub fn rows(&self) -> Vec<Row> {
        self.states
            .iter()
            .map(|data| {
                let mut targets = [None; 256];
                for (class, target) in &data.normal {
                    for (byte, _) in class.to_table().iter().enumerate().filter(|(_, in_it)| **in_it) {
                        assert!(targets[byte].is_none(), "a byte with two edges");
                        targets[byte] = Some(target.0);
                    }
                }
                Row {
                    targets,
                    end: data.eoi.map(|state| state.0),
                    accept: data.state_type.accept.map(|leaf| leaf.0),
                    early: data.state_type.early.map(|leaf| leaf.0),
                }
            })
            .collect()
    }
}
