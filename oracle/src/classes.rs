//! Byte classes and the mask store: what `ByteClass`, `Comparisons` and the generator's store answer.

use crate::form::{bytes_of, bytes_text, number, numbers_text};
use crate::original::masks_of;
use logos_codegen::graph::ByteClass;
use std::collections::HashSet;

mod cases;
mod list;

pub use cases::{random_case, random_class};
pub use list::list;

pub type Flags = [bool; 256];

/// One class, or a store that holds some classes already and is given more.
pub enum Case {
    Class(Box<Flags>),
    Store(StoreCase),
}

/// Tables as they are found, the number of masks they are said to hold, and the classes that are then added.
pub struct StoreCase {
    pub tables: Vec<u8>,
    pub count: usize,
    pub added: Vec<Flags>,
}

// ---- a class

/// The maximal ranges, then the comparisons with their costs.
pub struct ClassAnswer {
    pub ranges: Vec<(u8, u8)>,
    pub comparisons: Vec<Compared>,
    pub cost: usize,
}

pub struct Compared {
    pub first: u8,
    pub last: u8,
    pub except: Vec<u8>,
    pub ops: usize,
}

pub fn class_answer(flags: &Flags) -> ClassAnswer {
    let class = ByteClass::of_flags(flags);
    assert_eq!(class.to_table(), *flags);
    let ranges = class.ranges.iter().map(|range| (*range.start(), *range.end())).collect();
    let comparisons = class.impl_with_cmp();
    // the sum that fork.rs works out before it chooses
    let cost = comparisons.iter().map(|cmp| cmp.count_ops()).sum();
    let comparisons = comparisons
        .iter()
        .map(|cmp| {
            let (first, last, except) = cmp.parts();
            Compared { first, last, except: except.to_vec(), ops: cmp.count_ops() }
        })
        .collect();
    ClassAnswer { ranges, comparisons, cost }
}

fn class_line(flags: &Flags) -> String {
    let answer = class_answer(flags);
    let ranges = answer.ranges.iter().map(|(first, last)| format!("{first}-{last}"));
    let comparisons = answer.comparisons.iter().map(|c| {
        let except = numbers_text(c.except.iter().map(|&byte| usize::from(byte)));
        format!("{}-{}!{except}:{}", c.first, c.last, c.ops)
    });
    format!(
        "ranges {} comparisons {} cost {}",
        ranges.collect::<Vec<_>>().join(" "),
        comparisons.collect::<Vec<_>>().join(" "),
        answer.cost
    )
}

// ---- a store

pub struct StoreAnswer {
    /// For each class added: its number, or none where the store refuses it by 15.
    pub numbers: Vec<Option<usize>>,
    pub held: usize,
    /// Eight tables of 256 bytes; none if the store itself is refused by 15.
    pub luts: Option<Vec<u8>>,
}

/// The classes that tables hold: class i is bit i mod 8 of table i / 8.
pub fn held_classes(tables: &[u8], count: usize) -> Vec<Flags> {
    (0..count).map(|i| std::array::from_fn(|byte| tables[256 * (i / 8) + byte] >> (i % 8) & 1 == 1)).collect()
}

/// 15, first two cases: "counts over 64 or repeats a class".
pub fn store_legal(tables: &[u8], count: usize) -> bool {
    count <= 64 && held_classes(tables, count).iter().collect::<HashSet<_>>().len() == count
}

pub fn store_answer(case: &StoreCase) -> StoreAnswer {
    if !store_legal(&case.tables, case.count) {
        return StoreAnswer { numbers: vec![None; case.added.len()], held: case.count, luts: None };
    }
    let before = held_classes(&case.tables, case.count);
    masks_of(&before, |store| {
        let mut held = before.iter().cloned().collect::<HashSet<_>>();
        let numbers = case
            .added
            .iter()
            .map(|flags| {
                // 15, last case: a class that a full store lacks; the original would go on counting
                if held.len() == 64 && !held.contains(flags) {
                    return None;
                }
                held.insert(*flags);
                Some(store.mask_number(&ByteClass::of_flags(flags)))
            })
            .collect();
        let mut luts = store.tables().concat();
        luts.resize(2048, 0);
        assert_eq!(store.masks_held(), held.len());
        StoreAnswer { numbers, held: held.len(), luts: Some(luts) }
    })
}

fn store_line(case: &StoreCase) -> String {
    let answer = store_answer(case);
    let numbers = answer.numbers.iter().map(|n| n.map_or("refused-15".to_string(), |n| n.to_string()));
    let luts = answer.luts.map_or("refused 15".to_string(), |luts| bytes_text(&luts));
    format!("numbers {} held {} luts {luts}", numbers.collect::<Vec<_>>().join(","), answer.held)
}

// ---- lines

pub fn packed(flags: &Flags) -> Vec<u8> {
    (0..32).map(|at| (0..8).map(|bit| u8::from(flags[8 * at + bit]) << bit).sum()).collect()
}

pub fn unpacked(bytes: &[u8]) -> Flags {
    std::array::from_fn(|byte| bytes[byte / 8] >> (byte % 8) & 1 == 1)
}

impl Case {
    pub fn line(&self) -> String {
        match self {
            Case::Class(flags) => format!("class {}", bytes_text(&packed(flags))),
            Case::Store(store) => {
                let added = store.added.iter().map(|flags| bytes_text(&packed(flags)));
                let added = added.collect::<Vec<_>>().join(" ");
                format!("store {} {} {added}", store.count, bytes_text(&store.tables)).trim_end().to_string()
            }
        }
    }

    pub fn of_line(line: &str) -> Case {
        let words = line.split(' ').collect::<Vec<_>>();
        match words[0] {
            "class" => Case::Class(Box::new(unpacked(&bytes_of(words[1])))),
            "store" => Case::Store(StoreCase {
                count: number(words[1]),
                tables: bytes_of(words[2]),
                added: words[3..].iter().map(|text| unpacked(&bytes_of(text))).collect(),
            }),
            other => panic!("not a case of classes: {other}"),
        }
    }

    pub fn answer(&self) -> String {
        match self {
            Case::Class(flags) => class_line(flags),
            Case::Store(store) => store_line(store),
        }
    }
}
