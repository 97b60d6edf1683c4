//! The stored list of classes and stores (docs/ORACLE.md, "classes.bin").

use super::cases::{illegal_store, of_range, random_class, random_store, runs_and_gaps, sprinkled};
use super::{class_answer, held_classes, packed, store_answer, Compared, Flags, StoreCase};
use crate::form::Stored;
use crate::random::Random;
use logos_codegen::graph::Comparisons;
use std::collections::{BTreeSet, HashSet};

/// The classes of the stored list, each once.
fn listed_classes() -> Vec<Flags> {
    let mut classes = vec![[false; 256], [true; 256]];
    classes.extend((0..256).map(|byte| of_range(byte, byte)));
    classes.extend((0..256).map(|last| of_range(0, last)));
    classes.extend((0..256).map(|first| of_range(first, 255)));
    classes.extend((0..256).map(|out| std::array::from_fn(|byte| byte != out)));
    // K5: 5 to 10 and 12 to 16
    classes.push(std::array::from_fn(|byte| (5..=10).contains(&byte) || (12..=16).contains(&byte)));
    // every pattern of up to six bytes, repeated over all 256
    for width in 2..=6 {
        for pattern in 1..(1 << width) - 1 {
            classes.push(std::array::from_fn(|byte| pattern >> (byte % width) & 1 == 1));
        }
    }
    // two ranges with a gap of 1, 2 or 3 at both ends of the bytes and in the middle
    for gap in 1..=3 {
        for first in [0, 1, 2, 120, 249, 250, 251, 252] {
            for (one, other) in [(1, 1), (1, 2), (2, 1), (2, 2)] {
                let second = first + one + gap;
                classes.push(std::array::from_fn(|byte| (first..first + one).contains(&byte) || (second..second + other).contains(&byte)));
            }
        }
    }
    let mut random = Random::new(1);
    for round in 0..260 {
        classes.push(match round % 13 {
            0 => sprinkled(&mut random, 1),
            1 => sprinkled(&mut random, 4),
            2 => sprinkled(&mut random, 12),
            3 => sprinkled(&mut random, 50),
            4 => sprinkled(&mut random, 85),
            5 => sprinkled(&mut random, 95),
            6 => sprinkled(&mut random, 99),
            7 => runs_and_gaps(&mut random, 60, 1),
            8 => runs_and_gaps(&mut random, 20, 2),
            9 => runs_and_gaps(&mut random, 8, 3),
            10 => runs_and_gaps(&mut random, 2, 40),
            _ => random_class(&mut random),
        });
    }
    let mut seen = HashSet::new();
    classes.retain(|class| seen.insert(*class));
    classes
}

fn store_class(stored: &mut Stored, flags: &Flags) {
    let answer = class_answer(flags);
    let (first, last): (Vec<_>, Vec<_>) = answer.ranges.into_iter().unzip();
    let of_all = |of: fn(&Compared) -> u8| answer.comparisons.iter().map(of).collect::<Vec<_>>();
    let compared = [of_all(|c| c.first), of_all(|c| c.last), of_all(|c| c.except.len() as u8)];
    let except = answer.comparisons.iter().flat_map(|c| c.except.clone()).collect::<Vec<_>>();
    stored.case(0, &[answer.cost], &[&packed(flags), &first, &last, &compared[0], &compared[1], &compared[2], &except]);
}

/// First and last byte, the number of exceptions, and `count_ops`: of all comparisons of the classes, and of ones that no class has, single bytes with
/// exceptions and ranges with many.
fn listed_ops(classes: &[Flags]) -> BTreeSet<[usize; 4]> {
    let mut listed = BTreeSet::new();
    for compared in classes.iter().flat_map(|class| class_answer(class).comparisons) {
        listed.insert([usize::from(compared.first), usize::from(compared.last), compared.except.len(), compared.ops]);
    }
    for (first, last) in [(0, 0), (97, 97), (255, 255), (0, 255), (0, 254), (1, 255), (1, 254)] {
        for exceptions in [0, 1, 2, 127, 128, 255] {
            let ops = Comparisons { range: first..=last, except: vec![first; exceptions] }.count_ops();
            listed.insert([usize::from(first), usize::from(last), exceptions, ops]);
        }
    }
    listed
}

/// The sequences of the stored list; a class is named by its place in the list.
fn listed_sequences(classes: usize) -> Vec<(u8, Vec<usize>)> {
    let mut random = Random::new(2);
    let mut sequences = vec![(0, vec![]), (255, vec![0]), (0, vec![1]), (0xA5, vec![0, 1, 0, 1, 2, 2])];
    for distinct in [7, 8, 9, 16, 17, 40, 56, 57, 63, 64, 64, 70] {
        let mut pool: Vec<usize> = Vec::new();
        while pool.len() < distinct {
            let class = random.below(classes);
            if !pool.contains(&class) {
                pool.push(class);
            }
        }
        // each of them in turn, with repeats of earlier ones between, and some of all at the end
        let mut added = Vec::new();
        for at in 0..distinct {
            added.push(pool[at]);
            if random.percent(40) {
                added.push(pool[random.below(at + 1)]);
            }
        }
        added.extend((0..12).map(|_| random.pick(&pool)));
        sequences.push((random.byte(), added));
    }
    sequences
}

/// Stores as a caller may hand them in: legal ones that are given held and new classes in turn, and illegal ones.
fn listed_stores() -> Vec<StoreCase> {
    let mut random = Random::new(3);
    let mut stores = Vec::new();
    for start in [0, 1, 8, 33, 63, 64] {
        let mut store = random_store(&mut random, start);
        let held = held_classes(&store.tables, start);
        let [one, other] = [0; 2].map(|_| runs_and_gaps(&mut random, 9, 9));
        let some = held.last().copied().unwrap_or(one);
        store.added = vec![some, one, some, other, one, other];
        stores.push(store);
    }
    stores.extend((0..6).map(|_| illegal_store(&mut random)));
    let mut counting = random_store(&mut random, 20);
    counting.count = 65;
    counting.added.truncate(2);
    stores.push(counting);
    stores
}

/// A store whose tables hold these masks, and are filled with a byte elsewhere.
fn store_store(stored: &mut Stored, fill: u8, masks: &[Flags], case: &StoreCase) {
    let answer = store_answer(case);
    let bytes = |classes: &[Flags]| classes.iter().flat_map(packed).collect::<Vec<_>>();
    let numbers = answer.numbers.iter().map(|number| number.unwrap_or(255) as u8).collect::<Vec<_>>();
    let (mut after, mut tables) = (masks.to_vec(), &[][..]);
    if let Some(luts) = &answer.luts {
        let used = 256 * answer.held.div_ceil(8);
        assert!(luts[used..].iter().all(|&entry| entry == 0));
        tables = &luts[..used];
        after.resize(after.len().max(answer.held), [false; 256]);
        after[..answer.held].copy_from_slice(&held_classes(luts, answer.held));
    }
    let refusal = if answer.luts.is_some() { 0 } else { 15 };
    stored.case(
        2,
        &[usize::from(fill), case.count, answer.held, refusal],
        &[&bytes(masks), &bytes(&case.added), &numbers, &bytes(&after), tables],
    );
}

pub fn list() -> Vec<u8> {
    let mut stored = Stored::default();
    let classes = listed_classes();
    for class in &classes {
        store_class(&mut stored, class);
    }
    for [first, last, exceptions, ops] in listed_ops(&classes) {
        stored.case(1, &[first, last, exceptions, ops], &[]);
    }
    for (fill, added) in listed_sequences(classes.len()) {
        let case = StoreCase { tables: vec![fill; 2048], count: 0, added: added.iter().map(|&at| classes[at]).collect() };
        store_store(&mut stored, fill, &[], &case);
    }
    for case in listed_stores() {
        store_store(&mut stored, 0, &held_classes(&case.tables, 64), &case);
    }
    stored.0
}
