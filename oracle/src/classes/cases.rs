//! Random classes and stores.

use super::{Case, Flags, StoreCase};
use crate::random::Random;

/// A class by independent bytes, so many of a hundred.
pub fn sprinkled(random: &mut Random, percent: usize) -> Flags {
    std::array::from_fn(|_| random.percent(percent))
}

/// A class of alternating runs and gaps, each from 1 to a limit.
pub fn runs_and_gaps(random: &mut Random, longest_run: usize, longest_gap: usize) -> Flags {
    let mut flags = [false; 256];
    let mut at = if random.percent(50) { 0 } else { random.within(1, longest_gap) };
    while at < 256 {
        let run = random.within(1, longest_run);
        for flag in flags.iter_mut().skip(at).take(run) {
            *flag = true;
        }
        at += run + random.within(1, longest_gap);
    }
    flags
}

pub fn of_range(first: usize, last: usize) -> Flags {
    std::array::from_fn(|byte| first <= byte && byte <= last)
}

pub fn random_class(random: &mut Random) -> Flags {
    match random.below(8) {
        0 => sprinkled(random, 2),
        1 => sprinkled(random, 10),
        2 => sprinkled(random, 50),
        3 => sprinkled(random, 90),
        4 => sprinkled(random, 98),
        5 => runs_and_gaps(random, 40, 2),
        6 => runs_and_gaps(random, 3, 30),
        _ => {
            let (one, other) = (random.below(256), random.below(256));
            of_range(one.min(other), one.max(other))
        }
    }
}

pub fn random_store(random: &mut Random, start: usize) -> StoreCase {
    let classes = (0..random.within(1, 80)).map(|_| random_class(random)).collect::<Vec<_>>();
    // bits of masks that are not in use mean nothing: any byte may stand there
    let mut tables = (0..2048).map(|_| random.byte()).collect::<Vec<_>>();
    let mut held: Vec<Flags> = Vec::new();
    while held.len() < start {
        let class = random_class(random);
        if !held.contains(&class) {
            held.push(class);
        }
    }
    for (i, class) in held.iter().enumerate() {
        for byte in 0..256 {
            let entry = &mut tables[256 * (i / 8) + byte];
            *entry = *entry & !(1 << (i % 8)) | u8::from(class[byte]) << (i % 8);
        }
    }
    let added = (0..random.within(1, 90))
        .map(|_| match random.below(4) {
            0 if !held.is_empty() => random.pick(&held),
            _ => random.pick(&classes),
        })
        .collect();
    StoreCase { tables, count: start, added }
}

/// A store that breaks its rule: it counts over 64, or one class stands in it twice.
pub fn illegal_store(random: &mut Random) -> StoreCase {
    let mut store = random_store(random, 20);
    store.added.truncate(2);
    match random.below(3) {
        0 => store.count = random.pick(&[65, 66, 255, 256, 65_535, 65_536, 4_294_967_295]),
        1 => {
            // bit 7 of table 0 is mask 7, bit 0 of table 1 mask 8
            for byte in 0..256 {
                let flag = store.tables[byte] >> 7;
                store.tables[256 + byte] = store.tables[256 + byte] & !1 | flag;
            }
        }
        _ => {
            // an unused bit that repeats a class comes into use
            for byte in 0..256 {
                let flag = store.tables[byte] & 1;
                store.tables[512 + byte] = store.tables[512 + byte] & !16 | flag << 4;
            }
            store.count = 21;
        }
    }
    store
}

pub fn random_case(random: &mut Random) -> Case {
    match random.below(12) {
        0 => {
            let start = random.pick(&[0, 0, 1, 7, 8, 9, 40, 63, 64]);
            Case::Store(random_store(random, start))
        }
        1 => Case::Store(illegal_store(random)),
        _ => Case::Class(Box::new(random_class(random))),
    }
}
