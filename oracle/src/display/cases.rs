//! Random graph words: graphs that a build made, graphs that none made, and damaged ones.

use super::Case;
use crate::builds::built;
use crate::graphs::NONE;
use crate::random::Random;
use crate::tables::cases::{alphabet, random_table};

/// Any rows under any marks; the root is any state.
pub fn free_graph(random: &mut Random, states: usize) -> Vec<u16> {
    let root = if states == 0 { 0 } else { random.below(states) };
    let mut words = vec![states as u16, root as u16];
    let none_share = random.pick(&[0, 20, 60, 90]);
    let end_share = random.pick(&[0, 30, 100]);
    let target = |random: &mut Random, share: usize| if random.percent(share) { NONE } else { random.below(states) as u16 };
    for state in 0..states {
        // one to five classes; loops are as likely as all other targets together
        let classes = random.within(1, 5);
        let by_class = (0..classes).map(|_| if random.percent(30) { state as u16 } else { target(random, none_share) }).collect::<Vec<_>>();
        words.extend(alphabet(random, classes).map(|class| by_class[class]));
        words.push(target(random, 100 - end_share));
        words.push(random.pick(&[65_535, 65_535, 65_280, 255, 0, 254, 65_534, 1 + 256 * 2]));
        if random.percent(10) {
            *words.last_mut().expect("marks") = random.next() as u16;
        }
    }
    words
}

pub fn some_graph(random: &mut Random, most: usize) -> Vec<u16> {
    let mut words = if random.percent(50) {
        built(&random_table(random, most).words()).graph
    } else {
        let states = random.below(most + 1);
        free_graph(random, states)
    };
    // words after the graph play no part
    if random.percent(15) {
        words.extend((0..random.within(1, 3)).map(|_| random.next() as u16));
    }
    words
}

/// One word changed, or words cut off: mostly condition 12.
pub fn damaged(random: &mut Random, mut words: Vec<u16>) -> Vec<u16> {
    let count = words[0];
    let at = random.below(words.len());
    match random.below(6) {
        0 => words.truncate(at),
        1 => {
            words.pop();
        }
        2 => words[0] = random.pick(&[0, count.wrapping_add(1), 1024, 1025, 65_535]),
        3 => words[1] = random.pick(&[0, count, count.wrapping_sub(1), 65_535]),
        _ => words[at] = random.pick(&[count, count.wrapping_sub(1), count.wrapping_add(1), 65_534, 65_535]),
    }
    words
}

pub fn random_case(random: &mut Random) -> Case {
    let most = random.pick(&[2, 5, 12, 40]);
    let graph = some_graph(random, most);
    Case { graph: if random.percent(20) { damaged(random, graph) } else { graph } }
}
