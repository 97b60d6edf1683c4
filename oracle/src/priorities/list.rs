//! The stored list of literals and trees (docs/ORACLE.md, "priorities.bin").

use super::cases::{damaged, numbered, random_tree, Node};
use super::{Case, ALTERNATION, CAPTURE, CONCAT, EMPTY, LITERAL, LOOK};
use crate::form::Stored;
use crate::random::Random;
use crate::words::packed_runs;

fn literal(bytes: &[u8]) -> Case {
    Case { tree: vec![LITERAL, 0, bytes.len() as u32, 0, 0, 0], bytes: bytes.to_vec() }
}

/// The original's priority of a literal.
fn priority(bytes: &[u8]) -> usize {
    literal(bytes).outcome().priority.expect("a literal") as usize
}

/// 256 literals: a string with each byte at one place. The original's priorities of them, in runs.
fn store_row(stored: &mut Stored, string: &[u8], place: usize) {
    let priorities = (0..=255).map(|byte| {
        let mut string = string.to_vec();
        string[place] = byte;
        priority(&string) as u16
    });
    stored.case(0, &[place], &[string, &packed_runs(&priorities.collect::<Vec<_>>())]);
}

const EDGES: [u8; 4] = [0x7F, 0x80, 0xBF, 0xC0];

/// Every string of two bytes, alone and behind a code point; those of three and four bytes whose last bytes stand at an edge.
fn store_rows(stored: &mut Stored) {
    for lead in 0..=255 {
        store_row(stored, &[lead, 0], 1);
        store_row(stored, &[0xC3, 0xA9, lead, 0], 3);
    }
    for last in EDGES {
        for lead in 0xE0..=0xEF {
            store_row(stored, &[lead, 0, last], 1);
        }
        for lead in 0xF0..=0xF7 {
            for third in EDGES {
                store_row(stored, &[lead, 0, third, last], 1);
            }
        }
    }
}

/// Longer strings: parts of one to four bytes behind each other, some cut short or overlong.
fn listed_strings() -> Vec<Vec<u8>> {
    let whole: [&[u8]; 12] = [
        b"\x00",
        b"A",
        b"\x7F",
        b"\xC2\x80",
        b"\xDF\xBF",
        b"\xE0\xA0\x80",
        b"\xED\x9F\xBF",
        b"\xEE\x80\x80",
        b"\xEF\xBF\xBF",
        b"\xF0\x90\x80\x80",
        b"\xF1\x80\x80\x80",
        b"\xF4\x8F\xBF\xBF",
    ];
    let broken: [&[u8]; 12] = [
        b"\x80",
        b"\xBF",
        b"\xC0\x80",
        b"\xC1\xBF",
        b"\xE0\x9F\xBF",
        b"\xED\xA0\x80",
        b"\xF0\x8F\xBF\xBF",
        b"\xF4\x90\x80\x80",
        b"\xF5\x80\x80\x80",
        b"\xF8\x88\x80\x80\x80",
        b"\xFE",
        b"\xFF",
    ];
    let mut strings = vec![Vec::new()];
    strings.extend((0..=255).map(|byte| vec![byte]));
    for part in whole {
        // each cut short, alone and before an ASCII byte, and each behind each
        for length in 1..=part.len() {
            strings.push(part[..length].to_vec());
            strings.push([&part[..length], b"z"].concat());
        }
        for other in whole.iter().chain(&broken) {
            strings.push([part, other].concat());
            strings.push([other, part].concat());
        }
    }
    let mut random = Random::new(4);
    for _ in 0..150 {
        let mut string = (0..random.within(1, 12)).flat_map(|_| random.pick(&whole).to_vec()).collect::<Vec<_>>();
        if random.percent(50) {
            let at = random.below(string.len());
            string[at] = random.byte();
        }
        strings.push(string);
    }
    strings
}

/// Each kind at its limits, and the values about 4,294,967,295.
fn limits() -> Vec<Node> {
    let class = || Node::class(0);
    let most = 0x7FFF_FFFF;
    let largest = || Node::repetition(most, 0, class());
    let passing = || Node::repetition(most + 1, 0, class());
    let mut nodes = vec![
        Node::plain(EMPTY),
        Node::plain(LOOK),
        class(),
        Node::class(1),
        Node::plain(CONCAT),
        Node::plain(ALTERNATION),
        Node::literal(0, 0),
        largest(),
        passing(),
        // a sum that passes, and one that just does not
        Node::over(CONCAT, vec![largest(), class()]),
        Node::over(CONCAT, vec![Node::repetition(most - 1, 0, class()), class()]),
        Node::over(CONCAT, vec![largest(), Node::plain(EMPTY), Node::plain(LOOK)]),
        // a value that passes counts wherever it stands
        Node::repetition(0, 0, passing()),
        Node::over(ALTERNATION, vec![class(), passing()]),
        Node::over(ALTERNATION, vec![passing(), Node::plain(EMPTY)]),
        Node::over(CAPTURE, vec![passing()]),
        Node::over(CONCAT, vec![passing()]),
        Node::repetition(0, 0, largest()),
        Node::repetition(1, 0, largest()),
        Node::repetition(2, 0, largest()),
        Node::repetition(u32::MAX, 0, Node::plain(EMPTY)),
        Node::repetition(u32::MAX, 0, class()),
        // beyond 64 bits
        Node::repetition(u32::MAX, 0, Node::repetition(u32::MAX, 0, Node::repetition(u32::MAX, 0, class()))),
        // K11 and K12
        Node::repetition(3, 0, class()),
        Node::repetition(0, 0, class()),
    ];
    // the greedy rule: every set of flags over a dot, another class, and a dot that is not the repetition's own child
    for flags in 0..4 {
        for min in [0, 1, 2] {
            nodes.push(Node::repetition(min, flags, Node::class(1)));
        }
        nodes.push(Node::repetition(1, flags, class()));
        nodes.push(Node::repetition(1, flags, Node::over(CAPTURE, vec![Node::class(1)])));
        nodes.push(Node::repetition(1, flags, Node::over(CONCAT, vec![Node::class(1)])));
        nodes.push(Node::repetition(1, 3, Node::repetition(1, flags, Node::class(1))));
        nodes.push(Node::repetition(1, 0, Node::over(CAPTURE, vec![Node::repetition(1, flags, Node::class(1))])));
        let inner = || Node::repetition(1, flags, Node::class(1));
        nodes.push(Node::over(CAPTURE, vec![inner()]));
        nodes.push(Node::over(CONCAT, vec![class(), inner()]));
        nodes.push(Node::over(CONCAT, vec![inner(), class()]));
        nodes.push(Node::over(ALTERNATION, vec![class(), inner(), Node::plain(EMPTY)]));
        nodes.push(Node::over(ALTERNATION, vec![Node::over(CONCAT, vec![Node::over(CAPTURE, vec![inner()])])]));
    }
    nodes
}

/// The largest trees: 1,024 records in one chain, in one nest, and one record more.
fn largest_trees() -> Vec<Case> {
    let flat = |parts: usize| Node::over(CONCAT, (0..parts).map(|_| Node::literal(1, 2)).collect());
    let mut nest = Node::class(1);
    nest = Node::repetition(7, 3, nest);
    for _ in 0..1022 {
        nest = Node::over(CAPTURE, vec![nest]);
    }
    [flat(1023), flat(1024), nest].iter().map(|node| Case { tree: numbered(node, |_| 0), bytes: b"-\xC2\xB0-".to_vec() }).collect()
}

/// Trees that break a rule, each by one word, beside the sound one.
fn broken_trees() -> Vec<Case> {
    let bytes = b"a\xC2\xB0b".to_vec();
    // 1 class, 2 literal, 3 repetition of 1, 4 capture of 3, 5 concat of 4 then 2
    let sound = vec![[2, 0, 0, 1, 0, 0], [1, 1, 2, 0, 0, 0], [4, 2, 0, 3, 1, 0], [5, 0, 0, 0, 3, 2], [6, 0, 0, 0, 4, 0]];
    let changed = |record: usize, field: usize, value: u32| {
        let mut tree = sound.clone();
        tree[record - 1][field] = value;
        tree.concat()
    };
    let mut trees = vec![sound.concat()];
    for (record, largest_flag) in [(1, 1), (2, 0), (3, 3), (4, 0), (5, 0)] {
        for kind in [0, 1, 2, 3, 4, 5, 6, 7, 8, u32::MAX] {
            trees.push(changed(record, 0, kind));
        }
        for value in [0, 1, 2, 3, 4, 5, u32::MAX] {
            trees.push(changed(record, 1, value));
            trees.push(changed(record, 2, value));
        }
        for flag in [0, 1, 2, 3, largest_flag + 1, 4, 8, 0x8000_0000] {
            trees.push(changed(record, 3, flag));
        }
        for index in [0, 1, 2, 3, 4, 5, 6, u32::MAX] {
            trees.push(changed(record, 4, index));
            trees.push(changed(record, 5, index));
        }
    }
    // no records, part records
    for length in [0, 1, 5, 6, 7, 12, 29] {
        trees.push(sound.concat()[..length].to_vec());
    }
    trees.push([sound.concat(), vec![0]].concat());
    // a root with a next, and nothing else amiss
    trees.push([[2, 0, 0, 0, 0, 0], [2, 0, 0, 0, 0, 1]].concat());
    trees.into_iter().map(|tree| Case { tree, bytes: bytes.clone() }).collect()
}

fn store_tree(stored: &mut Stored, case: &Case) {
    let answer = case.outcome();
    let numbers = [
        usize::from(answer.priority.err().unwrap_or(0)),
        answer.priority.unwrap_or(0) as usize,
        usize::from(answer.greedy.err().unwrap_or(0)),
        usize::from(answer.greedy.unwrap_or(false)),
    ];
    let tree = case.tree.iter().flat_map(|word| word.to_le_bytes()).collect::<Vec<_>>();
    stored.case(2, &numbers, &[&tree, &case.bytes]);
}

pub fn list() -> Vec<u8> {
    let mut stored = Stored::default();
    store_rows(&mut stored);
    for string in listed_strings() {
        stored.case(1, &[priority(&string)], &[&string]);
    }
    let mut random = Random::new(5);
    let mut trees = broken_trees();
    trees.extend(limits().iter().map(|node| Case { tree: numbered(node, |_| 0), bytes: Vec::new() }));
    trees.extend(largest_trees());
    trees.extend((0..260).map(|_| random_tree(&mut random, 12)));
    trees.extend((0..60).map(|_| random_tree(&mut random, 50)));
    for _ in 0..260 {
        let tree = random_tree(&mut random, 8);
        trees.push(damaged(&mut random, tree));
    }
    for tree in &trees {
        store_tree(&mut stored, tree);
    }
    stored.0
}
