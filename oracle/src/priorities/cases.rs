//! Random trees, and damage to them.

use super::{Case, ALTERNATION, CAPTURE, CLASS, CONCAT, EMPTY, LITERAL, LOOK, REPETITION};
use crate::random::Random;

/// A tree without numbers.
pub struct Node {
    kind: u32,
    a: u32,
    b: u32,
    flags: u32,
    children: Vec<Node>,
}

impl Node {
    pub fn plain(kind: u32) -> Node {
        Node::over(kind, Vec::new())
    }

    pub fn over(kind: u32, children: Vec<Node>) -> Node {
        Node { kind, a: 0, b: 0, flags: 0, children }
    }

    pub fn class(flags: u32) -> Node {
        Node { flags, ..Node::plain(CLASS) }
    }

    pub fn literal(from: u32, length: u32) -> Node {
        Node { a: from, b: length, ..Node::plain(LITERAL) }
    }

    pub fn repetition(min: u32, flags: u32, child: Node) -> Node {
        Node { a: min, flags, ..Node::over(REPETITION, vec![child]) }
    }

    fn size(&self) -> usize {
        1 + self.children.iter().map(Node::size).sum::<usize>()
    }
}

/// Well-formed text of every length of code point, ill-formed bytes, and both edges of each.
fn some_bytes(random: &mut Random) -> Vec<u8> {
    let parts: [&[u8]; 14] = [
        b"a",
        b"--",
        b"\x7F",
        b"\xC2\xB0",
        b"\xDF\xBF",
        b"\xE0\xA0\x80",
        b"\xED\x9F\xBF",
        b"\xEF\xBF\xBF",
        b"\xF0\x90\x80\x80",
        b"\xF4\x8F\xBF\xBF",
        b"\x80",
        b"\xED\xA0\x80",
        b"\xC1\xBF",
        b"\xF5",
    ];
    let kinds = if random.percent(70) { 10 } else { 14 };
    (0..random.below(7)).flat_map(|_| parts[random.below(kinds)].iter().copied()).collect()
}

fn some_min(random: &mut Random) -> u32 {
    match random.below(12) {
        0 => 0,
        1 | 2 => 1,
        3 => u32::MAX,
        4 => 0x7FFF_FFFF,
        5 => 0x8000_0000,
        6 => random.next() as u32,
        7 => 65_536,
        _ => random.below(9) as u32,
    }
}

/// A tree of up to `budget` records.
fn grown(random: &mut Random, budget: &mut usize, bytes: usize, depth: usize) -> Node {
    *budget = budget.saturating_sub(1);
    let leaf = *budget == 0 || depth > 12 || random.percent(25);
    let holder = depth == 0 && random.percent(80);
    let kind = if leaf && !holder { random.below(4) } else { random.within(if holder { 4 } else { 1 }, 7) };
    match kind as u32 {
        LITERAL => {
            let from = random.below(bytes + 1);
            Node::literal(from as u32, random.below(bytes - from + 1) as u32)
        }
        CLASS => Node::class(random.below(2) as u32),
        REPETITION => {
            // a dot below a repetition is what the greedy rule looks for
            let child = if random.percent(40) { Node::class(1) } else { grown(random, budget, bytes, depth + 1) };
            Node::repetition(some_min(random), random.below(4) as u32, child)
        }
        CAPTURE => Node::over(CAPTURE, vec![grown(random, budget, bytes, depth + 1)]),
        kind @ (CONCAT | ALTERNATION) => {
            let mut children = Vec::new();
            for _ in 0..random.below(5) {
                if *budget > 0 {
                    children.push(grown(random, budget, bytes, depth + 1));
                }
            }
            Node::over(kind, children)
        }
        LOOK => Node::plain(LOOK),
        _ => Node::plain(EMPTY),
    }
}

/// Numbers a tree so that every index is below its holder's number; which of the many ways is chosen by `choose` among so many.
pub fn numbered(root: &Node, mut choose: impl FnMut(usize) -> usize) -> Vec<u32> {
    let count = root.size();
    let mut words = vec![0; 6 * count];
    // siblings from a node on, and the word that names it
    let mut waiting: Vec<(&[Node], Option<usize>)> = vec![(std::slice::from_ref(root), None)];
    for number in (1..=count).rev() {
        let (siblings, named_by) = waiting.swap_remove(choose(waiting.len()));
        let node = &siblings[0];
        let at = 6 * (number - 1);
        words[at..at + 4].copy_from_slice(&[node.kind, node.a, node.b, node.flags]);
        if let Some(word) = named_by {
            words[word] = number as u32;
        }
        if !node.children.is_empty() {
            waiting.push((&node.children, Some(at + 4)));
        }
        if siblings.len() > 1 {
            waiting.push((&siblings[1..], Some(at + 5)));
        }
    }
    words
}

pub fn random_tree(random: &mut Random, most: usize) -> Case {
    let bytes = some_bytes(random);
    let mut budget = random.within(1, most);
    let root = grown(random, &mut budget, bytes.len(), 0);
    Case { tree: numbered(&root, |choices| random.below(choices)), bytes }
}

/// One word, one length or one byte is changed; whether the tree is still legal is for the rules to say.
pub fn damaged(random: &mut Random, mut case: Case) -> Case {
    let records = case.tree.len() / 6;
    let at = random.below(case.tree.len());
    let edges = [0, 1, 2, 3, 4, 7, 8, records as u32, records as u32 + 1, case.bytes.len() as u32, u32::MAX, 0x8000_0000];
    match random.below(10) {
        0 => case.tree.truncate(at),
        1 => case.tree.push(0),
        2 => case.bytes.truncate(random.below(case.bytes.len() + 1)),
        3 => {
            // two names change places
            let column = random.within(4, 5);
            let (one, other) = (6 * random.below(records) + column, 6 * random.below(records) + random.within(4, 5));
            case.tree.swap(one, other);
        }
        4 => case.tree[at] = case.tree[at].wrapping_add(1),
        5 => case.tree[at] ^= 1 << random.below(4),
        6 => case.tree[6 * (at / 6) + random.within(4, 5)] = (at / 6 + 1) as u32,
        _ => case.tree[at] = random.pick(&edges),
    }
    case
}

pub fn random_case(random: &mut Random) -> Case {
    let most = random.pick(&[3, 8, 20, 60]);
    let case = random_tree(random, most);
    if random.percent(35) {
        damaged(random, case)
    } else {
        case
    }
}
