//! Pattern trees: what `Pattern::priority` and `Pattern::check_for_greedy_all` answer, and which trees are refused by 10 and 11.

use crate::form::{bytes_of, bytes_text};
use crate::words::{words_of, words_text};
use logos_codegen::pattern::Pattern;
use regex_syntax::hir::{self, Capture, Class, Dot, Hir, HirKind, Look, Repetition};

mod cases;
mod list;

pub use cases::random_case;
pub use list::list;

pub const EMPTY: u32 = 0;
pub const LITERAL: u32 = 1;
pub const CLASS: u32 = 2;
pub const LOOK: u32 = 3;
pub const REPETITION: u32 = 4;
pub const CAPTURE: u32 = 5;
pub const CONCAT: u32 = 6;
pub const ALTERNATION: u32 = 7;

pub const GREEDY: u32 = 1;
pub const UNBOUNDED: u32 = 2;

pub struct Case {
    /// Records of six words: kind, a, b, flags, first child, next.
    pub tree: Vec<u32>,
    pub bytes: Vec<u8>,
}

pub struct Answer {
    pub priority: Result<u32, u8>,
    pub greedy: Result<bool, u8>,
}

/// A record of a tree.
#[derive(Clone, Copy)]
struct Record {
    kind: u32,
    a: u32,
    b: u32,
    flags: u32,
    first: usize,
    next: usize,
}

impl Case {
    fn records(&self) -> usize {
        self.tree.len() / 6
    }

    /// Records are numbered from 1.
    fn record(&self, number: usize) -> Record {
        let words = &self.tree[6 * (number - 1)..6 * number];
        let [kind, a, b, flags, first, next] = words.try_into().expect("six words");
        Record { kind, a, b, flags, first: first as usize, next: next as usize }
    }

    /// The rules of a tree (docs/RULES.md, "Pattern trees"); a tree that breaks one is refused by 10.
    fn legal(&self) -> bool {
        let count = self.records();
        if self.tree.len() % 6 != 0 || count == 0 || count > 1024 {
            return false;
        }
        let mut named = vec![0; count + 1];
        for number in 1..=count {
            let record = self.record(number);
            if !self.fields_legal(record) || record.first >= number || record.next >= number {
                return false;
            }
            if matches!(record.kind, REPETITION | CAPTURE) && self.record(record.first).next != 0 {
                return false;
            }
            named[record.first] += 1;
            named[record.next] += 1;
        }
        self.record(count).next == 0 && named[1..count].iter().all(|&times| times == 1)
    }

    /// What a record's kind allows in its fields.
    fn fields_legal(&self, record: Record) -> bool {
        let Record { kind, a, b, flags, first, .. } = record;
        let of_kind = match kind {
            LITERAL => flags == 0 && u64::from(a) + u64::from(b) <= self.bytes.len() as u64,
            CLASS => a == 0 && b == 0 && flags <= 1,
            REPETITION => b == 0 && flags <= 3,
            EMPTY | LOOK | CAPTURE | CONCAT | ALTERNATION => a == 0 && b == 0 && flags == 0,
            _ => false,
        };
        let children = match kind {
            REPETITION | CAPTURE => first != 0,
            CONCAT | ALTERNATION => true,
            _ => first == 0,
        };
        of_kind && children
    }

    /// The tree below a record, as the original's `Hir`.
    fn hir(&self, number: usize) -> Hir {
        let record = self.record(number);
        let only = || Box::new(self.hir(record.first));
        Hir::of(match record.kind {
            EMPTY => HirKind::Empty,
            LITERAL => return Hir::literal(&self.bytes[record.a as usize..][..record.b as usize]),
            CLASS if record.flags == 1 => return Hir::dot(self.dot(number)),
            CLASS => HirKind::Class(Class::Other),
            LOOK => HirKind::Look(Look),
            REPETITION => HirKind::Repetition(Repetition {
                min: record.a,
                max: if record.flags & UNBOUNDED == 0 { Some(record.a) } else { None },
                greedy: record.flags & GREEDY != 0,
                sub: only(),
            }),
            CAPTURE => HirKind::Capture(Capture { sub: only() }),
            CONCAT => HirKind::Concat(self.chain(record.first)),
            ALTERNATION => HirKind::Alternation(self.chain(record.first)),
            kind => panic!("kind {kind}"),
        })
    }

    /// The six dots in turn: the tree does not say which one a class is.
    fn dot(&self, number: usize) -> Dot {
        match number % 6 {
            0 => Dot::AnyChar,
            1 => Dot::AnyByte,
            2 => Dot::AnyCharExceptLF,
            3 => Dot::AnyByteExceptLF,
            4 => Dot::AnyCharExceptCRLF,
            _ => Dot::AnyByteExceptCRLF,
        }
    }

    fn chain(&self, mut number: usize) -> Vec<Hir> {
        let mut parts = Vec::new();
        while number != 0 {
            parts.push(self.hir(number));
            number = self.record(number).next;
        }
        parts
    }

    /// The original's pattern of the tree below a record.
    fn pattern(&self, number: usize) -> Pattern {
        hir::stage(self.hir(number));
        Pattern::compile(false, "", String::new(), true, false).expect("a staged tree")
    }

    /// The original's values of all records, ascending; none from the first that passes 32 bits on. Since the values below a record fit 32
    /// bits when it is asked for, the original's own arithmetic cannot pass its 64.
    fn values(&self) -> Option<u32> {
        let mut last = 0;
        for number in 1..=self.records() {
            last = u32::try_from(self.pattern(number).priority()).ok()?;
        }
        Some(last)
    }

    pub fn outcome(&self) -> Answer {
        if !self.legal() {
            return Answer { priority: Err(10), greedy: Err(10) };
        }
        Answer { priority: self.values().ok_or(11), greedy: Ok(self.pattern(self.records()).check_for_greedy_all()) }
    }

    pub fn line(&self) -> String {
        format!("tree {} {}", words_text(&self.tree), bytes_text(&self.bytes))
    }

    pub fn of_line(line: &str) -> Case {
        let words = line.split(' ').collect::<Vec<_>>();
        Case { tree: words_of(words[1]), bytes: bytes_of(words[2]) }
    }

    pub fn answer(&self) -> String {
        let answer = self.outcome();
        let refused = |number: u8| format!("refused-{number}");
        let priority = answer.priority.map_or_else(refused, |value| value.to_string());
        let greedy = answer.greedy.map_or_else(refused, |yes| usize::from(yes).to_string());
        format!("priority {priority} greedy {greedy}")
    }
}
