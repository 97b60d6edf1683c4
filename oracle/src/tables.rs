//! Tables (docs/FORMATS.md): their words, and the conditions that refuse them.

pub mod cases;

/// A table before it is laid out in words.
#[derive(Clone)]
pub struct Table {
    /// Below the number of states, or 65,535 for none.
    pub start: u16,
    pub leaves: Vec<Leaf>,
    pub states: Vec<State>,
    /// Leaf and next; the first record has number 1.
    pub records: Vec<(u16, u16)>,
}

#[derive(Clone)]
pub struct Leaf {
    pub priority: u32,
    pub empty: bool,
}

#[derive(Clone)]
pub struct State {
    pub targets: [u16; 256],
    pub end: u16,
    pub head: u16,
}

impl State {
    pub fn dead() -> State {
        State { targets: [0; 256], end: 0, head: 0 }
    }
}

impl Table {
    pub fn words(&self) -> Vec<u16> {
        let mut words = vec![self.states.len() as u16, self.start, self.leaves.len() as u16, self.records.len() as u16];
        for leaf in &self.leaves {
            words.extend([leaf.priority as u16, (leaf.priority >> 16) as u16, u16::from(leaf.empty)]);
        }
        for state in &self.states {
            words.extend(state.targets);
            words.extend([state.end, state.head]);
        }
        for (leaf, next) in &self.records {
            words.extend([*leaf, *next]);
        }
        words
    }

    /// The head of a chain of these leaves, which ascend; its records are shared with a chain that ends alike.
    pub fn chain(&mut self, leaves: &[usize]) -> u16 {
        let mut head = 0;
        for &leaf in leaves.iter().rev() {
            let record = (leaf as u16, head);
            let found = self.records.iter().position(|&held| held == record);
            let number = found.unwrap_or_else(|| {
                self.records.push(record);
                self.records.len() - 1
            });
            head = number as u16 + 1;
        }
        head
    }
}

/// Words that have passed conditions 1 to 7, by their parts.
pub struct Legal<'a> {
    words: &'a [u16],
    pub states: usize,
    pub start: usize,
    pub leaves: usize,
}

/// The first of conditions 1 to 7 that refuses the words.
pub fn checked(words: &[u16]) -> Result<Legal<'_>, u8> {
    if words.len() < 4 {
        return Err(1);
    }
    let [states, start, leaves, records] = [0, 1, 2, 3].map(|at| usize::from(words[at]));
    let table = Legal { words, states, start, leaves };
    if !(1..=1024).contains(&states) || leaves > 255 || records > 4095 {
        return Err(2);
    }
    if words.len() != 4 + 3 * leaves + 258 * states + 2 * records {
        return Err(3);
    }
    if start >= states && start != 65_535 {
        return Err(4);
    }
    if (0..leaves).any(|leaf| table.empty_flag(leaf) > 1) {
        return Err(5);
    }
    if (0..states).any(|state| (0..257).any(|step| table.step(state, step) >= states)) {
        return Err(6);
    }
    if (0..states).any(|state| table.head(state) > records) || (1..=records).any(|record| !table.record_legal(record)) {
        return Err(7);
    }
    Ok(table)
}

impl Legal<'_> {
    fn word(&self, at: usize) -> usize {
        usize::from(self.words[at])
    }

    pub fn priority(&self, leaf: usize) -> usize {
        self.word(4 + 3 * leaf) + 65_536 * self.word(4 + 3 * leaf + 1)
    }

    pub fn empty_flag(&self, leaf: usize) -> usize {
        self.word(4 + 3 * leaf + 2)
    }

    /// The target of a byte, or of the end step as step 256.
    pub fn step(&self, state: usize, step: usize) -> usize {
        self.word(4 + 3 * self.leaves + 258 * state + step)
    }

    pub fn head(&self, state: usize) -> usize {
        self.word(4 + 3 * self.leaves + 258 * state + 257)
    }

    /// Leaf and next of a record, which are numbered from 1.
    pub fn record(&self, number: usize) -> (usize, usize) {
        let at = 4 + 3 * self.leaves + 258 * self.states + 2 * (number - 1);
        (self.word(at), self.word(at + 1))
    }

    /// A state's leaf by rule 3: the one of highest priority in its chain, none if several share it.
    pub fn leaf(&self, state: usize) -> Option<usize> {
        let mut best = None;
        let mut tied = false;
        let mut record = self.head(state);
        while record != 0 {
            let (leaf, next) = self.record(record);
            let priority = self.priority(leaf);
            match best {
                Some((_, highest)) if priority < highest => {}
                Some((_, highest)) if priority == highest => tied = true,
                _ => (best, tied) = (Some((leaf, priority)), false),
            }
            record = next;
        }
        best.filter(|_| !tied).map(|(leaf, _)| leaf)
    }

    /// The states reached from the start, which is one, by byte and end steps.
    pub fn reached(&self) -> Vec<usize> {
        let mut found = vec![false; self.states];
        found[self.start] = true;
        let mut waiting = vec![self.start];
        while let Some(state) = waiting.pop() {
            for target in (0..257).map(|step| self.step(state, step)) {
                if !found[target] {
                    found[target] = true;
                    waiting.push(target);
                }
            }
        }
        (0..self.states).filter(|&state| found[state]).collect()
    }

    /// "A record's leaf is below m, its next is below its own number, and the leaf at next is greater."
    fn record_legal(&self, number: usize) -> bool {
        let (leaf, next) = self.record(number);
        leaf < self.leaves && next < number && (next == 0 || self.record(next).0 > leaf)
    }
}
