//! What the two stand-in modules hand out of the original's private parts.

/// A state as docs/FORMATS.md lays it out: 256 targets, the end target, accept and early.
pub struct Row {
    pub targets: [Option<usize>; 256],
    pub end: Option<usize>,
    pub accept: Option<usize>,
    pub early: Option<usize>,
}

/// What generated code does with the next byte: a state's self mask, and its forks, each with its target; no forks means a 256-entry table.
pub struct Choices {
    pub self_mask: Option<usize>,
    pub forks: Option<Vec<(usize, Fork)>>,
}

pub enum Fork {
    Mask(usize),
    /// The bytes for which the generated condition holds.
    Comparisons(Box<[bool; 256]>),
}
