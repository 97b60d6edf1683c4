//! Graphs made for planning: so many masks, so many states, and every order of edges around a self edge.

use crate::graphs::NONE;

type Ranges = &'static [(usize, usize)];

/// The class of a self edge, which costs 1 and has a mask all the same; and for each of two other edges a class that costs 2 and one that costs 3. No
/// two of them meet.
const SELF: Ranges = &[(33, 33)];
const OTHERS: [[Ranges; 2]; 2] = [[&[(48, 57)], &[(5, 10), (12, 16)]], [&[(65, 90)], &[(100, 110), (112, 120)]]];
/// A byte of none of these.
const STRAY: u8 = 200;

fn row(marks: u16) -> Vec<u16> {
    let mut row = vec![NONE; 257];
    row.push(marks);
    row
}

fn lead(row: &mut [u16], ranges: &[(usize, usize)], target: usize) {
    for &(first, last) in ranges {
        row[first..=last].fill(target as u16);
    }
}

fn graph(root: usize, rows: &[Vec<u16>]) -> Vec<u16> {
    let mut words = vec![rows.len() as u16, root as u16];
    words.extend(rows.concat());
    words
}

/// A graph of one state for each of so many self masks, and no other edges: planning needs all of them.
pub fn needing(masks: usize) -> Vec<u16> {
    let rows = (0..masks).map(|state| {
        let mut row = row(255);
        lead(&mut row, &[(0, state)], state);
        row
    });
    graph(0, &rows.collect::<Vec<_>>())
}

/// So many states, up to 32, each with a self mask and a mask for the edge to the next.
pub fn forked(states: usize) -> Vec<u16> {
    let rows = (0..states).map(|state| {
        let mut row = row(255);
        lead(&mut row, &[(0, state)], state);
        lead(&mut row, &[(100, 101 + state), (200, 201 + state)], (state + 1) % states);
        row
    });
    graph(0, &rows.collect::<Vec<_>>())
}

/// So many states: the first leads to the last by every byte, the last to itself, and no other has an edge.
pub fn wide(states: usize) -> Vec<u16> {
    let mut rows = vec![row(65_535); states];
    lead(&mut rows[0], &[(0, 255)], states - 1);
    lead(&mut rows[states - 1], &[(0, 255)], states - 1);
    rows[states - 1][257] = 255;
    graph(0, &rows)
}

/// Three states; the root, `here`, leads to the states in `led`, to others by classes of cost 2, or 3 where the bit of `dear` is set. The next state's self
/// edge has the class that the first edge of cost 3 has. With texts that end before, in, at and after the runs of self edges.
fn around(here: usize, led: &[usize], dear: usize) -> (Vec<u16>, Vec<Vec<u8>>) {
    let (next, last) = ((here + 1) % 3, (here + 2) % 3);
    let mut rows = vec![Vec::new(); 3];
    rows[here] = row(65_280);
    rows[next] = row(255 + 256);
    rows[last] = row(65_282);
    rows[here][256] = next as u16;
    lead(&mut rows[next], OTHERS[0][1], next);
    let mut leaving = STRAY;
    for (at, &other) in led.iter().filter(|&&target| target != here).enumerate() {
        let ranges = OTHERS[at][dear >> at & 1];
        lead(&mut rows[here], ranges, other);
        leaving = ranges[0].1 as u8;
    }
    if led.contains(&here) {
        lead(&mut rows[here], SELF, here);
    }
    let own = SELF[0].0 as u8;
    let texts = vec![
        vec![],
        vec![own],
        vec![leaving],
        vec![STRAY],
        vec![own, own, own],
        vec![own, own, leaving],
        vec![own, own, STRAY],
        vec![own, leaving, 5, 16, STRAY],
        vec![leaving, 5, 16, 10],
    ];
    (graph(here, &rows), texts)
}

/// One, two and three edges, with the self edge in every place and without it, and the costs 2 and 3 of the others in every order.
pub fn all_around() -> Vec<(Vec<u16>, Vec<Vec<u8>>)> {
    let mut made = Vec::new();
    for here in 0..3 {
        for chosen in 1..8 {
            let led = (0..3).filter(|target| chosen >> target & 1 == 1).collect::<Vec<_>>();
            let others = led.iter().filter(|&&target| target != here).count();
            made.extend((0..1 << others).map(|dear| around(here, &led, dear)));
        }
    }
    made
}
