//! Graphs and batches to measure on, from a seed.

use crate::calls;
use crate::lent::{self, NODE_NUMBERS, UPDATES, UPDATE_NUMBERS};

/// The tables of a graph.
#[derive(Clone, PartialEq, Eq, Debug)]
pub struct Tables {
    pub n: usize,
    pub edges: Vec<u64>,
    pub nodes: Vec<u16>,
    pub keys: Vec<u32>,
}

impl Tables {
    pub fn filled(n: usize, x: u16) -> Tables {
        Tables { n, edges: vec![u64::from(x); 8 * n], nodes: vec![x; NODE_NUMBERS * n], keys: vec![u32::from(x); 2 * n] }
    }

    pub fn tied(&self, p: usize, q: usize) -> bool {
        self.edges[8 * p + q / 64] >> (q % 64) & 1 == 1
    }

    pub fn is_hidden(&self, p: usize) -> bool {
        self.nodes[NODE_NUMBERS * p + 3] == 1
    }

    pub fn class(&self, p: usize) -> u16 {
        self.nodes[NODE_NUMBERS * p + 4]
    }
}

/// Tables and a store.
#[derive(Clone, PartialEq, Eq, Debug)]
pub struct Lent {
    pub t: Tables,
    pub store: Vec<u64>,
}

impl Lent {
    pub fn filled(n: usize, x: u16) -> Lent {
        Lent { t: Tables::filled(n, x), store: vec![u64::from(x); lent::store_words(n)] }
    }

    /// The words of a place of the store.
    pub fn place(&mut self, i: usize) -> &mut [u64] {
        let words = self.store.len() / 8;
        &mut self.store[1 + i * words..][..words]
    }
}

/// Numbers from a seed (xorshift).
pub struct Random(pub u64);

impl Random {
    pub fn next(&mut self) -> u64 {
        self.0 ^= self.0 << 13;
        self.0 ^= self.0 >> 7;
        self.0 ^= self.0 << 17;
        self.0
    }

    pub fn below(&mut self, k: usize) -> usize {
        ((self.next() >> 11) % k as u64) as usize
    }
}

#[derive(Clone, Copy, PartialEq, Eq, Debug)]
pub enum Shape {
    Sparse,
    Dense,
    Twins,
    Threshold,
}

/// The edges of a random graph: degree 4 on average, half of all pairs, 16 kinds of twins, or nested neighbourhoods.
pub fn edges(shape: Shape, n: usize, random: &mut Random) -> Vec<(u16, u16)> {
    let kinds: Vec<usize> = (0..n).map(|_| random.below(16)).collect();
    let joined: Vec<bool> = (0..256).map(|_| random.below(2) == 0).collect();
    let weights: Vec<usize> = (0..n).map(|_| random.below(2 * n)).collect();
    let mut list = Vec::new();
    for p in 0..n {
        for q in p + 1..n {
            let (a, b) = (kinds[p].min(kinds[q]), kinds[p].max(kinds[q]));
            let there = match shape {
                Shape::Sparse => random.below(n) < 4,
                Shape::Dense => random.below(2) == 0,
                Shape::Twins => joined[16 * a + b],
                Shape::Threshold => weights[p] + weights[q] > 2 * n,
            };
            if there {
                list.push((p as u16, q as u16));
            }
        }
    }
    list
}

/// A class below `count` for each node.
pub fn classes(count: usize, n: usize, random: &mut Random) -> Vec<u16> {
    if count == 1 {
        return vec![0; n];
    }
    (0..n).map(|_| random.below(count) as u16).collect()
}

/// A name for each number: k and k + 10 agree in the first word.
pub fn name(k: usize) -> [u8; 16] {
    std::array::from_fn(|j| if j < 8 { k % 10 } else { k / 10 } as u8)
}

/// The library's tables of a graph, one node in `hide` hidden.
pub fn build(n: usize, edges: &[(u16, u16)], classes: &[u16], hide: usize) -> Tables {
    let Lent { mut t, mut store } = Lent::filled(n, 7);
    assert_eq!(calls::open(n, &mut t.edges, &mut t.nodes, &mut t.keys, &mut store), 0);
    let mut batch: Vec<u16> = edges.iter().flat_map(|&(u, v)| [1, u, v, 1]).collect();
    for (p, &class) in classes.iter().enumerate().filter(|(_, &class)| class != 0) {
        batch.extend([3, p as u16, class, 0]);
    }
    for p in (0..n).step_by(hide) {
        batch.extend([2, p as u16, 0, 1]);
    }
    for part in batch.chunks(UPDATE_NUMBERS * UPDATES) {
        let mut answers = vec![0; part.len() / UPDATE_NUMBERS];
        assert_eq!(calls::apply(n, &mut t.edges, &mut t.nodes, &mut t.keys, part, &mut answers), 0);
    }
    t
}

/// A batch of 4,096 that changes 2,048 edges between visible nodes and changes them back, so that the graph is the same after it.
pub fn there_and_back(t: &Tables, random: &mut Random) -> Vec<u16> {
    let mut there: Vec<Vec<bool>> = (0..t.n).map(|p| (0..t.n).map(|q| t.tied(p, q)).collect()).collect();
    let visible: Vec<usize> = (0..t.n).filter(|&p| !t.is_hidden(p)).collect();
    let mut batch = Vec::new();
    for _ in 0..UPDATES / 2 {
        let i = random.below(visible.len());
        let j = (i + 1 + random.below(visible.len() - 1)) % visible.len();
        let (p, q) = (visible[i], visible[j]);
        let wanted = !there[p][q];
        there[p][q] = wanted;
        there[q][p] = wanted;
        batch.push([1, p as u16, q as u16, u16::from(wanted)]);
    }
    let back: Vec<[u16; UPDATE_NUMBERS]> = batch.iter().rev().map(|&[kind, p, q, wanted]| [kind, p, q, 1 - wanted]).collect();
    batch.into_iter().chain(back).flatten().collect()
}

/// A batch of 4,096 that changes the class of 2,048 nodes and changes them back, so that the graph is the same after it. Classes are
/// below `count`, or below 2.
pub fn classes_and_back(t: &Tables, count: usize, random: &mut Random) -> Vec<u16> {
    let mut classes: Vec<u16> = (0..t.n).map(|p| t.class(p)).collect();
    let count = count.max(2);
    let (mut there, mut back) = (Vec::new(), Vec::new());
    for _ in 0..UPDATES / 2 {
        let p = random.below(t.n);
        let class = (usize::from(classes[p]) + 1 + random.below(count - 1)) % count;
        back.push([3, p as u16, classes[p], 0]);
        there.push([3, p as u16, class as u16, 0]);
        classes[p] = class as u16;
    }
    there.into_iter().chain(back.into_iter().rev()).flatten().collect()
}
