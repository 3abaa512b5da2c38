//! The calls of the library, safe to use from Rust. Link with libcapi.a, which `rt lib` in crates/capi writes to
//! crates/capi/out.

use std::fmt;

#[path = "calls.rs"]
pub mod calls;

/// At most so many nodes has a graph.
pub const NODES: usize = 512;

/// So many numbers has a node in its table.
const NODE_NUMBERS: usize = 5;

/// At most so many states has a store.
pub const STATES: usize = 8;

/// What a state is kept under.
pub type Name = [u8; 16];

/// How many words a store for n nodes has.
pub const fn store_words(n: usize) -> usize {
    1 + STATES * (3 + 9 * n)
}

/// A refused call: the number of its reason, 11 to 23.
#[derive(Clone, Copy, Debug, PartialEq, Eq)]
pub struct Refusal(pub u16);

impl fmt::Display for Refusal {
    fn fmt(&self, f: &mut fmt::Formatter) -> fmt::Result {
        let reason = match self.0 {
            11 => "too many nodes, a batch that is too long, or a store of another size",
            12 => "the tables hold no graph, or the words are no store",
            14 => "no such node",
            15 => "one node where two are asked",
            18 => "a buffer is too short",
            19 => "the bytes are no release",
            20 => "a release of another size",
            21 => "no state has the name",
            22 => "a state has the name",
            23 => "eight states are kept",
            _ => "no listed reason",
        };
        write!(f, "{} ({})", self.0, reason)
    }
}

impl std::error::Error for Refusal {}

fn done<T>(result: u16, value: T) -> Result<T, Refusal> {
    if result == 0 {
        Ok(value)
    } else {
        Err(Refusal(result))
    }
}

/// What is to hold: whether the edge between u and v is there, whether u is hidden, or which class u has.
#[derive(Clone, Copy, Debug, PartialEq, Eq)]
pub enum Update {
    Edge { u: u16, v: u16, wanted: bool },
    Mark { u: u16, wanted: bool },
    Class { u: u16, class: u8 },
}

impl Update {
    fn numbers(self) -> [u16; 4] {
        match self {
            Update::Edge { u, v, wanted } => [1, u, v, u16::from(wanted)],
            Update::Mark { u, wanted } => [2, u, 0, u16::from(wanted)],
            Update::Class { u, class } => [3, u, u16::from(class), 0],
        }
    }
}

/// What holds a group together.
#[derive(Clone, Copy, Debug, PartialEq, Eq)]
pub enum Kind {
    Singleton,
    Independent,
    Clique,
}

/// A node's group.
#[derive(Clone, Copy, Debug, PartialEq, Eq)]
pub struct Group {
    pub least: u16,
    pub kind: Kind,
    pub size: u16,
}

/// A neighbour, and the least member of its group.
#[derive(Clone, Copy, Debug, PartialEq, Eq)]
pub struct Neighbour {
    pub node: u16,
    pub least: u16,
}

/// The first pairs of a buffer.
fn pairs(out: &[u16], count: u16) -> Vec<Neighbour> {
    out.chunks_exact(2).take(usize::from(count)).map(|pair| Neighbour { node: pair[0], least: pair[1] }).collect()
}

/// The file of the visible part, and how many nodes, groups and superedges it has.
#[derive(Clone, Debug, PartialEq, Eq)]
pub struct Release {
    pub file: Vec<u8>,
    pub nodes: u16,
    pub groups: u16,
    pub superedges: u32,
}

/// A graph in its three tables.
#[derive(Clone, Debug, PartialEq, Eq)]
pub struct Index {
    n: usize,
    edges: Vec<u64>,
    nodes: Vec<u16>,
    keys: Vec<u32>,
}

/// Up to eight states of a graph, each under a name.
#[derive(Clone, Debug, PartialEq, Eq)]
pub struct Store {
    n: usize,
    words: Vec<u64>,
}

impl Store {
    /// The name struck, and its place cleared.
    pub fn drop_state(&mut self, name: &Name) -> Result<(), Refusal> {
        done(calls::drop(self.n, &mut self.words, name), ())
    }
}

impl Index {
    /// Tables for n nodes that hold nothing yet; empty ones if n is too large, which the calls then refuse.
    fn unfilled(n: usize) -> Index {
        let size = if n <= NODES { n } else { 0 };
        Index { n, edges: vec![0; 8 * size], nodes: vec![0; NODE_NUMBERS * size], keys: vec![0; 2 * size] }
    }

    /// A graph of n nodes without edges, none hidden, all of class 0, and a store for its states.
    pub fn open(n: usize) -> Result<(Index, Store), Refusal> {
        let mut t = Index::unfilled(n);
        let mut words = vec![0; store_words(n.min(NODES))];
        let result = calls::open(n, &mut t.edges, &mut t.nodes, &mut t.keys, &mut words);
        done(result, (t, Store { n, words }))
    }

    /// The graph as it is, kept under a name.
    pub fn keep(&self, store: &mut Store, name: &Name) -> Result<(), Refusal> {
        done(calls::keep(self.n, &self.edges, &self.nodes, &self.keys, &mut store.words, name), ())
    }

    /// The graph as it was when it was kept under the name.
    pub fn restore(&mut self, store: &Store, name: &Name) -> Result<(), Refusal> {
        done(calls::restore(self.n, &mut self.edges, &mut self.nodes, &mut self.keys, &store.words, name), ())
    }

    /// The graph of a release, for n nodes: nodes that it lacks are hidden, of class 0 and without edges.
    pub fn read(n: usize, file: &[u8]) -> Result<Index, Refusal> {
        let mut t = Index::unfilled(n);
        let result = calls::read(n, &mut t.edges, &mut t.nodes, &mut t.keys, file);
        done(result, t)
    }

    /// Updates in order, at most 4,096. Each answer is the number of a refusal, tested in the order 14, 15, 24 (an edge of a hidden
    /// node), 16, or how many groups more there are.
    pub fn apply(&mut self, updates: &[Update]) -> Result<Vec<i16>, Refusal> {
        let batch: Vec<u16> = updates.iter().flat_map(|u| u.numbers()).collect();
        let mut answers = vec![0; updates.len()];
        let result = calls::apply(self.n, &mut self.edges, &mut self.nodes, &mut self.keys, &batch, &mut answers);
        done(result, answers)
    }

    /// The neighbours of p, ascending, with their groups in the whole graph.
    pub fn neighbours(&self, p: u16) -> Result<Vec<Neighbour>, Refusal> {
        let mut out = [0; 2 * NODES];
        let mut count = 0;
        let result = calls::neighbours(self.n, &self.edges, &self.nodes, &self.keys, p, &mut out, &mut count);
        done(result, pairs(&out, count))
    }

    /// Whether p and q are neighbours.
    pub fn tied(&self, p: u16, q: u16) -> Result<bool, Refusal> {
        let mut yes = 0;
        let result = calls::tied(self.n, &self.edges, &self.nodes, &self.keys, p, q, &mut yes);
        done(result, yes == 1)
    }

    /// The group of p.
    pub fn group(&self, p: u16) -> Result<Group, Refusal> {
        let mut member = calls::Member::default();
        let result = calls::group(self.n, &self.edges, &self.nodes, &self.keys, p, &mut member);
        let kind = match member.kind {
            0 => Kind::Singleton,
            1 => Kind::Independent,
            _ => Kind::Clique,
        };
        done(result, Group { least: member.least, kind, size: member.size })
    }

    /// The release of the visible part.
    pub fn release(&self) -> Result<Release, Refusal> {
        let mut file = vec![0; 10 + 8 * self.n + 3 * self.n * self.n.saturating_sub(1)];
        let mut counts = calls::Counts::default();
        let result = calls::release(self.n, &self.edges, &self.nodes, &self.keys, &mut file, &mut counts);
        file.truncate(counts.bytes as usize);
        done(result, Release { file, nodes: counts.nodes, groups: counts.groups, superedges: counts.superedges })
    }
}

/// The neighbours of p, asked of a release, ascending, with their groups there.
pub fn file_neighbours(file: &[u8], p: u16) -> Result<Vec<Neighbour>, Refusal> {
    let mut out = [0; 2 * NODES];
    let mut count = 0;
    let result = calls::file_neighbours(file, p, &mut out, &mut count);
    done(result, pairs(&out, count))
}

/// How many edges separate p and q, asked of a release. None if no chain of edges does.
pub fn file_distance(file: &[u8], p: u16, q: u16) -> Result<Option<u16>, Refusal> {
    let mut distance = 0;
    let result = calls::file_distance(file, p, q, &mut distance);
    done(result, (distance != u16::MAX).then_some(distance))
}
