//! The source paper's method (Algorithms 2 to 6): representatives in two hash tables, by the independent and by the clique key.

use std::collections::HashMap;
use std::hash::{BuildHasherDefault, Hasher};

/// A multiplicative hash: the keys are sums already.
#[derive(Default)]
pub struct Spread(u64);

impl Hasher for Spread {
    fn finish(&self) -> u64 {
        self.0
    }

    fn write(&mut self, _: &[u8]) {
        unreachable!()
    }

    fn write_u32(&mut self, x: u32) {
        self.0 = u64::from(x).wrapping_mul(0x9E37_79B9_7F4A_7C15).rotate_left(32);
    }
}

type Table = HashMap<u32, Vec<u16>, BuildHasherDefault<Spread>>;
type Row = [u64; 8];

pub struct Buckets {
    rows: Vec<Row>,
    next: Vec<u16>,
    previous: Vec<u16>,
    open: Vec<u32>,
    closed: Vec<u32>,
    by_open: Table,
    by_closed: Table,
    in_open: Vec<bool>,
    in_closed: Vec<bool>,
    pub groups: usize,
}

fn cube(q: u16) -> u32 {
    let x = u32::from(q) + 1;
    x * x * x
}

fn closed_row(r: &Row, p: u16) -> Row {
    let mut c = *r;
    c[usize::from(p / 64)] |= 1 << (p % 64);
    c
}

fn enter(table: &mut Table, key: u32, p: u16) {
    table.entry(key).or_default().push(p);
}

fn leave(table: &mut Table, key: u32, p: u16) {
    if let Some(list) = table.get_mut(&key) {
        list.retain(|&q| q != p);
        if list.is_empty() {
            table.remove(&key);
        }
    }
}

impl Buckets {
    pub fn new(n: u16) -> Buckets {
        let mut b = Buckets {
            rows: vec![[0; 8]; usize::from(n)],
            next: (0..n).collect(),
            previous: (0..n).collect(),
            open: vec![0; usize::from(n)],
            closed: (0..n).map(cube).collect(),
            by_open: Table::default(),
            by_closed: Table::default(),
            in_open: vec![false; usize::from(n)],
            in_closed: vec![false; usize::from(n)],
            groups: usize::from(n),
        };
        for p in 0..n {
            b.put_back(p);
        }
        b
    }

    fn enter_open(&mut self, p: u16) {
        if !self.in_open[usize::from(p)] {
            self.in_open[usize::from(p)] = true;
            enter(&mut self.by_open, self.open[usize::from(p)], p);
        }
    }

    fn enter_closed(&mut self, p: u16) {
        if !self.in_closed[usize::from(p)] {
            self.in_closed[usize::from(p)] = true;
            enter(&mut self.by_closed, self.closed[usize::from(p)], p);
        }
    }

    fn leave_open(&mut self, p: u16) -> bool {
        let was = std::mem::replace(&mut self.in_open[usize::from(p)], false);
        if was {
            leave(&mut self.by_open, self.open[usize::from(p)], p);
        }
        was
    }

    fn leave_closed(&mut self, p: u16) -> bool {
        let was = std::mem::replace(&mut self.in_closed[usize::from(p)], false);
        if was {
            leave(&mut self.by_closed, self.closed[usize::from(p)], p);
        }
        was
    }

    /// A node out of its group: another represents it, and one that is left alone stands in both tables.
    fn take_out(&mut self, a: u16) {
        let (next, previous) = (self.next[usize::from(a)], self.previous[usize::from(a)]);
        let (open, closed) = (self.leave_open(a), self.leave_closed(a));
        if next == a {
            return;
        }
        self.next[usize::from(previous)] = next;
        self.previous[usize::from(next)] = previous;
        self.next[usize::from(a)] = a;
        self.previous[usize::from(a)] = a;
        self.groups += 1;
        let alone = next == previous;
        if open || alone {
            self.enter_open(next);
        }
        if closed || alone {
            self.enter_closed(next);
        }
    }

    fn merge(&mut self, a: u16, b: u16) {
        let next = self.next[usize::from(b)];
        self.next[usize::from(b)] = a;
        self.previous[usize::from(next)] = a;
        self.next[usize::from(a)] = next;
        self.previous[usize::from(a)] = b;
        self.groups -= 1;
    }

    fn put_back(&mut self, a: u16) {
        let r = &self.rows[usize::from(a)];
        let same = |&&b: &&u16| &self.rows[usize::from(b)] == r;
        if let Some(&b) = self.by_open.get(&self.open[usize::from(a)]).and_then(|l| l.iter().find(same)) {
            self.leave_closed(b);
            self.merge(a, b);
            return;
        }
        let c = closed_row(r, a);
        let same = |&&b: &&u16| closed_row(&self.rows[usize::from(b)], b) == c;
        if let Some(&b) = self.by_closed.get(&self.closed[usize::from(a)]).and_then(|l| l.iter().find(same)) {
            self.leave_open(b);
            self.merge(a, b);
            return;
        }
        self.enter_open(a);
        self.enter_closed(a);
    }

    /// The edge between u and v as it is wanted, which it is not before.
    pub fn update(&mut self, u: u16, v: u16, wanted: u16) {
        self.take_out(u);
        self.take_out(v);
        for (p, q) in [(u, v), (v, u)] {
            self.rows[usize::from(p)][usize::from(q / 64)] ^= 1 << (q % 64);
            let x = if wanted == 1 { cube(q) } else { cube(q).wrapping_neg() };
            self.open[usize::from(p)] = self.open[usize::from(p)].wrapping_add(x);
            self.closed[usize::from(p)] = self.closed[usize::from(p)].wrapping_add(x);
        }
        self.put_back(u);
        self.put_back(v);
    }
}
