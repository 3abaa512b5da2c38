//! The same calls on lent tables in Rust, written for speed from documents 01 and 02. It shares nothing with the library.

use crate::calls::{Counts, Member};

pub const NODES: usize = 512;
/// The most updates of a batch.
pub const UPDATES: usize = 4096;
/// The numbers of an update: kind, u, v, wanted.
pub const UPDATE_NUMBERS: usize = 4;
/// The numbers of a node: the least member of its group, the next, the previous, the mark, the class.
pub const NODE_NUMBERS: usize = 5;
/// A class is below.
pub const CLASSES: u16 = 256;
const NONE: u16 = u16::MAX;

type Row = [u64; 8];
type Node = [u16; NODE_NUMBERS];

const LEAST: usize = 0;
const NEXT: usize = 1;
const PREVIOUS: usize = 2;
const MARK: usize = 3;
const CLASS: usize = 4;

fn row(edges: &[u64], p: usize) -> &Row {
    edges[8 * p..8 * p + 8].try_into().unwrap()
}

fn bit(q: usize) -> u64 {
    1 << (q % 64)
}

fn has(row: &Row, q: usize) -> bool {
    row[q / 64] & bit(q) != 0
}

const fn cube(q: usize) -> u32 {
    let x = q as u32 + 1;
    x * x * x
}

/// For each byte of a row, the cubes' sum of each of its values.
static BYTE_SUMS: [[u32; 256]; 64] = {
    let mut sums = [[0; 256]; 64];
    let mut b = 0;
    while b < 64 {
        let mut x = 1;
        while x < 256 {
            let low = (x as u32).trailing_zeros() as usize;
            sums[b][x] = sums[b][x & (x - 1)] + cube(8 * b + low);
            x += 1;
        }
        b += 1;
    }
    sums
};

fn key_of(row: &Row) -> u32 {
    let ones: u32 = row.iter().map(|w| w.count_ones()).sum();
    let mut sum = 0u32;
    if ones > 24 {
        for (w, &x) in row.iter().enumerate() {
            for (b, &byte) in x.to_le_bytes().iter().enumerate() {
                sum = sum.wrapping_add(BYTE_SUMS[8 * w + b][usize::from(byte)]);
            }
        }
    } else {
        each_bit(row, |q| sum = sum.wrapping_add(cube(q)));
    }
    sum
}

fn each_bit(row: &Row, mut f: impl FnMut(usize)) {
    for (w, &x) in row.iter().enumerate() {
        let mut x = x;
        while x != 0 {
            f(64 * w + x.trailing_zeros() as usize);
            x &= x - 1;
        }
    }
}

fn closed_twins(a: &Row, p: usize, b: &Row, q: usize) -> bool {
    let mut d = *a;
    for (x, y) in d.iter_mut().zip(b) {
        *x ^= y;
    }
    d[p / 64 % 8] ^= bit(p);
    d[q / 64 % 8] ^= bit(q);
    d.iter().fold(0, |all, x| all | x) == 0
}

fn below(n: usize) -> Row {
    let mut r = [0; 8];
    for (w, x) in r.iter_mut().enumerate() {
        *x = match n.saturating_sub(64 * w) {
            0 => 0,
            k if k >= 64 => u64::MAX,
            k => (1 << k) - 1,
        };
    }
    r
}

/// Bits exchanged between rows that are J apart.
fn exchange<const J: usize>(a: &mut [u64; 64], m: u64) {
    for k in (0..64).step_by(2 * J) {
        for i in k..k + J {
            let t = ((a[i] >> J) ^ a[i + J]) & m;
            a[i] ^= t << J;
            a[i + J] ^= t;
        }
    }
}

fn transpose(a: &mut [u64; 64]) {
    exchange::<32>(a, 0x0000_0000_FFFF_FFFF);
    exchange::<16>(a, 0x0000_FFFF_0000_FFFF);
    exchange::<8>(a, 0x00FF_00FF_00FF_00FF);
    exchange::<4>(a, 0x0F0F_0F0F_0F0F_0F0F);
    exchange::<2>(a, 0x3333_3333_3333_3333);
    exchange::<1>(a, 0x5555_5555_5555_5555);
}

fn block(rows: &[Row], i: usize, j: usize) -> [u64; 64] {
    let mut a = [0; 64];
    for (x, r) in a.iter_mut().zip(&rows[64 * i..]) {
        *x = r[j % 8];
    }
    a
}

/// Bits exchanged between two rows that are J apart.
fn cross<const J: usize>(x: u64, y: u64, m: u64) -> (u64, u64) {
    let t = ((x >> J) ^ y) & m;
    (x ^ (t << J), y ^ t)
}

/// Byte i of row j for byte j of row i, of eight rows.
#[inline(always)]
fn turn_bytes([a, b, c, d, e, f, g, h]: Row) -> Row {
    const M: [u64; 3] = [0x0000_0000_FFFF_FFFF, 0x0000_FFFF_0000_FFFF, 0x00FF_00FF_00FF_00FF];
    let ((a, e), (b, f), (c, g), (d, h)) = (cross::<32>(a, e, M[0]), cross::<32>(b, f, M[0]), cross::<32>(c, g, M[0]), cross::<32>(d, h, M[0]));
    let ((a, c), (b, d), (e, g), (f, h)) = (cross::<16>(a, c, M[1]), cross::<16>(b, d, M[1]), cross::<16>(e, g, M[1]), cross::<16>(f, h, M[1]));
    let ((a, b), (c, d), (e, f), (g, h)) = (cross::<8>(a, b, M[2]), cross::<8>(c, d, M[2]), cross::<8>(e, f, M[2]), cross::<8>(g, h, M[2]));
    [a, b, c, d, e, f, g, h]
}

/// In each byte, bit i of row j for bit j of row i.
#[inline(always)]
fn turn_bits([a, b, c, d, e, f, g, h]: Row) -> Row {
    const M: [u64; 3] = [0x0F0F_0F0F_0F0F_0F0F, 0x3333_3333_3333_3333, 0x5555_5555_5555_5555];
    let ((a, e), (b, f), (c, g), (d, h)) = (cross::<4>(a, e, M[0]), cross::<4>(b, f, M[0]), cross::<4>(c, g, M[0]), cross::<4>(d, h, M[0]));
    let ((a, c), (b, d), (e, g), (f, h)) = (cross::<2>(a, c, M[1]), cross::<2>(b, d, M[1]), cross::<2>(e, g, M[1]), cross::<2>(f, h, M[1]));
    let ((a, b), (c, d), (e, f), (g, h)) = (cross::<1>(a, b, M[2]), cross::<1>(c, d, M[2]), cross::<1>(e, f, M[2]), cross::<1>(g, h, M[2]));
    [a, b, c, d, e, f, g, h]
}

/// The words from..to of a strip of 64 rows, transposed. Eight reads and writes are written out: then the loops are compiled to vectors.
fn turn(strip: &[u64; 512], out: &mut [u64; 512], from: usize, to: usize) {
    let to = to.min(8);
    for k in 0..8 {
        for t in 8 * k + from..8 * k + to {
            let x = turn_bytes([strip[t], strip[t + 64], strip[t + 128], strip[t + 192], strip[t + 256], strip[t + 320], strip[t + 384], strip[t + 448]]);
            [out[t], out[t + 64], out[t + 128], out[t + 192], out[t + 256], out[t + 320], out[t + 384], out[t + 448]] = x;
        }
    }
    for k in 0..8 {
        for t in 64 * k + from..64 * k + to {
            let x = turn_bits([out[t], out[t + 8], out[t + 16], out[t + 24], out[t + 32], out[t + 40], out[t + 48], out[t + 56]]);
            [out[t], out[t + 8], out[t + 16], out[t + 24], out[t + 32], out[t + 40], out[t + 48], out[t + 56]] = x;
        }
    }
}

fn turn_strip(rows: &[Row], i: usize, out: &mut [u64; 512], to: usize) {
    if let Some(strip) = rows.get(64 * i..64 * i + 64) {
        return turn(strip.as_flattened().try_into().unwrap(), out, i & !1, to);
    }
    let mut strip = [[0; 8]; 64];
    strip[..rows.len() - 64 * i].copy_from_slice(&rows[64 * i..]);
    turn(strip.as_flattened().try_into().unwrap(), out, i & !1, to);
}

fn symmetric(rows: &[Row]) -> bool {
    if rows.len() <= 64 {
        let mut a = block(rows, 0, 0);
        transpose(&mut a);
        return rows.iter().zip(a).fold(0, |d, (r, x)| d | (r[0] ^ x)) == 0;
    }
    let strips = rows.len().div_ceil(64);
    let mut out = [0; 512];
    (0..strips).all(|i| {
        turn_strip(rows, i, &mut out, (strips + 1) & !1);
        (i..strips).all(|j| rows[64 * j..].iter().zip(out.as_chunks::<8>().0).fold(0, |d, (r, x)| d | (r[i % 8] ^ x[j % 8])) == 0)
    })
}

const ODD: Row = [
    0x9E37_79B9_7F4A_7C15, 0xBF58_476D_1CE4_E5B9, 0x94D0_49BB_1331_11EB, 0xD6E8_FEB8_6659_FD93,
    0xA076_1D64_78BD_642F, 0xE703_7ED1_A0B4_28DB, 0x8EBC_6AF0_9C88_C6E3, 0x5895_65F3_7B2A_4C1D,
];

fn sized(n: usize, e: &[u64], v: &[u16], k: &[u32]) -> bool {
    n <= NODES && e.len() == 8 * n && v.len() == NODE_NUMBERS * n && k.len() == 2 * n
}

/// Each member's previous one is of its group and its class, less unless the member is the least, and has it as its next.
fn rings_hold(nodes: &[Node]) -> bool {
    nodes.iter().enumerate().all(|(p, &[least, _, previous, mark, class])| {
        let (l, q) = (usize::from(least), usize::from(previous));
        let leads = l == p;
        let fits = mark <= 1 && class < CLASSES;
        q < nodes.len() && fits && (leads || q < p) && nodes[q][LEAST] == least && usize::from(nodes[q][NEXT]) == p && nodes[q][CLASS] == class
    })
}

/// A key or a hash, moved by the class: twins of two classes seldom meet.
fn classed(key: u32, class: u16) -> u32 {
    key.wrapping_add(u32::from(class).wrapping_mul(0x85EB_CA6B))
}

fn equal(a: &Row, b: &Row) -> bool {
    a.iter().zip(b).fold(0, |d, (x, y)| d | (x ^ y)) == 0
}

/// Whether a row is another but for one bit.
fn equal_but(a: &Row, b: &Row, p: usize) -> bool {
    let own = |w: usize| if w == p / 64 { bit(p) } else { 0 };
    (0..8).fold(0, |d, w| d | (a[w] ^ b[w] ^ own(w))) == 0
}

/// The group that l leads: whether the other members' rows and keys follow from l's. All members.
fn followers_hold(rows: &[Row], nodes: &[Node], keys: &[[u32; 2]], l: usize) -> Option<Row> {
    let mut members = [0; 8];
    members[l / 64 % 8] |= bit(l);
    let second = usize::from(nodes[l][NEXT]);
    let clique = has(&rows[l], second);
    let mut shared = rows[l];
    shared[l / 64 % 8] |= if clique { bit(l) } else { 0 };
    let mut p = second;
    while p != l {
        let twins = if clique { equal_but(&rows[p], &shared, p) } else { equal(&rows[p], &shared) && !has(&shared, p) };
        if !twins || keys[p][usize::from(clique)] != keys[l][usize::from(clique)] {
            return None;
        }
        members[p / 64 % 8] |= bit(p);
        p = usize::from(nodes[p][NEXT]);
    }
    Some(members)
}

/// Few groups: whether each leader's row is made of whole groups, the other way round too, and has the right key.
fn leaders_hold(rows: &[Row], keys: &[[u32; 2]], leaders: &[u16], groups: &[Row]) -> bool {
    leaders.iter().zip(groups).all(|(&l, own)| {
        let l = usize::from(l);
        let r = &rows[l];
        let mut whole = *own;
        let inside = (0..8).any(|w| r[w] & own[w] != 0);
        whole.iter_mut().for_each(|x| *x &= if inside { u64::MAX } else { 0 });
        whole[l / 64 % 8] &= !bit(l);
        let mut even = true;
        for (&q, group) in leaders.iter().zip(groups) {
            let q = usize::from(q);
            let tied = has(r, q);
            even &= tied == has(&rows[q], l);
            let all = if tied { u64::MAX } else { 0 };
            whole.iter_mut().zip(group).for_each(|(x, y)| *x |= y & all);
        }
        even && whole == *r && keys[l][0] == key_of(r)
    })
}

/// Whether no row has a bit at its own node or beyond all nodes.
fn rows_fit(rows: &[Row]) -> bool {
    let all = below(rows.len());
    rows.iter().enumerate().all(|(p, r)| !has(r, p) && r.iter().zip(&all).fold(0, |d, (x, m)| d | (x & !m)) == 0)
}

/// Few edges: whether each goes both ways. The open keys.
fn walk(rows: &[Row], sums: &mut [u32; NODES]) -> bool {
    for (p, (r, sum)) in rows.iter().zip(sums).enumerate() {
        let mine = bit(p);
        for (w, &x) in r.iter().enumerate() {
            let mut x = x;
            while x != 0 {
                let q = 64 * w + x.trailing_zeros() as usize;
                if rows[q][p / 64 % 8] & mine == 0 {
                    return false;
                }
                *sum = sum.wrapping_add(cube(q));
                x &= x - 1;
            }
        }
    }
    true
}

/// Whether some rows, far apart, have few bits.
fn seem_sparse(rows: &[Row]) -> bool {
    let some = rows.iter().step_by(1 + rows.len() / 16);
    let count = some.clone().count();
    some.flatten().map(|x| x.count_ones() as usize).sum::<usize>() <= 16 * count
}

/// Many groups: whether all edges go both ways and the leaders' keys are right.
fn rows_hold(rows: &[Row], keys: &[[u32; 2]], leaders: &[u16]) -> bool {
    let mut sums = [0; NODES];
    if !rows_fit(rows) {
        return false;
    }
    if rows.len() > 64 && seem_sparse(rows) {
        if !walk(rows, &mut sums) {
            return false;
        }
    } else {
        if !symmetric(rows) {
            return false;
        }
        sum_rows(rows, rows.len().div_ceil(64), &mut sums);
    }
    leaders.iter().all(|&l| keys[usize::from(l)][0] == sums[usize::from(l)])
}

/// Whether no two leaders are twins of one class.
fn leaders_differ(rows: &[Row], nodes: &[Node], keys: &[[u32; 2]], leaders: &[u16]) -> bool {
    let (mut open, mut closed) = ([0; NODES], [0; NODES]);
    for (i, &p) in leaders.iter().enumerate().take(NODES) {
        let class = nodes[usize::from(p)][CLASS];
        [open[i], closed[i]] = keys[usize::from(p)].map(|key| classed(key, class));
    }
    let (mut met_open, mut met_closed) = (Met::new(), Met::new());
    (0..leaders.len()).all(|i| {
        let p = usize::from(leaders[i]);
        let leader = |j: usize| usize::from(leaders[j]);
        let alike = |j: usize| nodes[leader(j)][CLASS] == nodes[p][CLASS];
        let open_twin = |j: usize| alike(j) && equal(&rows[leader(j)], &rows[p]);
        let closed_twin = |j: usize| alike(j) && closed_twins(&rows[leader(j)], leader(j), &rows[p], p);
        !(met_open.meets(open[i]) && meets_twin(&open, i, open_twin)) && !(met_closed.meets(closed[i]) && meets_twin(&closed, i, closed_twin))
    })
}

/// Whether one before the i-th has its hash and is its twin.
#[cold]
fn meets_twin(hashes: &[u32], i: usize, twin: impl Fn(usize) -> bool) -> bool {
    hashes[..i].contains(&hashes[i]) && (0..i).any(|j| hashes[j] == hashes[i] && twin(j))
}

pub fn holds(e: &[u64], v: &[u16], k: &[u32], n: usize) -> bool {
    let (rows, nodes, keys) = (&e.as_chunks().0[..n], &v.as_chunks().0[..n], &k.as_chunks().0[..n]);
    if !rings_hold(nodes) || (0..n).any(|p| keys[p][1] != keys[p][0].wrapping_add(cube(p))) {
        return false;
    }
    let mut leaders = [0; NODES];
    let mut g = 0;
    for (p, node) in nodes.iter().enumerate() {
        leaders[g] = p as u16;
        g += usize::from(usize::from(node[LEAST]) == p);
    }
    let leaders = &leaders[..g];
    let few = 8 * g <= n;
    let mut groups = Vec::with_capacity(if few { g } else { 0 });
    for &l in leaders {
        if few || nodes[usize::from(l)][NEXT] != l {
            let Some(members) = followers_hold(rows, nodes, keys, usize::from(l)) else {
                return false;
            };
            if few {
                groups.push(members);
            }
        }
    }
    (if few { leaders_hold(rows, keys, leaders, &groups) } else { rows_hold(rows, keys, leaders) }) && leaders_differ(rows, nodes, keys, leaders)
}

fn refusal(n: usize, e: &[u64], v: &[u16], k: &[u32]) -> u16 {
    if !sized(n, e, v, k) {
        11
    } else if !holds(e, v, k, n) {
        12
    } else {
        0
    }
}

pub fn open(n: usize, e: &mut [u64], v: &mut [u16], k: &mut [u32], store: &mut [u64]) -> u16 {
    if !sized(n, e, v, k) || store.len() != store_words(n) {
        return 11;
    }
    store.fill(0);
    store[0] = n as u64 + 1;
    e.fill(0);
    for (p, node) in v.as_chunks_mut().0.iter_mut().enumerate() {
        *node = [0, ((p + 1) % n) as u16, ((p + n - 1) % n) as u16, 0, 0];
        k[2 * p] = 0;
        k[2 * p + 1] = cube(p);
    }
    0
}

fn take_out(v: &mut [Node], u: usize) -> i16 {
    let [l, next, prev, ..] = v[u].map(usize::from);
    if next == u {
        return 0;
    }
    v[prev][NEXT] = next as u16;
    v[next][PREVIOUS] = prev as u16;
    if l == u {
        rename(v, next, next);
    }
    v[u][..MARK].fill(u as u16);
    1
}

fn rename(v: &mut [Node], from: usize, least: usize) {
    let mut q = from;
    loop {
        v[q][LEAST] = least as u16;
        q = usize::from(v[q][NEXT]);
        if q == from {
            return;
        }
    }
}

fn joined(e: &[u64], v: &[Node], k: &[u32], u: usize, w: usize, q: usize) -> bool {
    if q == u || q == w || usize::from(v[q][LEAST]) != q || v[q][CLASS] != v[u][CLASS] {
        return false;
    }
    (k[2 * q] == k[2 * u] && row(e, q) == row(e, u)) || (k[2 * q + 1] == k[2 * u + 1] && closed_twins(row(e, q), q, row(e, u), u))
}

fn find(e: &[u64], v: &[Node], k: &[u32], n: usize, u: usize, w: usize) -> Option<usize> {
    let (o, c) = (k[2 * u], k[2 * u + 1]);
    let (chunks, rest) = k[..2 * n].as_chunks::<32>();
    for (i, chunk) in chunks.iter().enumerate() {
        let mut hit = false;
        for pair in chunk.chunks_exact(2) {
            hit |= (pair[0] == o) | (pair[1] == c);
        }
        if hit {
            let alike = |&q: &usize| (chunk[2 * (q % 16)] == o) | (chunk[2 * (q % 16) + 1] == c);
            if let Some(q) = (16 * i..16 * i + 16).filter(alike).find(|&q| joined(e, v, k, u, w, q)) {
                return Some(q);
            }
        }
    }
    (n - rest.len() / 2..n).find(|&q| joined(e, v, k, u, w, q))
}

fn put_back(e: &[u64], v: &mut [Node], k: &[u32], n: usize, u: usize, w: usize) -> i16 {
    let Some(g) = find(e, v, k, n, u, w) else {
        return 0;
    };
    let mut after = usize::from(v[g][PREVIOUS]);
    if u > g {
        after = g;
        loop {
            let next = usize::from(v[after][NEXT]);
            if next > u || next == g {
                break;
            }
            after = next;
        }
    }
    let next = usize::from(v[after][NEXT]);
    v[after][NEXT] = u as u16;
    v[next][PREVIOUS] = u as u16;
    v[u][NEXT] = next as u16;
    v[u][PREVIOUS] = after as u16;
    if u < g {
        rename(v, u, u);
    } else {
        v[u][LEAST] = g as u16;
    }
    -1
}

fn change(e: &mut [u64], v: &mut [Node], k: &mut [u32], n: usize, u: usize, w: usize, wanted: u16) -> i16 {
    let mut more = take_out(v, u) + take_out(v, w);
    e[8 * u + w / 64] ^= bit(w);
    e[8 * w + u / 64] ^= bit(u);
    for (p, q) in [(u, w), (w, u)] {
        let x = if wanted == 1 { cube(q) } else { cube(q).wrapping_neg() };
        k[2 * p] = k[2 * p].wrapping_add(x);
        k[2 * p + 1] = k[2 * p + 1].wrapping_add(x);
    }
    more += put_back(e, v, k, n, u.min(w), u.max(w));
    more + put_back(e, v, k, n, u.max(w), u.max(w))
}

fn reclass(e: &[u64], v: &mut [Node], k: &[u32], n: usize, u: usize, class: u16) -> i16 {
    let more = take_out(v, u);
    v[u][CLASS] = class;
    more + put_back(e, v, k, n, u, u)
}

fn update(e: &mut [u64], v: &mut [Node], k: &mut [u32], n: usize, &[kind, u, w, wanted]: &[u16; UPDATE_NUMBERS]) -> i16 {
    let (p, q) = (usize::from(u), usize::from(w));
    let (beyond, unfit) = match kind {
        1 => (p >= n || q >= n, p == q || wanted > 1),
        2 => (p >= n, q != 0 || wanted > 1),
        3 => (p >= n, w >= CLASSES || wanted != 0),
        _ => return 13,
    };
    if beyond {
        return 14;
    }
    if unfit {
        return 15;
    }
    if kind == 1 && v[p][MARK] | v[q][MARK] == 1 {
        return 24;
    }
    let there = match kind {
        1 => u16::from(has(row(e, p), q)) == wanted,
        2 => v[p][MARK] == wanted,
        _ => v[p][CLASS] == w,
    };
    if there {
        return 16;
    }
    match kind {
        1 => return change(e, v, k, n, p, q, wanted),
        2 => v[p][MARK] = wanted,
        _ => return reclass(e, v, k, n, p, w),
    }
    0
}

pub fn apply(n: usize, e: &mut [u64], v: &mut [u16], k: &mut [u32], batch: &[u16], answers: &mut [i16]) -> u16 {
    if !sized(n, e, v, k) || batch.len() % UPDATE_NUMBERS != 0 || batch.len() > UPDATE_NUMBERS * UPDATES {
        return 11;
    }
    if !holds(e, v, k, n) {
        return 12;
    }
    if answers.len() < batch.len() / UPDATE_NUMBERS {
        return 18;
    }
    let nodes = &mut v.as_chunks_mut().0[..n];
    for (four, answer) in batch.as_chunks().0.iter().zip(answers) {
        *answer = update(e, nodes, k, n, four);
    }
    0
}

/// The nodes of a row, each followed by the least member of its group.
fn list(r: &Row, least: impl Fn(usize) -> u16, out: &mut [u16], count: &mut u16) -> u16 {
    let ones: usize = r.iter().map(|x| x.count_ones() as usize).sum();
    if out.len() < 2 * ones {
        return 18;
    }
    let mut pairs = out.as_chunks_mut().0.iter_mut();
    each_bit(r, |q| {
        if let Some(pair) = pairs.next() {
            *pair = [q as u16, least(q)];
        }
    });
    *count = ones as u16;
    0
}

pub fn neighbours(n: usize, e: &[u64], v: &[u16], k: &[u32], p: u16, out: &mut [u16], count: &mut u16) -> u16 {
    *count = 0;
    let result = refusal(n, e, v, k);
    if result != 0 {
        return result;
    }
    if usize::from(p) >= n {
        return 14;
    }
    list(row(e, usize::from(p)), |q| v[NODE_NUMBERS * q], out, count)
}

pub fn tied(n: usize, e: &[u64], v: &[u16], k: &[u32], p: u16, q: u16, yes: &mut u16) -> u16 {
    *yes = 0;
    let result = refusal(n, e, v, k);
    if result != 0 {
        return result;
    }
    if usize::from(p) >= n || usize::from(q) >= n {
        return 14;
    }
    if p == q {
        return 15;
    }
    *yes = u16::from(has(row(e, usize::from(p)), usize::from(q)));
    0
}

pub fn group(n: usize, e: &[u64], v: &[u16], k: &[u32], p: u16, member: &mut Member) -> u16 {
    *member = Member::default();
    let result = refusal(n, e, v, k);
    if result != 0 {
        return result;
    }
    if usize::from(p) >= n {
        return 14;
    }
    let nodes: &[Node] = v.as_chunks().0;
    let l = nodes[usize::from(p)][LEAST];
    let mut size = 1;
    let mut q = nodes[usize::from(l)][NEXT];
    while q != l {
        size += 1;
        q = nodes[usize::from(q)][NEXT];
    }
    let second = usize::from(nodes[usize::from(l)][NEXT]);
    let kind = if size == 1 { 0 } else { 1 + u16::from(has(row(e, usize::from(l)), second)) };
    *member = Member { least: l, kind, size };
    0
}

/// Groups chained by hashes of their open and of their closed rows.
struct Slots {
    open: [u16; 1024],
    closed: [u16; 1024],
    open_next: [u16; NODES],
    closed_next: [u16; NODES],
}

/// The groups of the visible nodes by position, rows without hidden nodes.
struct Shown {
    words: usize,
    m: usize,
    visible: Row,
    /// The position of each node's group.
    group: [u16; NODES],
    leaders: Vec<u16>,
    classes: Vec<u16>,
    rows: Vec<Row>,
    leads: Row,
    sizes: [u16; NODES],
    slots: Slots,
}

impl Shown {
    fn new(rows: &[Row], nodes: &[Node]) -> Shown {
        let slots = Slots { open: [NONE; 1024], closed: [NONE; 1024], open_next: [NONE; NODES], closed_next: [NONE; NODES] };
        let room = nodes.len();
        let mut shown = Shown {
            words: nodes.len().div_ceil(64),
            m: 0,
            visible: [0; 8],
            group: [NONE; NODES],
            leaders: Vec::with_capacity(room),
            classes: Vec::with_capacity(room),
            rows: Vec::with_capacity(room),
            leads: [0; 8],
            sizes: [0; NODES],
            slots,
        };
        for (x, part) in shown.visible.iter_mut().zip(nodes.chunks(64)) {
            *x = part.iter().rev().fold(0, |x, node| x << 1 | u64::from(node[MARK] == 0));
        }
        let visible = shown.visible;
        let mut known = [NONE; NODES];
        each_bit(&visible, |p| {
            let l = usize::from(nodes[p][LEAST]) % NODES;
            if known[l] == NONE {
                known[l] = shown.group_of(&rows[p], p, nodes[p][CLASS]);
            }
            shown.group[p] = known[l];
            shown.sizes[usize::from(known[l]) % NODES] += 1;
            shown.m += 1;
        });
        shown
    }

    /// The group of a node that has no twin before it in the whole graph: that of another visible twin, or a new one.
    fn group_of(&mut self, row: &Row, p: usize, class: u16) -> u16 {
        let mut r = *row;
        r.iter_mut().zip(&self.visible).for_each(|(x, v)| *x &= v);
        let (h, c) = hashes(&r, p);
        let (h, c) = (classed(h, class) as usize >> 22, classed(c, class) as usize >> 22);
        let mut i = self.slots.open[h];
        while i != NONE {
            if self.classes[usize::from(i)] == class && equal(&self.rows[usize::from(i)], &r) {
                return i;
            }
            i = self.slots.open_next[usize::from(i)];
        }
        i = self.slots.closed[c];
        while i != NONE {
            let q = usize::from(self.leaders[usize::from(i)]);
            if self.classes[usize::from(i)] == class && closed_twins(&self.rows[usize::from(i)], q, &r, p) {
                return i;
            }
            i = self.slots.closed_next[usize::from(i)];
        }
        let g = self.rows.len();
        self.slots.open_next[g] = self.slots.open[h];
        self.slots.closed_next[g] = self.slots.closed[c];
        self.slots.open[h] = g as u16;
        self.slots.closed[c] = g as u16;
        self.rows.push(r);
        self.leaders.push(p as u16);
        self.classes.push(class);
        self.leads[p / 64 % 8] |= bit(p);
        g as u16
    }

    /// How many superedges there are.
    fn superedges(&self) -> usize {
        let ones = |r: &Row| r.iter().zip(&self.leads).map(|(x, l)| (x & l).count_ones() as usize).sum::<usize>();
        self.rows.iter().map(ones).sum::<usize>() / 2
    }

    /// The leaders after its own in the row of a group.
    fn later(&self, i: usize) -> Row {
        let p = usize::from(self.leaders[i]);
        let mut r = [0; 8];
        for w in p / 64..self.words.min(8) {
            r[w] = self.rows[i][w] & self.leads[w];
        }
        r[p / 64 % 8] &= u64::MAX << (p % 64);
        r
    }

    /// The groups' records.
    fn put_groups(&self, out: &mut [u8]) {
        let mut places = [0; NODES];
        let mut at = 0;
        for (i, place) in places.iter_mut().enumerate().take(self.rows.len()) {
            out[at..at + 6].copy_from_slice(&record_bytes(u32::from(INDEPENDENT) | u32::from(self.sizes[i]) << 16, self.classes[i]));
            *place = at + 6;
            at += 6 + 2 * usize::from(self.sizes[i]);
        }
        each_bit(&self.visible, |p| {
            let place = &mut places[usize::from(self.group[p]) % NODES];
            out[*place..*place + 2].copy_from_slice(&(p as u16).to_le_bytes());
            *place += 2;
        });
    }

    /// Marks of cliques: groups whose leader is tied to its second member.
    fn mark_cliques(&self, out: &mut [u8]) {
        let mut at = 0;
        for (i, r) in self.rows.iter().enumerate() {
            let size = usize::from(self.sizes[i]);
            if size > 1 && has(r, number(out, at + 8)) {
                out[at..at + 2].copy_from_slice(&CLIQUE.to_le_bytes());
            }
            at += 6 + 2 * size;
        }
    }

    /// The superedges' records, one by one.
    fn put_superedges(&self, out: &mut [u8]) {
        let mut records = out.as_chunks_mut::<6>().0.iter_mut();
        for i in 0..self.rows.len() {
            let lead = u32::from(JOIN) | (i as u32) << 16;
            each_bit(&self.later(i), |q| {
                if let Some(record) = records.next() {
                    *record = record_bytes(lead, self.group[q]);
                }
            });
        }
    }

    /// The same, eight nodes at a time: eight records are written, and those too many written over.
    fn put_many_superedges(&self, out: &mut [u8]) {
        let leads: [u8; 64] = self.leads.map(u64::to_le_bytes).as_flattened().try_into().unwrap();
        let mut columns = [(&PACKED[0], [0; 24]); 64];
        let mut base = 0;
        for (column, &l) in columns.iter_mut().zip(&leads) {
            *column = (&PACKED[usize::from(l)], eight([0, 0, base]));
            base += u16::from(ONES[usize::from(l)]);
        }
        let mut at = 0;
        for i in 0..self.rows.len() {
            let p = usize::from(self.leaders[i]);
            let mut bytes = self.rows[i].map(u64::to_le_bytes);
            let later = &mut bytes.as_flattened_mut()[p / 8..8 * self.words];
            later[0] &= u8::MAX << (p % 8);
            at = put_row(out, at, &eight([JOIN, i as u16, 0]), later, &columns[p / 8..8 * self.words]);
        }
    }
}

/// The superedges that the bytes of a row tell. The place after them.
#[inline(never)]
fn put_row(out: &mut [u8], from: usize, lead: &[u16; 24], bytes: &[u8], columns: &[(&[u8; 256], [u16; 24])]) -> usize {
    let mut at = from;
    for (&x, (packed, base)) in bytes.iter().zip(columns) {
        let x = usize::from(packed[usize::from(x)]);
        let length = 6 * usize::from(ONES[x]);
        if let Some(records) = out[at..].first_chunk_mut() {
            put_sum(records, lead, base, &PLACES[x]);
        } else {
            let mut records = [0; 48];
            put_sum(&mut records, lead, base, &PLACES[x]);
            out[at..at + length].copy_from_slice(&records[..length]);
        }
        at += length;
    }
    at
}

/// The same three numbers in eight records.
fn eight(numbers: [u16; 3]) -> [u16; 24] {
    std::array::from_fn(|k| numbers[k % 3])
}

/// The bytes of eight records, number by number a sum.
#[inline(always)]
fn put_sum(bytes: &mut [u8; 48], a: &[u16; 24], b: &[u16; 24], c: &[u16; 24]) {
    for (k, two) in bytes.as_chunks_mut::<2>().0.iter_mut().enumerate() {
        *two = (a[k] | b[k]).wrapping_add(c[k]).to_le_bytes();
    }
}

/// A mark with a number, and another number.
fn record_bytes(lead: u32, last: u16) -> [u8; 6] {
    let [a, b, c, d] = lead.to_le_bytes();
    let [e, f] = last.to_le_bytes();
    [a, b, c, d, e, f]
}

/// How many ones a byte has.
static ONES: [u8; 256] = {
    let mut ones = [0; 256];
    let mut x = 0;
    while x < 256 {
        ones[x] = x.count_ones() as u8;
        x += 1;
    }
    ones
};

/// For each mask, the bits of a byte at the mask's ones, moved together.
static PACKED: [[u8; 256]; 256] = {
    let mut packed = [[0; 256]; 256];
    let mut m = 1;
    while m < 256 {
        let mut x = 0;
        while x < 256 {
            packed[m][x] = packed[m & (m - 1)][x] << 1 | (x >> m.trailing_zeros() & 1) as u8;
            x += 1;
        }
        m += 1;
    }
    packed
};

/// For each byte the places of its ones, as the last number of each of eight records.
static PLACES: [[u16; 24]; 256] = {
    let mut places = [[0; 24]; 256];
    let mut x = 1;
    while x < 256 {
        let (mut rest, mut k) = (x, 0);
        while rest != 0 {
            places[x][3 * k + 2] = rest.trailing_zeros() as u16;
            rest &= rest - 1;
            k += 1;
        }
        x += 1;
    }
    places
};

pub fn release(n: usize, e: &[u64], v: &[u16], k: &[u32], out: &mut [u8], counts: &mut Counts) -> u16 {
    *counts = Counts::default();
    let result = refusal(n, e, v, k);
    if result != 0 {
        return result;
    }
    let (rows, nodes) = (e.as_chunks().0, v.as_chunks().0);
    let shown = Shown::new(rows, nodes);
    let (m, g) = (shown.m, shown.rows.len());
    let start = 8 + 6 * g + 2 * m;
    let s = shown.superedges();
    let length = start + 6 * s + 2;
    if out.len() < length {
        return 18;
    }
    out[..2].copy_from_slice(b"HD");
    for (k, x) in [n, m, g].into_iter().enumerate() {
        out[2 + 2 * k..4 + 2 * k].copy_from_slice(&(x as u16).to_le_bytes());
    }
    shown.put_groups(&mut out[8..start]);
    shown.mark_cliques(&mut out[8..start]);
    if s > 8 * g {
        shown.put_many_superedges(&mut out[start..length - 2]);
    } else {
        shown.put_superedges(&mut out[start..length - 2]);
    }
    out[length - 2..length].copy_from_slice(b"EN");
    *counts = Counts { nodes: m as u16, groups: g as u16, superedges: s as u32, bytes: length as u32 };
    0
}

/// A release taken apart. Groups have positions; a row has the first members of the groups joined to one.
struct Parts {
    n: usize,
    m: usize,
    g: usize,
    /// The position of each node's group, NONE for a hidden node.
    group: [u16; NODES],
    firsts: [u16; NODES],
    classes: [u16; NODES],
    /// The cubes' sum of each group's members.
    cubes: [u32; NODES],
    /// Where the members of groups of two or more stand in the file.
    several: Vec<u16>,
    /// No bit for those groups.
    lone: Row,
    cliques: Row,
    joined: Vec<Row>,
    /// The cubes' sum of the groups joined to each. Not kept if superedges are many.
    sums: [u32; NODES],
    many: bool,
}

const INDEPENDENT: u16 = u16::from_le_bytes(*b"GI");
const CLIQUE: u16 = u16::from_le_bytes(*b"GC");
const JOIN: u16 = u16::from_le_bytes(*b"SE");

fn short(bytes: &[u8], at: usize) -> u16 {
    u16::from_le_bytes([bytes[at], bytes[at + 1]])
}

fn number(bytes: &[u8], at: usize) -> usize {
    usize::from(short(bytes, at))
}

impl Parts {
    fn new() -> Parts {
        Parts {
            n: 0,
            m: 0,
            g: 0,
            group: [NONE; NODES],
            firsts: [0; NODES],
            classes: [0; NODES],
            cubes: [0; NODES],
            several: Vec::new(),
            lone: [u64::MAX; 8],
            cliques: [0; 8],
            joined: Vec::new(),
            sums: [0; NODES],
            many: false,
        }
    }

    /// Whether the bytes are a graph's release, whose parts these are then.
    fn judge(&mut self, file: &[u8]) -> bool {
        if file.len() < 10 || &file[..2] != b"HD" || &file[file.len() - 2..] != b"EN" {
            return false;
        }
        (self.n, self.m, self.g) = (number(file, 2), number(file, 4), number(file, 6));
        let end = 8 + 6 * self.g + 2 * self.m;
        if self.n > NODES || self.m > self.n || self.g > self.m || file.len() < end + 2 || (file.len() - end - 2) % 6 != 0 {
            return false;
        }
        self.several.reserve_exact(self.g.min(self.m - self.g));
        let (records, _) = file[end..file.len() - 2].as_chunks::<6>();
        self.many = records.len() > 64 + 4 * self.g * self.n.div_ceil(64);
        self.take_groups(&file[..end]) && (if self.many { self.join_many(records) } else { self.join_few(records) }) && self.fewest()
    }

    /// The groups after the head, by first members ascending. They take up all bytes.
    fn take_groups(&mut self, bytes: &[u8]) -> bool {
        let (mut at, mut low) = (8, 0);
        for i in 0..self.g {
            let Some(head) = bytes.get(at..).and_then(|b| b.first_chunk::<8>()) else {
                return false;
            };
            let (mark, count, class, first) = (short(head, 0), number(head, 2), short(head, 4), number(head, 6));
            if first < low || class >= CLASSES {
                return false;
            }
            low = first + 1;
            self.firsts[i] = first as u16;
            self.classes[i] = class;
            at += 6;
            if mark == INDEPENDENT && count == 1 {
                if first >= self.n || self.group[first] != NONE {
                    return false;
                }
                self.group[first] = i as u16;
                self.cubes[i] = cube(first);
            } else {
                if (mark != INDEPENDENT && mark != CLIQUE) || count < 2 || bytes.len() < at + 2 * count {
                    return false;
                }
                if !self.take_members(i, &bytes[at..at + 2 * count]) {
                    return false;
                }
                self.several.push(at as u16);
                self.lone[i / 64] &= !bit(i);
                if mark == CLIQUE {
                    self.cliques[i / 64] |= bit(i);
                }
            }
            at += 2 * count;
        }
        at == bytes.len()
    }

    /// Members ascending, of no other group.
    fn take_members(&mut self, i: usize, members: &[u8]) -> bool {
        let group = &mut self.group[..self.n];
        let (mut low, mut cubes) = (0, 0u32);
        for two in members.as_chunks::<2>().0 {
            let p = usize::from(u16::from_le_bytes(*two));
            if p < low || p >= group.len() || group[p] != NONE {
                return false;
            }
            group[p] = i as u16;
            cubes = cubes.wrapping_add(cube(p));
            low = p + 1;
        }
        self.cubes[i] = cubes;
        true
    }

    /// Superedges ascending, each put into both rows and both sums.
    fn join_few(&mut self, records: &[[u8; 6]]) -> bool {
        let g = self.g;
        self.joined = vec![[0; 8]; g];
        let joined = &mut self.joined[..g];
        let (firsts, cubes, sums) = (&self.firsts[..g], &self.cubes[..g], &mut self.sums[..g]);
        let mut last = 0;
        for record in records {
            let Some((i, j)) = superedge(record, last, g) else {
                return false;
            };
            last = i << 16 | j;
            let (p, q) = (usize::from(firsts[i]), usize::from(firsts[j]));
            joined[i][q / 64 % 8] |= bit(q);
            joined[j][p / 64 % 8] |= bit(p);
            sums[i] = sums[i].wrapping_add(cubes[j]);
            sums[j] = sums[j].wrapping_add(cubes[i]);
        }
        true
    }

    /// Superedges ascending: four at a time if they go from one group into one word of its row, else one by one.
    fn join_many(&mut self, records: &[[u8; 6]]) -> bool {
        let firsts = &self.firsts[..self.g];
        let mut joined = vec![[0; 8]; 64 * self.n.div_ceil(64)];
        let mut bits = [0; NODES];
        let word_ends = columns(firsts, &mut bits);
        let bits = &bits[..self.g];
        let mut window = &bits[..0];
        let (mut row, mut w) = (0, 0);
        let (mut lead, mut i, mut last) = (0, 0, 0);
        let (fours, rest) = records.as_chunks::<4>();
        let mut fours = fours.iter();
        loop {
            let (word, end) = stretch(&mut fours, lead, last, window);
            joined[row][w] |= word;
            last = end;
            let Some(four) = fours.next() else {
                break;
            };
            let js = four.map(|r| number(&r, 4));
            if leads(four, lead) && rising(last, js) && js[3] < bits.len() {
                for j in js {
                    w = usize::from(firsts[j]) / 64 % 8;
                    joined[row][w] |= bits[j];
                }
                last = js[3];
            } else {
                for record in four {
                    let Some((first, second)) = superedge(record, i << 16 | last, firsts.len()) else {
                        return false;
                    };
                    (i, last) = (first, second);
                    row = usize::from(firsts[i]);
                    w = usize::from(firsts[last]) / 64 % 8;
                    joined[row][w] |= bits[last];
                }
                lead = u32::from(JOIN) | (i as u32) << 16;
            }
            window = &bits[..word_ends[w]];
        }
        for record in rest {
            let Some((first, second)) = superedge(record, i << 16 | last, firsts.len()) else {
                return false;
            };
            (i, last) = (first, second);
            joined[usize::from(firsts[i])][usize::from(firsts[last]) / 64 % 8] |= bits[last];
        }
        mirror(&mut joined);
        for (i, &p) in firsts.iter().enumerate() {
            joined[i] = joined[usize::from(p)];
        }
        joined.truncate(self.g);
        self.joined = joined;
        true
    }

    /// Hashes of the open and the closed row of each group.
    fn hashes(&self, open: &mut [u32], closed: &mut [u32]) {
        for i in 0..self.g.min(open.len()).min(closed.len()) {
            let (h, c) = if self.many {
                hashes(&self.joined[i], usize::from(self.firsts[i]))
            } else {
                (self.sums[i], self.sums[i].wrapping_add(self.cubes[i]))
            };
            (open[i], closed[i]) = (classed(h, self.classes[i]), classed(c, self.classes[i]));
        }
    }

    /// Whether no two groups of one class could be one.
    fn fewest(&self) -> bool {
        let (mut open, mut closed) = ([0; NODES], [0; NODES]);
        self.hashes(&mut open, &mut closed);
        let (mut met_open, mut met_closed) = (Met::new(), Met::new());
        for i in 0..self.g {
            let clique = has(&self.cliques, i);
            if !clique && met_open.meets(open[i]) && meets_twin(&open, i, |j| self.open_twins(i, j)) {
                return false;
            }
            if (clique || has(&self.lone, i)) && met_closed.meets(closed[i]) && meets_twin(&closed, i, |j| self.closed_twins(i, j)) {
                return false;
            }
        }
        true
    }

    fn open_twins(&self, i: usize, j: usize) -> bool {
        self.classes[i] == self.classes[j] && !has(&self.cliques, j) && equal(&self.joined[i], &self.joined[j])
    }

    fn closed_twins(&self, i: usize, j: usize) -> bool {
        let first = |i: usize| usize::from(self.firsts[i]);
        let fits = self.classes[i] == self.classes[j] && (has(&self.cliques, j) || has(&self.lone, j));
        fits && closed_twins(&self.joined[i], first(i), &self.joined[j], first(j))
    }

    /// All nodes joined to group i, with its own if they are a clique.
    fn neighbourhood(&self, file: &[u8], i: usize) -> Row {
        let mut r = self.joined[i];
        for &at in &self.several {
            let j = usize::from(self.group[number(file, usize::from(at))]);
            if has(&self.joined[i], usize::from(self.firsts[j])) || (i == j && has(&self.cliques, i)) {
                enter_members(&mut r, file, at);
            }
        }
        r
    }

    /// How far two members of a group are apart.
    fn inside(&self, i: usize) -> u16 {
        if has(&self.cliques, i) {
            1
        } else if self.joined[i] != [0; 8] {
            2
        } else {
            u16::MAX
        }
    }

    /// How many superedges lead from one group to another.
    fn between(&self, i: usize, j: usize) -> u16 {
        let mut seen = [0; 8];
        let first = usize::from(self.firsts[i]);
        seen[first / 64 % 8] |= bit(first);
        let mut frontier = seen;
        for d in 1.. {
            if frontier.iter().zip(&self.joined[j]).fold(0, |x, (a, b)| x | a & b) != 0 {
                return d;
            }
            let mut next = [0; 8];
            each_bit(&frontier, |q| unite(&mut next, &self.joined[usize::from(self.group[q])]));
            next.iter_mut().zip(&seen).for_each(|(x, s)| *x &= !s);
            if next == [0; 8] {
                break;
            }
            unite(&mut seen, &next);
            frontier = next;
        }
        u16::MAX
    }

    /// The rows get all members of the groups joined to them, in a clique their own too.
    fn draw(&mut self, file: &[u8]) {
        let group = |at: &u16| usize::from(self.group[number(file, usize::from(*at))]);
        let near: Vec<Row> = self.several.iter().map(|at| self.joined[group(at)]).collect();
        let mut sets = vec![[0; 8]; near.len()];
        for (set, at) in sets.iter_mut().zip(&self.several) {
            enter_members(set, file, *at);
        }
        for ((at, near), set) in self.several.iter().zip(&near).zip(&sets) {
            each_bit(near, |q| unite(&mut self.joined[usize::from(self.group[q])], set));
            let i = group(at);
            if has(&self.cliques, i) {
                unite(&mut self.joined[i], set);
            }
        }
    }

    /// The keys that the members of a group have in common: closed ones in a clique, else open ones.
    fn share(&mut self) {
        if self.many {
            sum_rows(&self.joined, self.n.div_ceil(64), &mut self.sums);
        } else {
            each_bit(&self.cliques, |i| self.sums[i] = self.sums[i].wrapping_add(self.cubes[i]));
        }
    }

    /// Hidden nodes join the group of class 0 without edges, or are one.
    fn adopt(&mut self) {
        let hidden = self.group[..self.n].iter().position(|&i| i == NONE).unwrap_or(0) as u16;
        let lonely = (0..self.g).find(|&i| self.sums[i] == 0 && self.classes[i] == 0 && self.joined[i] == [0; 8]);
        let i = lonely.unwrap_or(self.g);
        if lonely.is_none() {
            self.joined.push([0; 8]);
            self.firsts[i] = hidden;
        }
        self.firsts[i] = self.firsts[i].min(hidden);
        for x in &mut self.group[..self.n] {
            *x = if *x == NONE { i as u16 } else { *x };
        }
    }
}

/// The members of a group of two or more, which stand at a place, put into a set.
fn enter_members(set: &mut Row, file: &[u8], at: u16) {
    let at = usize::from(at);
    for two in file[at..at + 2 * number(file, at - 4)].as_chunks::<2>().0 {
        let p = number(two, 0);
        set[p / 64 % 8] |= bit(p);
    }
}

/// The bit of each group's first member. For each word, the position after the last group with its first member in it.
fn columns(firsts: &[u16], bits: &mut [u64; NODES]) -> [usize; 8] {
    let mut ends = [0; 8];
    for (j, (&q, x)) in firsts.iter().zip(bits).enumerate() {
        *x = bit(usize::from(q));
        ends[usize::from(q) / 64 % 8] = j + 1;
    }
    ends
}

fn leads(four: &[[u8; 6]; 4], lead: u32) -> bool {
    four.iter().all(|r| u32::from_le_bytes([r[0], r[1], r[2], r[3]]) == lead)
}

fn rising(last: usize, [a, b, c, d]: [usize; 4]) -> bool {
    last < a && a < b && b < c && c < d
}

/// The bits of the superedges that go from one group into the window, and the last of them.
#[inline(never)]
fn stretch(fours: &mut std::slice::Iter<[[u8; 6]; 4]>, lead: u32, from: usize, window: &[u64]) -> (u64, usize) {
    let (mut word, mut last) = (0, from);
    while let Some(four) = fours.as_slice().first() {
        let [a, b, c, d] = four.map(|r| number(&r, 4));
        if !(leads(four, lead) && rising(last, [a, b, c, d]) && d < window.len()) {
            break;
        }
        word |= window[a] | window[b] | window[c] | window[d];
        last = d;
        fours.next();
    }
    (word, last)
}

/// The two groups of a superedge that comes after another.
fn superedge(record: &[u8; 6], last: usize, g: usize) -> Option<(usize, usize)> {
    let (i, j) = (number(record, 2), number(record, 4));
    (short(record, 0) == JOIN && i < j && j < g && last < i << 16 | j).then_some((i, j))
}

/// The lower half of a matrix from its upper half.
fn mirror(rows: &mut [Row]) {
    let blocks = rows.len() / 64;
    for i in 0..blocks {
        for j in i..blocks {
            let mut a = block(rows, i, j);
            transpose(&mut a);
            for (x, r) in a.iter().zip(&mut rows[64 * j..64 * j + 64]) {
                r[i % 8] |= x;
            }
        }
    }
}

/// Some bits of the hashes met so far: one whose bit is not there is new.
struct Met([u64; 512]);

impl Met {
    fn new() -> Met {
        Met([0; 512])
    }

    fn meets(&mut self, hash: u32) -> bool {
        let place = hash.wrapping_mul(0x9E37_79B1) as usize >> 17;
        let x = &mut self.0[place / 64 % 512];
        let old = *x;
        *x |= bit(place);
        old & bit(place) != 0
    }
}

/// Hashes of the open and of the closed row.
fn hashes(row: &Row, p: usize) -> (u32, u32) {
    let mut h = 0u64;
    for (x, c) in row.iter().zip(&ODD) {
        h = h.wrapping_add(x.wrapping_mul(*c));
    }
    let c = h.wrapping_add(bit(p).wrapping_mul(ODD[p / 64 % 8]));
    ((h >> 32) as u32, (c >> 32) as u32)
}

fn unite(a: &mut Row, b: &Row) {
    for (x, y) in a.iter_mut().zip(b) {
        *x |= y;
    }
}

/// The cubes' sums of rows, word by word or two words at a time, so that the tables stay near.
fn sum_rows(rows: &[Row], words: usize, sums: &mut [u32; NODES]) {
    if words == 1 {
        return sum_words::<1, 8>(rows, 0, sums);
    }
    (0..words.min(7)).step_by(2).for_each(|w| sum_words::<2, 16>(rows, w, sums));
}

fn sum_words<const WORDS: usize, const BYTES: usize>(rows: &[Row], w: usize, sums: &mut [u32; NODES]) {
    let table: &[[u32; 256]; BYTES] = BYTE_SUMS[8 * w..8 * w + BYTES].try_into().unwrap();
    for (r, sum) in rows.iter().zip(sums) {
        let mut total = *sum;
        for i in 0..WORDS {
            for (b, byte) in r[w % 7 + i].to_le_bytes().into_iter().enumerate() {
                total = total.wrapping_add(table[8 * i + b][usize::from(byte)]);
            }
        }
        *sum = total;
    }
}

pub fn file_distance(file: &[u8], p: u16, q: u16, distance: &mut u16) -> u16 {
    *distance = 0;
    let mut parts = Parts::new();
    if !parts.judge(file) {
        return 19;
    }
    let group = |p: u16| parts.group[..parts.n].get(usize::from(p)).filter(|&&i| i != NONE).map(|&i| usize::from(i));
    let (Some(i), Some(j)) = (group(p), group(q)) else {
        return 14;
    };
    if p != q {
        *distance = if i == j { parts.inside(i) } else { parts.between(i, j) };
    }
    0
}

pub fn file_neighbours(file: &[u8], p: u16, out: &mut [u16], count: &mut u16) -> u16 {
    *count = 0;
    let mut parts = Parts::new();
    if !parts.judge(file) {
        return 19;
    }
    let p = usize::from(p);
    if p >= parts.n || parts.group[p] == NONE {
        return 14;
    }
    let mut r = parts.neighbourhood(file, usize::from(parts.group[p]));
    r[p / 64] &= !bit(p);
    list(&r, |q| parts.firsts[usize::from(parts.group[q])], out, count)
}

pub fn read(n: usize, e: &mut [u64], v: &mut [u16], k: &mut [u32], file: &[u8]) -> u16 {
    if !sized(n, e, v, k) {
        return 11;
    }
    let mut parts = Parts::new();
    if !parts.judge(file) {
        return 19;
    }
    if parts.n != n {
        return 20;
    }
    if parts.g < parts.m {
        parts.draw(file);
    }
    parts.share();
    let marks = parts.group.map(|i| u16::from(i == NONE));
    if parts.m < n {
        parts.adopt();
    }
    put_rows(&parts, e.as_chunks_mut().0);
    put_keys(&parts, k.as_chunks_mut().0);
    let group = |p: usize| usize::from(parts.group[p]) % NODES;
    put_rings(|p| parts.firsts[group(p)], |p| [marks[p], parts.classes[group(p)]], v.as_chunks_mut().0);
    0
}

fn put_rows(parts: &Parts, e: &mut [Row]) {
    for (r, &i) in e.iter_mut().zip(&parts.group) {
        *r = parts.joined[usize::from(i)];
    }
    if parts.cliques != [0; 8] {
        for (p, r) in e.iter_mut().enumerate() {
            r[p / 64 % 8] &= !bit(p);
        }
    }
}

fn put_keys(parts: &Parts, k: &mut [[u32; 2]]) {
    for (p, (two, &i)) in k.iter_mut().zip(&parts.group).enumerate() {
        let i = usize::from(i) % NODES;
        let clique = (parts.cliques[i / 64] >> (i % 64)) as u32 & 1;
        let open = parts.sums[i].wrapping_sub(clique * cube(p));
        *two = [open, open.wrapping_add(cube(p))];
    }
}

/// Each node, with its mark and class, is put after the members of its group so far.
fn put_rings(least: impl Fn(usize) -> u16, own: impl Fn(usize) -> [u16; 2], v: &mut [Node]) {
    for p in 0..v.len().min(NODES) {
        let (l, [mark, class]) = (least(p), own(p));
        if usize::from(l) == p {
            v[p] = [l, l, l, mark, class];
        } else {
            let last = v[usize::from(l)][PREVIOUS];
            v[p] = [l, l, last, mark, class];
            v[usize::from(last)][NEXT] = p as u16;
            v[usize::from(l)][PREVIOUS] = p as u16;
        }
    }
}

const STATES: usize = 8;
const NAME: usize = 16;

fn place_words(n: usize) -> usize {
    3 + 9 * n
}

pub fn store_words(n: usize) -> usize {
    1 + STATES * place_words(n)
}

/// A place of a store: 0 or 1, the two words of the name, the rows, a word for each node: its mark and twice its class.
struct Place<'a> {
    used: u64,
    name: &'a [u64],
    rows: &'a [Row],
    nodes: &'a [u64],
}

fn place(words: &[u64], n: usize) -> Place<'_> {
    let (head, state) = words.split_at(3);
    let (edges, nodes) = state.split_at(8 * n);
    Place { used: head[0], name: &head[1..], rows: edges.as_chunks().0, nodes }
}

fn places(store: &[u64], n: usize) -> impl Iterator<Item = Place<'_>> + Clone {
    store[1..].chunks_exact(place_words(n)).map(move |words| place(words, n))
}

/// Few edges: whether each goes both ways, and is none of a node with itself or a number beyond all nodes.
fn walk_simple(rows: &[Row]) -> bool {
    rows.iter().enumerate().all(|(p, r)| {
        let mine = bit(p);
        r.iter().enumerate().all(|(w, &x)| {
            let mut x = x;
            while x != 0 {
                let q = 64 * w + x.trailing_zeros() as usize;
                if q >= rows.len() || q == p || rows[q][p / 64 % 8] & mine == 0 {
                    return false;
                }
                x &= x - 1;
            }
            true
        })
    })
}

fn simple(rows: &[Row]) -> bool {
    if rows.len() > 64 && seem_sparse(rows) {
        walk_simple(rows)
    } else {
        rows_fit(rows) && symmetric(rows)
    }
}

/// Eight words a turn: the time of a shorter loop depends on where its code lies.
fn union(words: &[u64]) -> u64 {
    let (eights, rest) = words.as_chunks::<8>();
    let all = eights.iter().fold(0, |d, eight| d | eight.iter().fold(0, |d, x| d | x));
    rest.iter().fold(all, |d, x| d | x)
}

fn state_holds(place: &Place) -> bool {
    place.used == 1 && union(place.nodes) < 2 * u64::from(CLASSES) && simple(place.rows)
}

fn names_differ(store: &[u64], n: usize) -> bool {
    let mut names = [[0; 2]; STATES];
    let mut count = 0;
    for place in places(store, n).filter(|place| place.used != 0) {
        names[count] = [place.name[0], place.name[1]];
        count += 1;
    }
    (0..count).all(|i| !names[..i].contains(&names[i]))
}

/// Whether the words are a store for n nodes.
fn store_holds(store: &[u64], n: usize) -> bool {
    store[0] == n as u64 + 1
        && names_differ(store, n)
        && store[1..].chunks_exact(place_words(n)).all(|words| if words[0] == 0 { union(words) == 0 } else { state_holds(&place(words, n)) })
}

/// The two words of a name, and its place, if it is kept; or the number that refuses the call for its store or its name.
fn named(n: usize, store: &[u64], name: &[u8]) -> Result<([u64; 2], Option<usize>), u16> {
    if n > NODES || store.len() != store_words(n) || name.len() != NAME {
        return Err(11);
    }
    if !store_holds(store, n) {
        return Err(12);
    }
    let name = [0, 8].map(|at| u64::from_le_bytes(name[at..at + 8].try_into().unwrap()));
    Ok((name, places(store, n).position(|place| place.used == 1 && place.name == name)))
}

/// The words of a place.
fn words_at(store: &mut [u64], n: usize, i: usize) -> &mut [u64] {
    &mut store[1 + i * place_words(n)..][..place_words(n)]
}

pub fn keep(n: usize, e: &[u64], v: &[u16], k: &[u32], store: &mut [u64], name: &[u8]) -> u16 {
    if !sized(n, e, v, k) {
        return 11;
    }
    let (name, at) = match named(n, store, name) {
        Ok(found) => found,
        Err(result) => return result,
    };
    if !holds(e, v, k, n) {
        return 12;
    }
    if at.is_some() {
        return 22;
    }
    let Some(i) = places(store, n).position(|place| place.used == 0) else {
        return 23;
    };
    let words = words_at(store, n, i);
    words[0] = 1;
    words[1..3].copy_from_slice(&name);
    words[3..3 + 8 * n].copy_from_slice(e);
    for (x, node) in words[3 + 8 * n..].iter_mut().zip(v.as_chunks::<NODE_NUMBERS>().0) {
        *x = u64::from(node[MARK] | node[CLASS] << 1);
    }
    0
}

pub fn drop(n: usize, store: &mut [u64], name: &[u8]) -> u16 {
    match named(n, store, name) {
        Err(result) => result,
        Ok((_, None)) => 21,
        Ok((_, Some(i))) => {
            words_at(store, n, i).fill(0);
            0
        }
    }
}

pub fn restore(n: usize, e: &mut [u64], v: &mut [u16], k: &mut [u32], store: &[u64], name: &[u8]) -> u16 {
    if !sized(n, e, v, k) {
        return 11;
    }
    let i = match named(n, store, name) {
        Err(result) => return result,
        Ok((_, None)) => return 21,
        Ok((_, Some(i))) => i,
    };
    let Some(place) = places(store, n).nth(i) else {
        return 21;
    };
    e.copy_from_slice(place.rows.as_flattened());
    let keys = k.as_chunks_mut().0;
    sum_keys(place.rows, keys);
    let class = |p: usize| (place.nodes[p] >> 1) as u16;
    let mut leaders = [0; NODES];
    lead(place.rows, keys, class, &mut leaders);
    put_rings(|p| leaders[p], |p| [place.nodes[p] as u16 & 1, class(p)], v.as_chunks_mut().0);
    0
}

/// Both keys of each row.
fn sum_keys(rows: &[Row], keys: &mut [[u32; 2]]) {
    let mut sums = [0u32; NODES];
    if rows.len() > 64 && seem_sparse(rows) {
        for (r, sum) in rows.iter().zip(&mut sums) {
            each_bit(r, |q| *sum = sum.wrapping_add(cube(q)));
        }
    } else {
        sum_rows(rows, rows.len().div_ceil(64), &mut sums);
    }
    for (p, (two, &open)) in keys.iter_mut().zip(&sums).enumerate() {
        *two = [open, open.wrapping_add(cube(p))];
    }
}

/// The least member of each node's group: leaders are chained by their keys.
fn lead(rows: &[Row], keys: &[[u32; 2]], class: impl Fn(usize) -> u16, leaders: &mut [u16; NODES]) {
    let mut slots = Slots { open: [NONE; 1024], closed: [NONE; 1024], open_next: [NONE; NODES], closed_next: [NONE; NODES] };
    let slot = |key: u32| (key.wrapping_mul(0x9E37_79B1) >> 22) as usize;
    for (p, (r, &[open, closed])) in rows.iter().zip(keys).enumerate() {
        let (h, c) = (slot(classed(open, class(p))), slot(classed(closed, class(p))));
        let open_twin = |q: usize| keys[q][0] == open && class(q) == class(p) && equal(&rows[q], r);
        let closed_twin = |q: usize| keys[q][1] == closed && class(q) == class(p) && closed_twins(&rows[q], q, r, p);
        let found = among(slots.open[h], &slots.open_next, open_twin).or_else(|| among(slots.closed[c], &slots.closed_next, closed_twin));
        leaders[p] = found.unwrap_or(p as u16);
        if found.is_none() {
            slots.open_next[p] = slots.open[h];
            slots.closed_next[p] = slots.closed[c];
            slots.open[h] = p as u16;
            slots.closed[c] = p as u16;
        }
    }
}

/// The first twin in a chain.
fn among(first: u16, next: &[u16; NODES], twin: impl Fn(usize) -> bool) -> Option<u16> {
    let mut q = first;
    while q != NONE && !twin(usize::from(q)) {
        q = next[usize::from(q)];
    }
    (q != NONE).then_some(q)
}
