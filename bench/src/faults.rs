//! Random and mutated inputs for every call, the library against the calls in Rust: no crash and no disagreement; and the library on
//! tables alike in what is visible.

use crate::calls::{self, Counts, Member};
use crate::graphs::{self, Lent, Random, Shape, Tables};
use crate::lent::{self, NODE_NUMBERS, UPDATES, UPDATE_NUMBERS};
use std::collections::BTreeMap;
use std::time::{Duration, Instant};

const SHAPES: [Shape; 4] = [Shape::Sparse, Shape::Dense, Shape::Twins, Shape::Threshold];
const CLASSES: [usize; 3] = [1, 3, 256];

#[derive(Default, Debug)]
struct Tally {
    graphs: u64,
    /// How many graphs had so many classes to draw from.
    classes: BTreeMap<usize, u64>,
    batches: u64,
    updates: u64,
    /// How often batches gave each number.
    batch_results: BTreeMap<u16, u64>,
    /// How often updates gave each answer.
    answers: BTreeMap<i16, u64>,
    /// How often updates of classes did.
    class_answers: BTreeMap<i16, u64>,
    damaged_tables: u64,
    refused_tables: u64,
    /// Pairs of tables alike in what is visible, given one batch.
    pairs: u64,
    /// How many of their updates were refused, by the same number in both.
    refused_alike: u64,
    /// How many were of a hidden node's class, which one of the two had already.
    refused_apart: u64,
    /// How many were accepted with other answers, which count groups of the whole graph.
    answered_apart: u64,
    queries: u64,
    releases: u64,
    files: u64,
    read: u64,
    no_release: u64,
    other_size: u64,
    file_queries: u64,
    distances: u64,
    histories: u64,
    openings: u64,
    keeps: u64,
    restores: u64,
    drops: u64,
    damaged_stores: u64,
    refused_stores: u64,
    /// How often openings, keeps, restores and drops gave each number.
    results: BTreeMap<u16, u64>,
}

/// Mostly small sizes, where accidents are likely, and now and then the largest.
fn size(random: &mut Random) -> usize {
    match random.below(20) {
        0 => 512,
        1 => 1 + random.below(512),
        2 => 63 + random.below(4),
        3..=6 => random.below(40),
        _ => random.below(9),
    }
}

/// Mostly 0 to 4, now and then the largest or any.
fn few(random: &mut Random) -> u16 {
    match random.below(10) {
        0 => u16::MAX,
        1 => random.next() as u16,
        _ => random.below(5) as u16,
    }
}

/// Mostly one of three, now and then any, the greatest, or one that is none.
fn class(random: &mut Random) -> u16 {
    match random.below(12) {
        0 => [255, 256, 257, u16::MAX][random.below(4)],
        1 => random.next() as u16,
        2 | 3 => random.below(256) as u16,
        _ => random.below(3) as u16,
    }
}

/// Each of its numbers may be one that is refused, alone or with others. One mark in four hides, so that most nodes stay visible.
fn update(n: usize, random: &mut Random) -> [u16; UPDATE_NUMBERS] {
    let mut node = || if random.below(40) == 0 { random.next() as u16 } else { random.below(n + 1) as u16 };
    let (u, v) = (node(), node());
    let kind = if random.below(8) == 0 { few(random) } else { [1, 1, 1, 2, 3][random.below(5)] };
    let v = match kind {
        1 => v,
        3 => class(random),
        _ if random.below(8) > 0 => 0,
        _ => v,
    };
    let one_in = if kind == 1 { 2 } else { 4 };
    let wanted = match random.below(5) {
        0 => few(random),
        _ if kind == 3 => 0,
        _ => u16::from(random.below(one_in) == 0),
    };
    [kind, u, v, wanted]
}

/// Now and then not in fours, and at times about as long as a batch may be.
fn batch(n: usize, random: &mut Random) -> Vec<u16> {
    let count = match random.below(2000) {
        0 => UPDATES - 1 + random.below(3),
        _ => random.below(if n > 100 { 200 } else { 60 }),
    };
    let mut list: Vec<u16> = (0..count).flat_map(|_| update(n, random)).collect();
    if random.below(50) == 0 {
        list.extend(&update(n, random)[1 + random.below(3)..]);
    }
    list
}

fn apply(t: &mut Tables, random: &mut Random, tally: &mut Tally) {
    let batch = batch(t.n, random);
    let count = batch.len() / UPDATE_NUMBERS;
    let room = if random.below(20) == 0 { random.below(count + 1) } else { count + random.below(3) };
    let mut other = t.clone();
    let (mut x, mut y) = (vec![4660; room], vec![4660; room]);
    let a = calls::apply(t.n, &mut t.edges, &mut t.nodes, &mut t.keys, &batch, &mut x);
    let b = lent::apply(t.n, &mut other.edges, &mut other.nodes, &mut other.keys, &batch, &mut y);
    assert_eq!((a, &x, &*t), (b, &y, &other), "{batch:?}");
    tally.batches += 1;
    tally.updates += count as u64;
    *tally.batch_results.entry(a).or_default() += 1;
    if a == 0 {
        for (&answer, update) in x.iter().zip(batch.chunks(UPDATE_NUMBERS)) {
            *tally.answers.entry(answer).or_default() += 1;
            if update[0] == 3 {
                *tally.class_answers.entry(answer).or_default() += 1;
            }
        }
    }
}

fn hidden_nodes(t: &Tables) -> Vec<u16> {
    (0..t.n).filter(|&p| t.is_hidden(p)).map(|p| p as u16).collect()
}

/// The library's result and answers for a batch.
fn answers_to(t: &mut Tables, batch: &[u16]) -> (u16, Vec<i16>) {
    let mut answers = vec![0; batch.len() / UPDATE_NUMBERS];
    let result = calls::apply(t.n, &mut t.edges, &mut t.nodes, &mut t.keys, batch, &mut answers);
    (result, answers)
}

/// Tables alike in what is visible: the hidden nodes revealed, some of their edges flipped, hidden again, and given other classes.
fn alike(t: &Tables, hidden: &[u16], random: &mut Random) -> Tables {
    let mark = |wanted| hidden.iter().flat_map(move |&p| [2, p, 0, wanted]);
    let mut batch: Vec<u16> = mark(0).collect();
    for &p in hidden {
        for _ in 0..random.below(6) {
            let q = random.below(t.n);
            batch.extend([1, p, q as u16, u16::from(!t.tied(usize::from(p), q))]);
        }
    }
    batch.extend(mark(1));
    batch.extend(hidden.iter().flat_map(|&p| [3, p, class(random), 0]));
    let mut other = t.clone();
    assert_eq!(answers_to(&mut other, &batch).0, 0);
    other
}

/// A batch without the updates that would reveal one of these nodes.
fn revealing_none(n: usize, hidden: &[u16], random: &mut Random) -> Vec<u16> {
    let reveals = |update: &[u16]| matches!(update, [2, u, _, 0] if hidden.contains(u));
    batch(n, random).chunks(UPDATE_NUMBERS).filter(|update| !reveals(update)).flatten().copied().collect()
}

/// The library's release, in a buffer that is long enough.
fn whole_release(t: &Tables) -> (u16, Counts, Vec<u8>) {
    let (mut file, mut counts) = (vec![77; most_bytes(t.n)], Counts::default());
    let result = calls::release(t.n, &t.edges, &t.nodes, &t.keys, &mut file, &mut counts);
    (result, counts, file)
}

/// One batch on two tables alike in what is visible: the same updates refused, by the same numbers, and the same release after it. Only
/// an update of a hidden node's class may be 16 in the one and accepted in the other.
fn compare_alike(t: &Tables, random: &mut Random, tally: &mut Tally) {
    let hidden = hidden_nodes(t);
    let batch = revealing_none(t.n, &hidden, random);
    let (mut a, mut b) = (t.clone(), alike(t, &hidden, random));
    let ((c, x), (d, y)) = (answers_to(&mut a, &batch), answers_to(&mut b, &batch));
    assert_eq!(c, d);
    for ((x, y), update) in x.into_iter().zip(y).zip(batch.chunks(UPDATE_NUMBERS)) {
        let free = update[0] == 3 && hidden.contains(&update[1]);
        let apart = free && (x == 16) != (y == 16) && x.min(y) <= 2;
        let refused = x > 2 || y > 2;
        assert!(x == y || apart || !refused, "{x} {y} {t:?} {batch:?}");
        tally.refused_apart += u64::from(apart);
        tally.refused_alike += u64::from(refused && !apart);
        tally.answered_apart += u64::from(x != y && !refused);
    }
    assert!(whole_release(&a) == whole_release(&b), "{t:?} {batch:?}");
    tally.pairs += 1;
}

fn ask(t: &Tables, random: &mut Random, tally: &mut Tally) -> u16 {
    let p = random.below(t.n + 2) as u16;
    let q = random.below(t.n + 2) as u16;
    let room = if random.below(3) == 0 { random.below(2 * t.n + 1) } else { 2 * t.n };
    let (mut x, mut y) = (vec![4660; room], vec![4660; room]);
    let (mut c, mut d) = (9, 9);
    let a = calls::neighbours(t.n, &t.edges, &t.nodes, &t.keys, p, &mut x, &mut c);
    let b = lent::neighbours(t.n, &t.edges, &t.nodes, &t.keys, p, &mut y, &mut d);
    assert_eq!((a, c, &x), (b, d, &y), "{t:?} {p}");
    let result = calls::tied(t.n, &t.edges, &t.nodes, &t.keys, p, q, &mut c);
    assert_eq!((result, c), (lent::tied(t.n, &t.edges, &t.nodes, &t.keys, p, q, &mut d), d));
    let (mut e, mut f) = (Member::default(), Member::default());
    let a = calls::group(t.n, &t.edges, &t.nodes, &t.keys, p, &mut e);
    assert_eq!((a, e), (lent::group(t.n, &t.edges, &t.nodes, &t.keys, p, &mut f), f));
    tally.queries += 3;
    result
}

/// The library's call on tables and a store, and the other's on a copy.
fn same(x: &mut Lent, first: impl Fn(&mut Lent) -> u16, second: impl Fn(&mut Lent) -> u16, tally: &mut Tally) -> u16 {
    let mut y = x.clone();
    let (a, b) = (first(x), second(&mut y));
    assert!(a == b && *x == y, "{a} {b} {x:?} {y:?}");
    *tally.results.entry(a).or_default() += 1;
    a
}

fn open(x: &mut Lent, tally: &mut Tally) {
    tally.openings += 1;
    let first = |x: &mut Lent| calls::open(x.t.n, &mut x.t.edges, &mut x.t.nodes, &mut x.t.keys, &mut x.store);
    let second = |x: &mut Lent| lent::open(x.t.n, &mut x.t.edges, &mut x.t.nodes, &mut x.t.keys, &mut x.store);
    same(x, first, second, tally);
}

fn keep(x: &mut Lent, name: &[u8], tally: &mut Tally) -> u16 {
    tally.keeps += 1;
    let first = |x: &mut Lent| calls::keep(x.t.n, &x.t.edges, &x.t.nodes, &x.t.keys, &mut x.store, name);
    let second = |x: &mut Lent| lent::keep(x.t.n, &x.t.edges, &x.t.nodes, &x.t.keys, &mut x.store, name);
    same(x, first, second, tally)
}

fn restore(x: &mut Lent, name: &[u8], tally: &mut Tally) -> u16 {
    tally.restores += 1;
    let first = |x: &mut Lent| calls::restore(x.t.n, &mut x.t.edges, &mut x.t.nodes, &mut x.t.keys, &x.store, name);
    let second = |x: &mut Lent| lent::restore(x.t.n, &mut x.t.edges, &mut x.t.nodes, &mut x.t.keys, &x.store, name);
    same(x, first, second, tally)
}

fn drop(x: &mut Lent, name: &[u8], tally: &mut Tally) -> u16 {
    tally.drops += 1;
    let first = |x: &mut Lent| calls::drop(x.t.n, &mut x.store, name);
    let second = |x: &mut Lent| lent::drop(x.t.n, &mut x.store, name);
    same(x, first, second, tally)
}

/// One of ten names, some of which agree in the first word; now and then too long or too short.
fn name(random: &mut Random) -> Vec<u8> {
    let mut name = graphs::name([0, 1, 2, 3, 10, 11, 12, 13, 20, 21][random.below(10)]).to_vec();
    match random.below(60) {
        0 => name.truncate(random.below(16)),
        1 => name.push(0),
        _ => {}
    }
    name
}

/// A keep, a restore or a drop.
fn named(x: &mut Lent, random: &mut Random, tally: &mut Tally) -> u16 {
    let name = name(random);
    match random.below(10) {
        0..=5 => keep(x, &name, tally),
        6..=8 => restore(x, &name, tally),
        _ => drop(x, &name, tally),
    }
}

/// Mostly another n, or another length of a table or of the store.
fn misfit(x: &Lent, random: &mut Random) -> Lent {
    let mut x = x.clone();
    match random.below(8) {
        0 => x.t.edges.truncate(random.below(8 * x.t.n + 1)),
        1 => x.t.nodes.push(7),
        2 => x.t.keys.push(7),
        3 => x.t.n += random.below(600),
        4 => x.t.n = random.next() as usize,
        5 => x.store.push(0),
        6 => x.store.truncate(random.below(x.store.len())),
        _ => {}
    }
    x
}

/// A bit of a state, changed in one row or in both.
fn flip(place: &mut [u64], p: usize, q: usize, both: bool) {
    place[3 + 8 * p + q / 64] ^= 1 << (q % 64);
    if both {
        place[3 + 8 * q + p / 64] ^= 1 << (p % 64);
    }
}

/// One thing in a place of a store changed, by chance to one that may stand there.
fn damage_place(n: usize, place: &mut [u64], random: &mut Random) {
    let word = random.below(place.len());
    match random.below(9) {
        0 => place[word] = random.next(),
        1 => place[word] ^= 1 << random.below(64),
        2 => place[word] |= 1,
        3 => place[0] = random.below(3) as u64,
        4 => place.fill(0),
        5 if n > 0 => place[3 + 8 * n + random.below(n)] = [0, 1, 2, 3, 510, 511, 512, 513][random.below(8)],
        6 if n > 0 => flip(place, random.below(n), random.below(512), false),
        7 if n > 0 => flip(place, random.below(n), random.below(n), true),
        8 if n > 0 => {
            let p = random.below(n);
            flip(place, p, p, false);
        }
        _ => {}
    }
}

fn damage_store(x: &mut Lent, random: &mut Random) {
    let (i, j) = (random.below(8), random.below(8));
    let other = x.place(j).to_vec();
    match random.below(12) {
        0 => x.store[0] = random.below(x.t.n + 3) as u64,
        1 => x.place(i)[1..3].copy_from_slice(&other[1..3]),
        2 => x.place(i)[2] = other[2],
        3 => x.place(i).copy_from_slice(&other),
        _ => {}
    }
    for _ in 0..random.below(3) {
        damage_place(x.t.n, x.place(random.below(8)), random);
    }
}

/// One history of openings, batches, keeps, restores and drops, with copies of what is lent damaged in between.
fn history(t: &Tables, random: &mut Random, tally: &mut Tally) {
    let mut x = Lent::filled(t.n, [7, 0][random.below(2)]);
    if random.below(10) > 0 {
        open(&mut x, tally);
    }
    if random.below(2) == 0 {
        x.t = t.clone();
    }
    tally.histories += 1;
    for _ in 0..if t.n > 100 { 15 } else { 60 } {
        match random.below(24) {
            0 => open(&mut misfit(&x, random), tally),
            1 if random.below(8) == 0 => open(&mut x, tally),
            2..=5 => apply(&mut x.t, random, tally),
            6 => {
                named(&mut misfit(&x, random), random, tally);
            }
            7 => {
                let whole = x.t.clone();
                x.t = damaged(&whole, random);
                named(&mut x, random, tally);
                if restore(&mut x, &name(random), tally) != 0 {
                    x.t = whole;
                }
            }
            8 | 9 => {
                let mut bad = x.clone();
                damage_store(&mut bad, random);
                let result = named(&mut bad, random, tally);
                tally.damaged_stores += 1;
                tally.refused_stores += u64::from(result == 12);
            }
            _ => {
                named(&mut x, random, tally);
            }
        }
    }
}

/// Another class for all of a group, which by chance may hold.
fn damage_group(bad: &mut Tables, random: &mut Random) {
    let (least, class) = (bad.nodes[NODE_NUMBERS * random.below(bad.n)], class(random));
    for node in bad.nodes.chunks_mut(NODE_NUMBERS).filter(|node| node[0] == least) {
        node[4] = class;
    }
}

/// Some numbers of the tables changed.
fn damaged(t: &Tables, random: &mut Random) -> Tables {
    let mut bad = t.clone();
    for _ in 0..1 + random.below(3) {
        match random.below(7) {
            0 | 1 if !bad.edges.is_empty() => {
                let (p, q) = (random.below(bad.n), random.below(512));
                bad.edges[8 * p + q / 64] ^= 1 << (q % 64);
                if random.below(2) == 0 && q < bad.n {
                    bad.edges[8 * q + p / 64] ^= 1 << (p % 64);
                }
            }
            2 | 3 if !bad.nodes.is_empty() => {
                let i = random.below(bad.nodes.len());
                bad.nodes[i] = random.below(bad.n + 1) as u16;
            }
            4 if !bad.keys.is_empty() => {
                let i = random.below(bad.keys.len());
                bad.keys[i] = bad.keys[i].wrapping_add(random.below(3) as u32);
            }
            5 if !bad.nodes.is_empty() => bad.nodes[NODE_NUMBERS * random.below(bad.n) + 4] = class(random),
            6 if !bad.nodes.is_empty() => damage_group(&mut bad, random),
            _ => {}
        }
    }
    bad
}

/// All queries, a batch and a release asked of damaged tables.
fn damage(t: &Tables, random: &mut Random, tally: &mut Tally) {
    let mut bad = damaged(t, random);
    let result = ask(&bad, random, tally);
    apply(&mut bad, random, tally);
    release(&bad, random, tally);
    tally.damaged_tables += 1;
    tally.refused_tables += u64::from(result == 12);
}

/// No release of n nodes is longer.
fn most_bytes(n: usize) -> usize {
    10 + 8 * n + 3 * n * n.saturating_sub(1)
}

fn release(t: &Tables, random: &mut Random, tally: &mut Tally) -> Vec<u8> {
    let largest = most_bytes(t.n);
    let room = if random.below(4) == 0 { random.below(largest + 1) } else { largest + 3 };
    let (mut x, mut y) = (vec![77; room], vec![77; room]);
    let (mut c, mut d) = (Counts::default(), Counts::default());
    let a = calls::release(t.n, &t.edges, &t.nodes, &t.keys, &mut x, &mut c);
    let b = lent::release(t.n, &t.edges, &t.nodes, &t.keys, &mut y, &mut d);
    assert!(a == b && c == d && x == y, "{t:?} {room}");
    tally.releases += 1;
    x.truncate(c.bytes as usize);
    x
}

fn read(n: usize, file: &[u8], random: &mut Random, tally: &mut Tally) {
    let n = if random.below(10) == 0 { random.below(n + 2).min(512) } else { n };
    let (mut a, mut b) = (Tables::filled(n, 7), Tables::filled(n, 7));
    let x = calls::read(n, &mut a.edges, &mut a.nodes, &mut a.keys, file);
    let y = lent::read(n, &mut b.edges, &mut b.nodes, &mut b.keys, file);
    assert_eq!((x, &a), (y, &b), "{n} {file:?}");
    tally.files += 1;
    match x {
        0 => tally.read += 1,
        19 => tally.no_release += 1,
        20 => tally.other_size += 1,
        _ => panic!("{x}"),
    }
    let p = random.below(n + 1) as u16;
    let room = if random.below(3) == 0 { random.below(2 * n + 1) } else { 2 * n };
    let (mut x, mut y) = (vec![4660; room], vec![4660; room]);
    let (mut c, mut d) = (9, 9);
    let r = calls::file_neighbours(file, p, &mut x, &mut c);
    assert_eq!((r, c, &x), (lent::file_neighbours(file, p, &mut y, &mut d), d, &y), "{p} {file:?}");
    tally.file_queries += 1;
    let q = random.below(n + 1) as u16;
    let r = calls::file_distance(file, p, q, &mut c);
    assert_eq!((r, c), (lent::file_distance(file, p, q, &mut d), d), "{p} {q} {file:?}");
    tally.distances += 1;
}

fn number_at(file: &mut [u8], random: &mut Random, most: usize) {
    if file.len() >= 2 {
        let i = 2 * random.below(file.len() / 2);
        file[i..i + 2].copy_from_slice(&(random.below(most + 2) as u16).to_le_bytes());
    }
}

/// Another class in the record of a group, as far as the counts of members tell where it stands.
fn class_at(file: &mut [u8], random: &mut Random) {
    let mut at = 8;
    for _ in 0..random.below(6) {
        at += if at + 4 <= file.len() { 6 + 2 * usize::from(file[at + 2]) } else { 0 };
    }
    if at + 6 <= file.len() {
        file[at + 4..at + 6].copy_from_slice(&class(random).to_le_bytes());
    }
}

/// A file with a byte, a number or a record changed, left out, doubled or moved.
fn mutated(file: &[u8], n: usize, random: &mut Random) -> Vec<u8> {
    let mut f = file.to_vec();
    for _ in 0..1 + random.below(2) {
        let i = random.below(f.len() + 1);
        let k = 2 * (1 + random.below(4));
        match random.below(11) {
            0 => f.truncate(i),
            1 => f.push(random.next() as u8),
            2 if i < f.len() => f[i] = random.next() as u8,
            3 if i < f.len() => f[i] ^= 1 << random.below(8),
            4 | 5 => number_at(&mut f, random, n),
            6 if i + k <= f.len() => {
                f.drain(i..i + k);
            }
            7 if i + k <= f.len() => {
                let part = f[i..i + k].to_vec();
                f.splice(i..i, part);
            }
            8 if i + 2 * k <= f.len() => f[i..i + 2 * k].rotate_left(k),
            9 | 10 => class_at(&mut f, random),
            _ => {}
        }
    }
    f
}

/// A file made of records from nothing, most of them fitting.
fn invented(random: &mut Random) -> Vec<u8> {
    let n = random.below(6);
    let g = random.below(n + 1);
    let mut free: Vec<u16> = (0..n as u16).collect();
    let mut groups: Vec<Vec<u16>> = vec![Vec::new(); g];
    while !free.is_empty() {
        let p = free.remove(0);
        if g > 0 && random.below(5) > 0 {
            groups[random.below(g)].push(p);
        }
    }
    groups.retain(|l| !l.is_empty() || random.below(30) == 0);
    groups.sort();
    let m: usize = groups.iter().map(Vec::len).sum();
    let mut f = b"HD".to_vec();
    for x in [n, m, groups.len()] {
        f.extend((x as u16).to_le_bytes());
    }
    for l in &groups {
        f.extend(if l.len() > 1 && random.below(2) == 0 { b"GC" } else { b"GI" });
        f.extend((l.len() as u16).to_le_bytes());
        f.extend(if random.below(4) == 0 { class(random) } else { 0 }.to_le_bytes());
        l.iter().for_each(|p| f.extend(p.to_le_bytes()));
    }
    for i in 0..groups.len() {
        for j in i + 1..groups.len() {
            if random.below(2) == 0 {
                f.extend(b"SE");
                f.extend((i as u16).to_le_bytes());
                f.extend((j as u16).to_le_bytes());
            }
        }
    }
    f.extend(b"EN");
    f
}

fn noise(random: &mut Random) -> Vec<u8> {
    (0..random.below(40)).map(|_| random.next() as u8).collect()
}

pub fn run(seed: u64, seconds: u64) {
    let mut random = Random(seed.wrapping_mul(0x9E37_79B9_7F4A_7C15) | 1);
    let mut tally = Tally::default();
    let end = Instant::now() + Duration::from_secs(seconds);
    while Instant::now() < end {
        let n = size(&mut random);
        let shape = SHAPES[random.below(4)];
        let hide = 1 + random.below(n + 4);
        let count = CLASSES[random.below(3)];
        let edges = graphs::edges(shape, n, &mut random);
        let mut t = graphs::build(n, &edges, &graphs::classes(count, n, &mut random), hide);
        history(&t, &mut random, &mut tally);
        compare_alike(&t, &mut random, &mut tally);
        tally.graphs += 1;
        *tally.classes.entry(count).or_default() += 1;
        let turns = if n > 100 { 5 } else { 25 };
        for _ in 0..turns {
            apply(&mut t, &mut random, &mut tally);
            ask(&t, &mut random, &mut tally);
            damage(&t, &mut random, &mut tally);
            let file = release(&t, &mut random, &mut tally);
            read(n, &file, &mut random, &mut tally);
            for _ in 0..8 {
                let f = match random.below(8) {
                    0 => noise(&mut random),
                    1 | 2 => invented(&mut random),
                    _ => mutated(&file, n, &mut random),
                };
                let told = if f.len() > 3 { usize::from(f[2]) + 256 * usize::from(f[3]) } else { n };
                read(told.min(512), &f, &mut random, &mut tally);
            }
        }
    }
    println!("seed {seed}, {seconds} s: {tally:?}");
}
