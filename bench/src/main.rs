//! The library against the same calls in Rust and against the paper's hash buckets: that they agree, then how long they take.

#[path = "../../bindings/rust/calls.rs"]
mod calls;
mod buckets;
mod faults;
mod graphs;
mod lent;
mod program;

use buckets::Buckets;
use calls::Counts;
use graphs::{Lent, Random, Shape, Tables};
use lent::{NODE_NUMBERS, UPDATES, UPDATE_NUMBERS};
use std::hint::black_box;
use std::time::Instant;

const SHAPES: [(Shape, &str); 3] = [(Shape::Sparse, "sparse"), (Shape::Dense, "dense"), (Shape::Twins, "twin-rich")];
/// Graphs with several classes: sparse and twin-rich ones.
const CLASSED: [(Shape, usize, &str); 4] = [
    (Shape::Sparse, 3, "sparse, 3 classes"),
    (Shape::Sparse, 256, "sparse, 256 classes"),
    (Shape::Twins, 3, "twin-rich, 3 classes"),
    (Shape::Twins, 256, "twin-rich, 256 classes"),
];
const FILE_BYTES: usize = 789_002;
const ROUNDS: usize = 41;

/// The medians of the times of two functions, run in turn, in nanoseconds.
fn medians(mut first: impl FnMut(), mut second: impl FnMut()) -> (f64, f64) {
    let start = Instant::now();
    first();
    let times = 1 + 1_000_000 / (1 + start.elapsed().as_nanos() as usize);
    let time = |f: &mut dyn FnMut()| {
        let start = Instant::now();
        for _ in 0..times {
            f();
        }
        start.elapsed().as_nanos() as f64 / times as f64
    };
    let (mut a, mut b) = (Vec::new(), Vec::new());
    for _ in 0..ROUNDS {
        a.push(time(&mut first));
        b.push(time(&mut second));
    }
    a.sort_by(f64::total_cmp);
    b.sort_by(f64::total_cmp);
    (a[ROUNDS / 2], b[ROUNDS / 2])
}

/// The medians for two calls on the same memory, which is put as it was after each call, outside the time.
fn medians_undone<T>(x: &mut T, first: impl Fn(&mut T), second: impl Fn(&mut T), undo: impl Fn(&mut T)) -> (f64, f64) {
    let mut time = |call: &dyn Fn(&mut T)| {
        let start = Instant::now();
        call(x);
        let nanoseconds = start.elapsed().as_nanos() as f64;
        undo(x);
        nanoseconds
    };
    let (mut a, mut b) = (Vec::new(), Vec::new());
    for _ in 0..ROUNDS {
        a.extend((0..ROUNDS).map(|_| time(&first)));
        b.extend((0..ROUNDS).map(|_| time(&second)));
    }
    a.sort_by(f64::total_cmp);
    b.sort_by(f64::total_cmp);
    (a[a.len() / 2], b[b.len() / 2])
}

/// A line of the table: microseconds, each time divided by how often the thing was done.
fn line(t: &Tables, name: &str, what: &str, (library, other): (f64, f64), done: f64) {
    println!("| {} | {name} | {what} | {:.2} | {:.2} | {:.2} |", t.n, library / done / 1000.0, other / done / 1000.0, library / other);
}

fn bucketed(t: &Tables) -> Buckets {
    let mut buckets = Buckets::new(t.n as u16);
    for p in 0..t.n {
        for q in p + 1..t.n {
            if t.tied(p, q) {
                buckets.update(p as u16, q as u16, 1);
            }
        }
    }
    assert_eq!(buckets.groups, (0..t.n).filter(|&p| usize::from(t.nodes[NODE_NUMBERS * p]) == p).count());
    buckets
}

/// A batch that leaves the graph as it was.
fn batch(t: &Tables, name: &str, what: &str, batch: &[u16]) {
    let (mut a, mut b) = (t.clone(), t.clone());
    let (mut x, mut y) = (vec![0; UPDATES], vec![0; UPDATES]);
    let times = medians(
        || assert_eq!(calls::apply(t.n, &mut a.edges, &mut a.nodes, &mut a.keys, batch, &mut x), 0),
        || assert_eq!(lent::apply(t.n, &mut b.edges, &mut b.nodes, &mut b.keys, batch, &mut y), 0),
    );
    line(t, name, what, times, UPDATES as f64);
    assert_eq!((&a, &x), (&b, &y));
    assert_eq!(&a, t);
}

/// The paper's method knows no classes.
fn buckets(t: &Tables, name: &str, batch: &[u16]) {
    let (mut a, mut x, mut buckets) = (t.clone(), vec![0; UPDATES], bucketed(t));
    let times = medians(
        || assert_eq!(calls::apply(t.n, &mut a.edges, &mut a.nodes, &mut a.keys, batch, &mut x), 0),
        || batch.as_chunks().0.iter().for_each(|&[_, u, v, wanted]| buckets.update(u, v, wanted)),
    );
    line(t, name, "the same, against hash buckets", times, UPDATES as f64);
}

fn updates(t: &Tables, name: &str, classes: usize, random: &mut Random) {
    let n = t.n;
    let edges = graphs::there_and_back(t, random);
    batch(t, name, "update in a batch of 4,096", &edges);
    if classes == 1 {
        buckets(t, name, &edges);
    }
    batch(t, name, "class change in a batch of 4,096", &graphs::classes_and_back(t, classes, random));
    let (mut a, mut b) = (t.clone(), t.clone());
    let (mut x, mut y) = ([0; 1], [0; 1]);
    let ones = [&edges[..UPDATE_NUMBERS], &edges[edges.len() - UPDATE_NUMBERS..]];
    let times = medians(
        || ones.iter().for_each(|one| assert_eq!(calls::apply(n, &mut a.edges, &mut a.nodes, &mut a.keys, one, &mut x), 0)),
        || ones.iter().for_each(|one| assert_eq!(lent::apply(n, &mut b.edges, &mut b.nodes, &mut b.keys, one, &mut y), 0)),
    );
    line(t, name, "batch of 1", times, 2.0);
    assert_eq!((&a, &x), (&b, &y));
    assert_eq!(&a, t);
}

fn queries(t: &Tables, name: &str) {
    let (mut yes, mut count, mut out) = (0, 0, [0; 1024]);
    let (mut yes2, mut count2, mut out2) = (0, 0, [0; 1024]);
    let times = medians(
        || assert_eq!(calls::tied(t.n, &t.edges, &t.nodes, &t.keys, 0, 1, &mut yes), 0),
        || assert_eq!(lent::tied(t.n, &t.edges, &t.nodes, &t.keys, 0, 1, &mut yes2), 0),
    );
    line(t, name, "check of tables (tied)", times, 1.0);
    let times = medians(
        || assert_eq!(calls::neighbours(t.n, &t.edges, &t.nodes, &t.keys, 5, &mut out, &mut count), 0),
        || assert_eq!(lent::neighbours(t.n, &t.edges, &t.nodes, &t.keys, 5, &mut out2, &mut count2), 0),
    );
    line(t, name, "neighbours", times, 1.0);
    assert_eq!((yes, count, out), (yes2, count2, out2));
}

/// A visible node that is as far from node 5 as any.
fn farthest(file: &[u8], n: u16) -> u16 {
    let far = |q: u16| {
        let mut d = 0;
        (calls::file_distance(file, 5, q, &mut d) == 0).then_some(d)
    };
    (0..n).max_by_key(|&q| far(q)).unwrap()
}

fn files(t: &Tables, name: &str) {
    let (mut out, mut counts) = (vec![0; FILE_BYTES], Counts::default());
    let (mut out2, mut counts2) = (vec![0; FILE_BYTES], Counts::default());
    let times = medians(
        || assert_eq!(calls::release(t.n, &t.edges, &t.nodes, &t.keys, &mut out, &mut counts), 0),
        || assert_eq!(lent::release(t.n, &t.edges, &t.nodes, &t.keys, &mut out2, &mut counts2), 0),
    );
    line(t, name, "release", times, 1.0);
    assert!(out == out2 && counts == counts2);
    let file = &out[..counts.bytes as usize];
    let (mut a, mut b) = (Tables::filled(t.n, 7), Tables::filled(t.n, 7));
    let times = medians(
        || assert_eq!(calls::read(t.n, &mut a.edges, &mut a.nodes, &mut a.keys, file), 0),
        || assert_eq!(lent::read(t.n, &mut b.edges, &mut b.nodes, &mut b.keys, file), 0),
    );
    line(t, name, "read", times, 1.0);
    assert_eq!(a, b);
    let (mut list, mut count, mut list2, mut count2) = ([0; 1024], 0, [0; 1024], 0);
    let times = medians(
        || assert_eq!(calls::file_neighbours(black_box(file), 5, &mut list, &mut count), 0),
        || assert_eq!(lent::file_neighbours(black_box(file), 5, &mut list2, &mut count2), 0),
    );
    line(t, name, "file query", times, 1.0);
    assert_eq!((list, count), (list2, count2));
    let (q, mut far, mut far2) = (farthest(file, t.n as u16), 0, 0);
    let times = medians(
        || assert_eq!(calls::file_distance(black_box(file), 5, q, &mut far), 0),
        || assert_eq!(lent::file_distance(black_box(file), 5, q, &mut far2), 0),
    );
    line(t, name, "distance of the farthest", times, 1.0);
    assert_eq!(far, far2);
    let times = medians(
        || assert_eq!(calls::file_distance(black_box(file), 5, q, &mut far), 0),
        || assert_eq!(calls::file_neighbours(black_box(file), 5, &mut list, &mut count), 0),
    );
    line(t, name, "the same, against a file query", times, 1.0);
}

/// A call's line, after its library's and its other form were found to do the same; what is lent as the call leaves it.
fn on_lent(x: &Lent, name: &str, what: &str, first: impl Fn(&mut Lent), second: impl Fn(&mut Lent), undo: impl Fn(&mut Lent)) -> Lent {
    let (mut a, mut b, mut both) = (x.clone(), x.clone(), x.clone());
    first(&mut a);
    second(&mut b);
    assert_eq!(a, b);
    line(&x.t, name, what, medians_undone(&mut both, first, second, undo), 1.0);
    assert_eq!(&both, x);
    a
}

/// The last of so many states kept, restored and dropped. A keep is undone by zeros in its place, a drop by the words that it had; a
/// restore goes into the tables that are there, and has nothing to undo.
fn states(t: &Tables, name: &str, states: usize, which: &str) {
    let under = graphs::name(10 * states);
    let (n, last) = (t.n, states - 1);
    let mut x = Lent::filled(n, 7);
    assert_eq!(lent::open(n, &mut x.t.edges, &mut x.t.nodes, &mut x.t.keys, &mut x.store), 0);
    x.t = t.clone();
    for k in 1..states {
        assert_eq!(lent::keep(n, &t.edges, &t.nodes, &t.keys, &mut x.store, &graphs::name(10 * k)), 0);
    }
    let first = |x: &mut Lent| assert_eq!(calls::keep(n, &x.t.edges, &x.t.nodes, &x.t.keys, &mut x.store, &under), 0);
    let second = |x: &mut Lent| assert_eq!(lent::keep(n, &x.t.edges, &x.t.nodes, &x.t.keys, &mut x.store, &under), 0);
    let mut x = on_lent(&x, name, &format!("keep {which}"), first, second, |x| x.place(last).fill(0));
    let first = |x: &mut Lent| assert_eq!(calls::restore(n, &mut x.t.edges, &mut x.t.nodes, &mut x.t.keys, &x.store, &under), 0);
    let second = |x: &mut Lent| assert_eq!(lent::restore(n, &mut x.t.edges, &mut x.t.nodes, &mut x.t.keys, &x.store, &under), 0);
    assert_eq!(on_lent(&x, name, &format!("restore {which}"), first, second, |_| ()).t, *t);
    let state = x.place(last).to_vec();
    let first = |x: &mut Lent| assert_eq!(calls::drop(n, &mut x.store, &under), 0);
    let second = |x: &mut Lent| assert_eq!(lent::drop(n, &mut x.store, &under), 0);
    on_lent(&x, name, &format!("drop {which}"), first, second, |x| x.place(last).copy_from_slice(&state));
}

/// The lines of a graph without its states; every eighth node is hidden.
fn graph(n: usize, shape: Shape, classes: usize, name: &str) -> Tables {
    let mut random = Random(0x1234_5678_9ABC_DEF1);
    let edges = graphs::edges(shape, n, &mut random);
    let t = graphs::build(n, &edges, &graphs::classes(classes, n, &mut random), 8);
    updates(&t, name, classes, &mut random);
    queries(&t, name);
    files(&t, name);
    t
}

fn measure() {
    println!("| n | graph | call | library, µs | other, µs | ratio |");
    println!("|---|---|---|---|---|---|");
    for n in [512, 64] {
        for (shape, name) in SHAPES {
            let t = graph(n, shape, 1, name);
            if n == 512 && shape != Shape::Twins {
                states(&t, name, 1, "one state");
                states(&t, name, 8, "the eighth state");
            }
        }
    }
    for (shape, classes, name) in CLASSED {
        states(&graph(512, shape, classes, name), name, 1, "one state");
    }
}

fn main() {
    let words: Vec<String> = std::env::args().skip(1).collect();
    let number = |i: usize| words.get(i).and_then(|w| w.parse().ok());
    match words.first().map(String::as_str) {
        None => measure(),
        Some("faults") => faults::run(number(1).unwrap_or(1), number(2).unwrap_or(60)),
        Some("program") => program::run("crates/tegmulos/out/tegmulos", number(1).unwrap_or(1), number(2).unwrap_or(60)),
        Some(_) => println!("bench, bench faults SEED SECONDS, or bench program SEED SECONDS"),
    }
}
