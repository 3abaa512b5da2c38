//! The exported calls on slices: each pointer goes with the length of its own slice, and the borrows keep them apart.

mod c {
    extern "C" {
        pub fn tegmulos_open(n: usize, e: *mut u64, el: usize, v: *mut u16, vl: usize, k: *mut u32, kl: usize, s: *mut u64, sl: usize) -> u16;
        pub fn tegmulos_keep(n: usize, e: *const u64, el: usize, v: *const u16, vl: usize, k: *const u32, kl: usize, s: *mut u64, sl: usize, name: *const u8, name_len: usize) -> u16;
        pub fn tegmulos_restore(n: usize, e: *mut u64, el: usize, v: *mut u16, vl: usize, k: *mut u32, kl: usize, s: *const u64, sl: usize, name: *const u8, name_len: usize) -> u16;
        pub fn tegmulos_drop(n: usize, s: *mut u64, sl: usize, name: *const u8, name_len: usize) -> u16;
        pub fn tegmulos_apply(n: usize, e: *mut u64, el: usize, v: *mut u16, vl: usize, k: *mut u32, kl: usize, b: *const u16, bl: usize, a: *mut i16, al: usize) -> u16;
        pub fn tegmulos_neighbours(n: usize, e: *const u64, el: usize, v: *const u16, vl: usize, k: *const u32, kl: usize, p: u16, o: *mut u16, ol: usize, count: *mut u16) -> u16;
        pub fn tegmulos_tied(n: usize, e: *const u64, el: usize, v: *const u16, vl: usize, k: *const u32, kl: usize, p: u16, q: u16, yes: *mut u16) -> u16;
        pub fn tegmulos_group(n: usize, e: *const u64, el: usize, v: *const u16, vl: usize, k: *const u32, kl: usize, p: u16, least: *mut u16, kind: *mut u16, size: *mut u16) -> u16;
        pub fn tegmulos_release(n: usize, e: *const u64, el: usize, v: *const u16, vl: usize, k: *const u32, kl: usize, o: *mut u8, ol: usize, m: *mut u16, g: *mut u16, s: *mut u32, bytes: *mut u32) -> u16;
        pub fn tegmulos_read(n: usize, e: *mut u64, el: usize, v: *mut u16, vl: usize, k: *mut u32, kl: usize, f: *const u8, fl: usize) -> u16;
        pub fn tegmulos_file_neighbours(f: *const u8, fl: usize, p: u16, o: *mut u16, ol: usize, count: *mut u16) -> u16;
        pub fn tegmulos_file_distance(f: *const u8, fl: usize, p: u16, q: u16, distance: *mut u16) -> u16;
    }
}

/// How many nodes, groups, superedges and bytes a release has.
#[derive(Clone, Copy, Debug, Default, PartialEq, Eq)]
pub struct Counts {
    pub nodes: u16,
    pub groups: u16,
    pub superedges: u32,
    pub bytes: u32,
}

/// A group's least member, kind (0 singleton, 1 independent, 2 clique) and size.
#[derive(Clone, Copy, Debug, Default, PartialEq, Eq)]
pub struct Member {
    pub least: u16,
    pub kind: u16,
    pub size: u16,
}

pub fn open(n: usize, e: &mut [u64], v: &mut [u16], k: &mut [u32], store: &mut [u64]) -> u16 {
    unsafe { c::tegmulos_open(n, e.as_mut_ptr(), e.len(), v.as_mut_ptr(), v.len(), k.as_mut_ptr(), k.len(), store.as_mut_ptr(), store.len()) }
}

pub fn keep(n: usize, e: &[u64], v: &[u16], k: &[u32], store: &mut [u64], name: &[u8]) -> u16 {
    unsafe { c::tegmulos_keep(n, e.as_ptr(), e.len(), v.as_ptr(), v.len(), k.as_ptr(), k.len(), store.as_mut_ptr(), store.len(), name.as_ptr(), name.len()) }
}

pub fn restore(n: usize, e: &mut [u64], v: &mut [u16], k: &mut [u32], store: &[u64], name: &[u8]) -> u16 {
    unsafe { c::tegmulos_restore(n, e.as_mut_ptr(), e.len(), v.as_mut_ptr(), v.len(), k.as_mut_ptr(), k.len(), store.as_ptr(), store.len(), name.as_ptr(), name.len()) }
}

pub fn drop(n: usize, store: &mut [u64], name: &[u8]) -> u16 {
    unsafe { c::tegmulos_drop(n, store.as_mut_ptr(), store.len(), name.as_ptr(), name.len()) }
}

pub fn apply(n: usize, e: &mut [u64], v: &mut [u16], k: &mut [u32], batch: &[u16], answers: &mut [i16]) -> u16 {
    unsafe { c::tegmulos_apply(n, e.as_mut_ptr(), e.len(), v.as_mut_ptr(), v.len(), k.as_mut_ptr(), k.len(), batch.as_ptr(), batch.len(), answers.as_mut_ptr(), answers.len()) }
}

pub fn neighbours(n: usize, e: &[u64], v: &[u16], k: &[u32], p: u16, out: &mut [u16], count: &mut u16) -> u16 {
    unsafe { c::tegmulos_neighbours(n, e.as_ptr(), e.len(), v.as_ptr(), v.len(), k.as_ptr(), k.len(), p, out.as_mut_ptr(), out.len(), count) }
}

pub fn tied(n: usize, e: &[u64], v: &[u16], k: &[u32], p: u16, q: u16, yes: &mut u16) -> u16 {
    unsafe { c::tegmulos_tied(n, e.as_ptr(), e.len(), v.as_ptr(), v.len(), k.as_ptr(), k.len(), p, q, yes) }
}

pub fn group(n: usize, e: &[u64], v: &[u16], k: &[u32], p: u16, member: &mut Member) -> u16 {
    unsafe { c::tegmulos_group(n, e.as_ptr(), e.len(), v.as_ptr(), v.len(), k.as_ptr(), k.len(), p, &mut member.least, &mut member.kind, &mut member.size) }
}

pub fn release(n: usize, e: &[u64], v: &[u16], k: &[u32], out: &mut [u8], counts: &mut Counts) -> u16 {
    unsafe { c::tegmulos_release(n, e.as_ptr(), e.len(), v.as_ptr(), v.len(), k.as_ptr(), k.len(), out.as_mut_ptr(), out.len(), &mut counts.nodes, &mut counts.groups, &mut counts.superedges, &mut counts.bytes) }
}

pub fn read(n: usize, e: &mut [u64], v: &mut [u16], k: &mut [u32], file: &[u8]) -> u16 {
    unsafe { c::tegmulos_read(n, e.as_mut_ptr(), e.len(), v.as_mut_ptr(), v.len(), k.as_mut_ptr(), k.len(), file.as_ptr(), file.len()) }
}

pub fn file_neighbours(file: &[u8], p: u16, out: &mut [u16], count: &mut u16) -> u16 {
    unsafe { c::tegmulos_file_neighbours(file.as_ptr(), file.len(), p, out.as_mut_ptr(), out.len(), count) }
}

pub fn file_distance(file: &[u8], p: u16, q: u16, distance: &mut u16) -> u16 {
    unsafe { c::tegmulos_file_distance(file.as_ptr(), file.len(), p, q, distance) }
}
