//! The program on random and mutated text, against what document 01 says of its input and output.

use crate::calls::Counts;
use crate::graphs::{Random, Tables};
use crate::lent::{self, UPDATES, UPDATE_NUMBERS};
use std::io::{Read, Write};
use std::process::{Command, Stdio};
use std::time::{Duration, Instant};

fn number(s: &[u8]) -> Option<u16> {
    if s.is_empty() || s.len() > 5 || !s.iter().all(u8::is_ascii_digit) || (s.len() > 1 && s[0] == b'0') {
        return None;
    }
    std::str::from_utf8(s).ok()?.parse().ok()
}

fn change(line: &[u8]) -> Option<[u16; UPDATE_NUMBERS]> {
    let words: Vec<&[u8]> = line.split(|&b| b == b' ').collect();
    match words[..] {
        [b"t", u, v] => Some([1, number(u)?, number(v)?, 1]),
        [b"u", u, v] => Some([1, number(u)?, number(v)?, 0]),
        [b"w", u] => Some([2, number(u)?, 0, 1]),
        [b"o", u] => Some([2, number(u)?, 0, 0]),
        _ => None,
    }
}

/// n and the changes, or the line that is refused.
fn parsed(input: &[u8]) -> Result<(usize, Vec<u16>), usize> {
    if input.len() > 65536 {
        return Err(0);
    }
    let mut lines: Vec<&[u8]> = input.split(|&b| b == b'\n').collect();
    let unended = !lines.pop().unwrap().is_empty();
    let whole = lines.len();
    let n = lines.first().and_then(|l| number(l)).filter(|&n| n <= 512).ok_or(1usize)?;
    let mut batch = Vec::new();
    for (i, line) in lines.iter().enumerate().skip(1) {
        if i > UPDATES {
            return Err(i + 1);
        }
        batch.extend(change(line).ok_or(i + 1)?);
    }
    if unended {
        return Err(whole + 1);
    }
    Ok((usize::from(n), batch))
}

fn text(file: &[u8], counts: &Counts) -> String {
    let at = |i: usize| u16::from_le_bytes([file[i], file[i + 1]]);
    let mut out = format!("open {} groups {} joins {}\n", counts.nodes, counts.groups, counts.superedges);
    let mut i = 8;
    while &file[i..i + 2] != b"EN" {
        if &file[i..i + 2] == b"SE" {
            out += &format!("J {} {}\n", at(i + 2), at(i + 4));
            i += 6;
        } else {
            assert_eq!(at(i + 4), 0);
            let members: Vec<String> = (0..usize::from(at(i + 2))).map(|k| at(i + 6 + 2 * k).to_string()).collect();
            out += &format!("{} {}\n", char::from(file[i + 1]), members.join(" "));
            i += 6 + 2 * members.len();
        }
    }
    out
}

fn expected(input: &[u8]) -> String {
    let (n, batch) = match parsed(input) {
        Ok(told) => told,
        Err(k) => return format!("input refused at line {k}\n"),
    };
    let mut t = Tables::filled(n, 7);
    lent::open(n, &mut t.edges, &mut t.nodes, &mut t.keys, &mut vec![7; lent::store_words(n)]);
    let mut answers = vec![0; batch.len() / UPDATE_NUMBERS];
    lent::apply(n, &mut t.edges, &mut t.nodes, &mut t.keys, &batch, &mut answers);
    let (mut file, mut counts) = (vec![0; 65536], Counts::default());
    assert_eq!(lent::release(n, &t.edges, &t.nodes, &t.keys, &mut file, &mut counts), 0);
    let changes: String = answers.iter().enumerate().map(|(i, a)| format!("change {}: {a}\n", i + 1)).collect();
    changes + &text(&file, &counts)
}

fn made(random: &mut Random) -> Vec<u8> {
    let n = [3, 8, 30, 512][random.below(4)];
    let mut s = format!("{n}\n");
    for _ in 0..random.below(if n == 512 { UPDATES } else { 60 }) {
        let (u, v) = (random.below(n + 1), random.below(n));
        s += &match random.below(12) {
            0..=5 => format!("t {u} {v}\n"),
            6 | 7 => format!("u {u} {v}\n"),
            8 => format!("w {u}\n"),
            _ => format!("o {u}\n"),
        };
    }
    s.into_bytes()
}

fn mutated(s: &mut Vec<u8>, random: &mut Random) {
    const BYTES: &[u8] = b"0123456789 \ntuwo\r\t-+x\0";
    for _ in 0..random.below(3) {
        let i = random.below(s.len() + 1);
        match random.below(4) {
            0 => s.insert(i, BYTES[random.below(BYTES.len())]),
            1 if i < s.len() => s[i] = BYTES[random.below(BYTES.len())],
            2 if i < s.len() => {
                s.remove(i);
            }
            3 if random.below(8) == 0 => s.truncate(i),
            _ => {}
        }
    }
    match random.below(60) {
        0 => (0..=UPDATES).for_each(|_| s.extend(b"t 0 1\n")),
        1 => s.resize(65530 + random.below(12), b'\n'),
        2 => s.extend((0..random.below(20)).map(|_| random.next() as u8)),
        _ => {}
    }
}

fn run_program(program: &str, input: &[u8]) -> Vec<u8> {
    let mut child = Command::new(program).stdin(Stdio::piped()).stdout(Stdio::piped()).spawn().expect(program);
    // The program may stop reading before the end.
    let _ = child.stdin.take().unwrap().write_all(input);
    let mut out = Vec::new();
    child.stdout.take().unwrap().read_to_end(&mut out).unwrap();
    assert!(child.wait().unwrap().success());
    out
}

pub fn run(program: &str, seed: u64, seconds: u64) {
    let mut random = Random(seed.wrapping_mul(0x9E37_79B9_7F4A_7C15) | 1);
    let (mut inputs, mut refused) = (0, 0);
    let end = Instant::now() + Duration::from_secs(seconds);
    while Instant::now() < end {
        let mut input = made(&mut random);
        mutated(&mut input, &mut random);
        let wanted = expected(&input);
        assert!(run_program(program, &input) == wanted.as_bytes(), "{}", String::from_utf8_lossy(&input));
        inputs += 1;
        refused += u64::from(wanted.starts_with("input"));
    }
    println!("program, seed {seed}, {seconds} s: {inputs} inputs, {refused} of them refused");
}
