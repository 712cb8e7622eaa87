//! Times std's `copy_from_slice`, `copy_within` and `fill` as `crates/moves` times the calls of `Region`.
use std::hint::black_box;
use std::time::Instant;

const BLOCK: usize = 4_096;
const SHIFTS: usize = 32;
const WORDS: usize = BLOCK + 2 * SHIFTS;
const ROUNDS: usize = 100_000;

fn copies(to: &mut [u64], other: &[u64]) -> u64 {
    let mut seen = 0;
    for round in 0..ROUNDS {
        let at = round % SHIFTS;
        to[at..at + BLOCK].copy_from_slice(&other[SHIFTS + at..SHIFTS + at + BLOCK]);
        seen ^= to[at];
    }
    seen
}

fn slides(words: &mut [u64]) -> u64 {
    let mut seen = 0;
    for round in 0..ROUNDS {
        let to = round % SHIFTS;
        words.copy_within(SHIFTS + 1..SHIFTS + 1 + BLOCK, to);
        seen ^= words[to];
    }
    seen
}

fn fills(words: &mut [u64]) -> u64 {
    let mut seen = 0;
    for round in 0..ROUNDS {
        let at = round % SHIFTS;
        words[at..at + BLOCK].fill(round as u64);
        seen ^= words[at];
    }
    seen
}

fn main() {
    let mut a = vec![0; WORDS];
    let mut b = vec![0; WORDS];
    for (i, word) in b.iter_mut().enumerate() {
        *word = i as u64;
    }
    let a = black_box(a.as_mut_slice());
    let b = black_box(b.as_slice());

    let start = Instant::now();
    let seen = copies(a, b);
    println!("copy_from_slice {} {seen}", start.elapsed().as_nanos());

    let start = Instant::now();
    let seen = slides(a);
    println!("copy_within {} {seen}", start.elapsed().as_nanos());

    let start = Instant::now();
    let seen = fills(a);
    println!("fill {} {seen}", start.elapsed().as_nanos());
}
