//! Times in plain Rust what `codec.rt.txt` times of `mark_from_roots`, over images whose files are named: regions in
//! blocks of their own; an explicit stack, and a ring of objects that wait for their headers; the live list by words of 64
//! bits; the check of the objects that were reached.
#![allow(dead_code)]
#[path = "../../end_to_end/plain/header.rs"]
mod header;
#[path = "../../end_to_end/plain/image.rs"]
mod image;
#[path = "../../end_to_end/plain/laps.rs"]
mod laps;
#[path = "../../end_to_end/plain/marking.rs"]
mod marking;
#[path = "../../end_to_end/plain/marks.rs"]
mod marks;
#[path = "../../end_to_end/plain/prefetch.rs"]
mod prefetch;

use image::{live_from_roots, Fault};
use laps::Laps;
use marking::Heap;
use prefetch::fetch;
use std::fs::File;
use std::time::Instant;

struct Regions {
    log: u32,
    blocks: Vec<Box<[u64]>>,
}

impl Heap for Regions {
    fn words(&self) -> usize {
        self.blocks.len() << self.log
    }

    fn word(&self, a: usize) -> u64 {
        self.blocks[a >> self.log][a & ((1 << self.log) - 1)]
    }

    fn row(&self, a: usize, count: usize) -> impl Iterator<Item = u64> {
        (a..a + count).map(|field| self.word(field))
    }

    fn fetch(&self, a: usize) {
        if let Some(block) = self.blocks.get(a >> self.log) {
            fetch(block, a & ((1 << self.log) - 1));
        }
    }
}

fn main() -> Result<(), Fault> {
    for name in std::env::args().skip(1) {
        let image = image::read(File::open(&name)?, &mut Laps::new())?;
        let log = image.region_log;
        let heap = Regions { log, blocks: image.words.chunks(1 << log).map(Box::from).collect() };
        let roots = image.roots.unwrap_or_default();

        let start = Instant::now();
        let (live, _) = live_from_roots(&heap, &roots)?;
        let nanoseconds = start.elapsed().as_nanos();
        let seen = live.iter().fold(live.len() as u64, |seen, a| seen.rotate_left(1) ^ a);
        println!("{name} {nanoseconds} {seen}");
    }
    Ok(())
}
