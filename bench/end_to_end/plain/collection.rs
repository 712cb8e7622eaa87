//! The compaction in place: LISP2 with mark bits and block counts, by one thread.
use crate::header::Header;
use crate::image::{self, Fault, Image, AHEAD};
use crate::laps::Laps;
use crate::marking::Heap;
use crate::marks::Ranks;
use std::fs::File;
use std::hint::black_box;
use std::time::Instant;

/// Shorter rows of words are moved word by word.
const LONG: usize = 16;

/// Of so many references of an object marks are asked for ahead.
const FETCHED: usize = 8;

/// Collects an image, and tells the time of each phase.
pub fn run(from: &str, to: &str) -> Result<Laps, Fault> {
    let mut laps = Laps::new();
    let mut image = image::read(File::open(from)?, &mut laps)?;
    let (prefix, top) = collect(&mut image, &mut laps);
    laps.end("clean-up");
    image::write(&image, top, File::create(to)?)?;
    laps.end("write");
    println!("prefix {prefix} top {top} filled {}", top.div_ceil(image.region_words()));
    Ok(laps)
}

/// Collects copies of an image in memory, one a round, and tells the nanoseconds of each. The last one is written.
pub fn run_in_memory(from: &str, to: &str, rounds: usize) -> Result<(), Fault> {
    let read = image::read(File::open(from)?, &mut Laps::new())?;
    for round in 1..=rounds {
        let mut image = read.clone();
        let start = Instant::now();
        image.mark_live();
        let (_, top) = collect(&mut image, &mut Laps::new());
        image.words[top..].fill(0);
        black_box(&mut image);
        println!("{}", start.elapsed().as_nanos());
        if round == rounds {
            image::write(&image, image.words.len(), File::create(to)?)?;
        }
    }
    Ok(())
}

/// Collects in place, all but the words above the new top, and tells the prefix end and the new top.
fn collect(image: &mut Image, laps: &mut Laps) -> (usize, usize) {
    laps.end("marks");
    let prefix = prefix_end(image);
    if prefix > 0 {
        // With all words below it marked, the rank of an address below the prefix end is the address.
        image.marks.insert_run(1, 1 + prefix);
    }
    let ranks = Ranks::of(&image.marks);
    laps.end("plan");
    let top = slide(image, &ranks, prefix);
    laps.end("fills");
    for root in image.roots.iter_mut().flatten() {
        *root = ranks.rank(*root);
    }
    (prefix, top)
}

fn prefix_end(image: &Image) -> usize {
    let region = image.region_words();
    let end = image.live.last().map_or(0, |&a| a as usize + image.header(a as usize).size());
    let mut dead = 0;
    let mut prefix = 0;
    for start in (0..end - end % region).step_by(region) {
        dead += (region - image.marks.count(1 + start, 1 + start + region)) as u64;
        if dead > image.allowance {
            break;
        }
        prefix = start + region;
    }
    prefix
}

/// Moves all objects down, redirects their references, and answers the new top.
fn slide(image: &mut Image, ranks: &Ranks, prefix: usize) -> usize {
    let mut top = 0;
    for i in 0..image.live.len() {
        image.fetch_ahead(i);
        fetch_targets(image, i + AHEAD / 2, ranks);
        let a = image.live[i];
        let to = ranks.rank(a + 1) as usize - 1;
        if top < to {
            write_filler(&mut image.words[top..to]);
        }
        top = to + move_object(&mut image.words, a as usize, to, ranks);
        image.live[i] = to as u64;
    }
    if top < prefix {
        write_filler(&mut image.words[top..prefix]);
    }
    top.max(prefix)
}

/// Asks for the marks of what the live object with this index refers to, but for all but its first references.
fn fetch_targets(image: &Image, i: usize, ranks: &Ranks) {
    if let Some(&a) = image.live.get(i) {
        let count = image.header(a as usize).references().min(FETCHED);
        for reference in image.row(a as usize + 1, count) {
            ranks.fetch(reference);
        }
    }
}

fn write_filler(words: &mut [u64]) {
    words[0] = Header::filler(words.len()).0;
    words[1..].fill(0);
}

/// Moves one object down and answers its size.
fn move_object(words: &mut [u64], from: usize, to: usize, ranks: &Ranks) -> usize {
    let header = Header(words[from]);
    words[to] = header.0;
    let data = 1 + header.references();
    for f in 1..data {
        words[to + f] = ranks.rank(words[from + f]);
    }
    if to < from {
        move_data(words, from + data, to + data, header.size() - data);
    }
    header.size()
}

fn move_data(words: &mut [u64], from: usize, to: usize, n: usize) {
    if n < LONG {
        for i in 0..n {
            words[to + i] = words[from + i];
        }
    } else {
        words.copy_within(from..from + n, to);
    }
}
