//! What the benchmarks measure beside: the job of `pcompact collect` in plain Rust, by one thread and without proofs; a
//! copy of an image; a move of words. It makes the images too, and measures a process.
mod collection;
mod generator;
mod header;
mod image;
mod laps;
mod marking;
mod marks;
mod prefetch;
mod process;

use std::fs::File;
use std::hint::black_box;
use std::io::{self, Read, Write};
use std::process::exit;
use std::str::FromStr;
use std::time::Instant;

const USAGE: &str = "usage:
  plain generate OUT --mib n --live percent --log n --references percent
                     [--shape graph|list|chain|tree|array|object|last] [--version 1|2|3]
  plain tell IMAGE
  plain collect IMAGE OUT
  plain phases IMAGE OUT
  plain memory IMAGE OUT ROUNDS
  plain copy IMAGE OUT
  plain move WORDS
  plain measure PROGRAM WORD ..";

fn copy(from: &str, to: &str) -> io::Result<()> {
    let (mut reader, mut writer) = (File::open(from)?, File::create(to)?);
    let mut buffer = vec![0; 1 << 16];
    loop {
        match reader.read(&mut buffer)? {
            0 => return Ok(()),
            n => writer.write_all(&buffer[..n])?,
        }
    }
}

/// Moves so many words down by one word at once, and tells the nanoseconds.
fn move_words(count: usize) {
    let mut words: Vec<u64> = (0..=count as u64).collect();
    let start = Instant::now();
    black_box(&mut words).copy_within(1.., 0);
    println!("{} {}", start.elapsed().as_nanos(), black_box(&words)[count / 2]);
}

/// What stands behind the word `name`.
fn asked<T: FromStr>(words: &[String], name: &str) -> Option<T> {
    let at = words.iter().position(|word| word == name)?;
    words.get(at + 1)?.parse().ok()
}

/// The same, or something else where there is no such word.
fn asked_or<T: FromStr>(words: &[String], name: &str, other: T) -> Option<T> {
    match words.iter().any(|word| word == name) {
        true => asked(words, name),
        false => Some(other),
    }
}

/// Tells how many live objects, live words, references and roots an image has.
fn tell(image: &image::Image) {
    let roots = image.roots.as_ref().map_or(0, Vec::len);
    println!("{} {} {} {roots}", image.live.len(), image.live_words(), image.references());
}

fn tell_file(from: &str) -> Result<(), image::Fault> {
    tell(&image::read(File::open(from)?, &mut laps::Laps::new())?);
    Ok(())
}

fn generate(out: &str, words: &[String]) -> Option<Result<(), image::Fault>> {
    let wanted = generator::Asked {
        words: asked::<usize>(words, "--mib")? << 17,
        live: asked(words, "--live")?,
        region_log: asked(words, "--log")?,
        references: asked(words, "--references")?,
        shape: asked_or(words, "--shape", generator::Shape::Graph)?,
        version: asked_or(words, "--version", 1)?,
    };
    let image = generator::generate(&wanted);
    tell(&image);
    Some(File::create(out).map_err(image::Fault::from).and_then(|file| image::write(&image, image.words.len(), file)))
}

fn run(words: &[String]) -> Option<Result<(), image::Fault>> {
    match words {
        [command, out, rest @ ..] if command == "generate" => generate(out, rest),
        [command, from] if command == "tell" => Some(tell_file(from)),
        [command, from, to] if command == "collect" => Some(collection::run(from, to).map(drop)),
        [command, from, to] if command == "phases" => Some(collection::run(from, to).map(|laps| laps.tell())),
        [command, from, to, rounds] if command == "memory" => {
            Some(collection::run_in_memory(from, to, rounds.parse().ok()?))
        }
        [command, from, to] if command == "copy" => Some(copy(from, to).map_err(image::Fault::from)),
        [command, count] if command == "move" => Some(Ok(move_words(count.parse().ok()?))),
        [command, program, rest @ ..] if command == "measure" => Some(process::measure(program, rest)),
        _ => None,
    }
}

fn main() {
    let words: Vec<String> = std::env::args().skip(1).collect();
    match run(&words) {
        Some(Ok(())) => (),
        Some(Err(fault)) => {
            eprintln!("plain: fault {fault:?}");
            exit(1);
        }
        None => {
            eprintln!("{USAGE}");
            exit(2);
        }
    }
}
