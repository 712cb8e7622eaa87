//! An image in one block of words, its text, and its checks.
use crate::laps::Laps;
use crate::marking::{mark, Heap};
use crate::marks::Bits;
use crate::prefetch::fetch;
use std::fs::File;
use std::io::{self, Read, Seek, SeekFrom, Write};

/// How many objects ahead memory is asked for.
pub const AHEAD: usize = 16;

const FRONT_BYTES: usize = 32;

/// The most words that are read, fewer than an image of version 3 may have: stack and ranks have 32 bits for each, and no gap
/// is so long that it takes two fillers.
const MOST_WORDS: u64 = 1 << 31;

#[derive(Debug)]
#[allow(dead_code)]
pub enum Fault {
    TruncatedHeader,
    Magic,
    RegionLog,
    Length,
    TruncatedBody,
    LiveOrder(u32),
    Header(u64),
    Overlap(u64),
    Reference(u64, u32),
    Trailing,
    Root(u32),
    Io(io::Error),
}

impl From<io::Error> for Fault {
    fn from(error: io::Error) -> Fault {
        Fault::Io(error)
    }
}

#[derive(Clone)]
pub struct Image {
    /// 1 has a live list, 2 and 3 have roots.
    pub version: u8,
    pub region_log: u32,
    pub allowance: u64,
    pub words: Vec<u64>,
    pub live: Vec<u64>,
    /// From version 2 on.
    pub roots: Option<Vec<u64>>,
    /// All words of live objects, by their addresses and 1, and null.
    pub marks: Bits,
}

impl Heap for Image {
    fn words(&self) -> usize {
        self.words.len()
    }

    fn word(&self, a: usize) -> u64 {
        self.words[a]
    }

    fn row(&self, a: usize, count: usize) -> impl Iterator<Item = u64> {
        self.words[a..a + count].iter().copied()
    }

    fn fetch(&self, a: usize) {
        fetch(&self.words, a);
    }
}

impl Image {
    pub fn region_words(&self) -> usize {
        1 << self.region_log
    }

    pub fn live_words(&self) -> usize {
        self.live.iter().map(|&a| self.header(a as usize).size()).sum()
    }

    pub fn references(&self) -> usize {
        self.live.iter().map(|&a| self.header(a as usize).references()).sum()
    }

    /// Finds the live objects where there are roots. Whether they are sound, do not overlap, and lead to one another.
    fn check(&mut self) -> Result<(), Fault> {
        match &self.roots {
            None => {
                let begins = self.begins()?;
                if !self.mark_listed(&begins) {
                    check_objects(self, &self.live, &begins)?;
                }
            }
            Some(roots) => (self.live, self.marks) = live_from_roots(self, roots)?,
        }
        Ok(())
    }

    /// The first words of the live objects, and null.
    fn begins(&self) -> Result<Bits, Fault> {
        let mut begins = Bits::new(self.words.len());
        begins.insert(0);
        let mut next = 0;
        for (i, &a) in self.live.iter().enumerate() {
            if a < next || a >= self.words.len() as u64 {
                return Err(Fault::LiveOrder(i as u32));
            }
            begins.insert(a as usize + 1);
            next = a + 1;
        }
        Ok(begins)
    }

    /// Marks the words of the listed objects. Whether they are sound, do not overlap, and lead to one another.
    fn mark_listed(&mut self, begins: &Bits) -> bool {
        self.marks = Bits::new(self.words.len());
        self.marks.insert(0);
        let mut end = 0;
        for (i, &a) in self.live.iter().enumerate() {
            let a = a as usize;
            self.fetch_ahead(i);
            let header = self.header(a);
            if a < end || !self.is_sound(a, header) {
                return false;
            }
            end = a + header.size();
            self.marks.insert_run(a + 1, end + 1);
            let fields = &self.words[a + 1..][..header.references()];
            if !fields.iter().fold(true, |all, &reference| all & begins.contains(reference)) {
                return false;
            }
        }
        true
    }

    /// Asks for the memory of an object that comes after the live object with this index.
    pub fn fetch_ahead(&self, i: usize) {
        if let Some(&a) = self.live.get(i + AHEAD) {
            self.fetch(a as usize);
            self.fetch(a as usize + 8);
        }
    }

    /// Marks the words of the live objects of a heap that was checked.
    pub fn mark_live(&mut self) {
        self.marks = Bits::new(self.words.len());
        self.marks.insert(0);
        for (i, &a) in self.live.iter().enumerate() {
            self.fetch_ahead(i);
            self.marks.insert_run(a as usize + 1, a as usize + 1 + self.header(a as usize).size());
        }
    }
}

/// The objects that the roots lead to, ascending, and the marks of their words, where they are sound and do not overlap.
pub fn live_from_roots(heap: &impl Heap, roots: &[u64]) -> Result<(Vec<u64>, Bits), Fault> {
    if let Some(i) = roots.iter().position(|&root| root > heap.words() as u64) {
        return Err(Fault::Root(i as u32));
    }
    let marked = mark(heap, roots);
    let mut live = marked.begins.places();
    live.remove(0);
    live.iter_mut().for_each(|place| *place -= 1);
    // Objects overlap where fewer words are marked than the objects have.
    if !marked.is_sound || marked.live.len() != marked.words {
        check_objects(heap, &live, &marked.begins)?;
    }
    Ok((live, marked.live))
}

fn check_objects(heap: &impl Heap, live: &[u64], begins: &Bits) -> Result<(), Fault> {
    check_headers(heap, live)?;
    check_references(heap, live, begins)
}

fn check_headers(heap: &impl Heap, live: &[u64]) -> Result<(), Fault> {
    let mut end = 0;
    let mut overlap = None;
    for &a in live {
        let header = heap.header(a as usize);
        if !heap.is_sound(a as usize, header) {
            return Err(Fault::Header(a));
        }
        if a < end && overlap.is_none() {
            overlap = Some(a);
        }
        end = a + header.size() as u64;
    }
    overlap.map_or(Ok(()), |a| Err(Fault::Overlap(a)))
}

fn check_references(heap: &impl Heap, live: &[u64], begins: &Bits) -> Result<(), Fault> {
    for &a in live {
        let count = heap.header(a as usize).references();
        for (f, reference) in heap.row(a as usize + 1, count).enumerate() {
            if !begins.contains(reference) {
                return Err(Fault::Reference(a, f as u32));
            }
        }
    }
    Ok(())
}

fn number(bytes: &[u8]) -> u64 {
    u64::from_le_bytes(bytes.try_into().unwrap())
}

/// The bytes of these words. Images have the lowest byte of a word first, as the processors that this runs on.
fn bytes_of(words: &[u64]) -> &[u8] {
    const { assert!(cfg!(target_endian = "little")) };
    // Each byte of a word is a byte, and a byte may lie anywhere.
    unsafe { std::slice::from_raw_parts(words.as_ptr().cast(), 8 * words.len()) }
}

/// Reads so many words straight into the memory where they stay.
fn read_numbers(reader: &mut impl Read, count: usize) -> Result<Vec<u64>, Fault> {
    let mut numbers: Vec<u64> = Vec::with_capacity(count);
    // There is room for so many bytes, all of which are read before they count as words.
    let room = unsafe { std::slice::from_raw_parts_mut(numbers.as_mut_ptr().cast::<u8>(), 8 * count) };
    reader.read_exact(room).map_err(|error| match error.kind() {
        io::ErrorKind::UnexpectedEof => Fault::TruncatedBody,
        _ => Fault::Io(error),
    })?;
    unsafe { numbers.set_len(count) };
    Ok(numbers)
}

pub fn read(mut reader: impl Read, laps: &mut Laps) -> Result<Image, Fault> {
    let mut front = [0; FRONT_BYTES];
    reader.read_exact(&mut front).map_err(|_| Fault::TruncatedHeader)?;
    let version = match &front[..8] {
        b"PCHEAP01" => 1,
        b"PCHEAP02" => 2,
        b"PCHEAP03" => 3,
        _ => return Err(Fault::Magic),
    };
    let (most_log, most_words, most_regions) = if version == 3 { (20, MOST_WORDS, 1 << 20) } else { (16, 1 << 22, 1 << 14) };
    let region_log = u32::from_le_bytes(front[8..12].try_into().unwrap());
    if !(3..=most_log).contains(&region_log) {
        return Err(Fault::RegionLog);
    }
    let count = u64::from(u32::from_le_bytes(front[12..16].try_into().unwrap()));
    let words = number(&front[16..24]);
    let is_whole = words & ((1 << region_log) - 1) == 0;
    if words == 0 || words > most_words || !is_whole || words >> region_log > most_regions || count > words {
        return Err(Fault::Length);
    }
    let words = read_numbers(&mut reader, words as usize)?;
    let tail = read_numbers(&mut reader, count as usize)?;
    let (live, roots) = if version == 1 { (tail, None) } else { (Vec::new(), Some(tail)) };
    let mut image = Image { version, region_log, allowance: number(&front[24..]), words, live, roots, marks: Bits::new(0) };
    laps.end("read");
    image.check()?;
    laps.end("check");
    match reader.read(&mut [0])? {
        0 => Ok(image),
        _ => Err(Fault::Trailing),
    }
}

/// Writes an image into a new file. The words from `top` on, which are 0, are left as a hole.
pub fn write(image: &Image, top: usize, mut file: File) -> Result<(), Fault> {
    let tail = image.roots.as_ref().unwrap_or(&image.live);
    let mut front = [0; FRONT_BYTES];
    front[..7].copy_from_slice(b"PCHEAP0");
    front[7] = b'0' + image.version;
    front[8..12].copy_from_slice(&image.region_log.to_le_bytes());
    front[12..16].copy_from_slice(&(tail.len() as u32).to_le_bytes());
    front[16..24].copy_from_slice(&(image.words.len() as u64).to_le_bytes());
    front[24..].copy_from_slice(&image.allowance.to_le_bytes());
    file.write_all(&front)?;
    file.write_all(bytes_of(&image.words[..top]))?;
    let end = FRONT_BYTES + 8 * image.words.len();
    file.set_len(end as u64)?;
    file.seek(SeekFrom::Start(end as u64))?;
    file.write_all(bytes_of(tail))?;
    Ok(())
}
