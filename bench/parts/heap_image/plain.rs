//! Times in plain Rust what `codec.rt.txt` times of `heap_image`: an image of the same form, in blocks of a region
//! each, with the same checks and the same first fault. With the word `generate` it writes the file `image` instead:
//! the largest image, half live.
use std::fs::{self, File};
use std::hint::black_box;
use std::io::{self, Read, Write};
use std::time::Instant;

const WORDS: usize = 4_194_304;
const REGION_LOG: u32 = 9;
const ROOM: usize = 65_536;

#[derive(Debug)]
#[allow(dead_code)]
enum Fault {
    TruncatedHeader,
    Magic,
    RegionLog,
    Length,
    TruncatedBody,
    LiveOrder(u32),
    Header(u64),
    Overlap(u64),
    Reference(u64, u32),
    Trailing,
    Io,
}

impl From<io::Error> for Fault {
    fn from(_: io::Error) -> Fault {
        Fault::Io
    }
}

struct Image {
    region_log: u32,
    allowance: u64,
    regions: Vec<Box<[u64]>>,
    live: Vec<u64>,
}

impl Image {
    fn word(&self, a: u64) -> u64 {
        self.regions[(a >> self.region_log) as usize][(a & ((1 << self.region_log) - 1)) as usize]
    }

    fn len(&self) -> u64 {
        (self.regions.len() as u64) << self.region_log
    }

    fn front(&self) -> [u8; 32] {
        let mut front = [0; 32];
        front[..8].copy_from_slice(b"PCHEAP01");
        front[8..12].copy_from_slice(&self.region_log.to_le_bytes());
        front[12..16].copy_from_slice(&(self.live.len() as u32).to_le_bytes());
        front[16..24].copy_from_slice(&self.len().to_le_bytes());
        front[24..].copy_from_slice(&self.allowance.to_le_bytes());
        front
    }
}

fn number(bytes: &[u8]) -> u64 {
    u64::from_le_bytes(bytes.try_into().unwrap())
}

/// The first numbers that come, as many as there is room for.
fn read_numbers(reader: &mut impl Read, buffer: &mut [u8], numbers: &mut [u64]) -> Result<(), Fault> {
    for some in numbers.chunks_mut(buffer.len() / 8) {
        let bytes = &mut buffer[..8 * some.len()];
        reader.read_exact(bytes).map_err(|e| match e.kind() {
            io::ErrorKind::UnexpectedEof => Fault::TruncatedBody,
            _ => Fault::Io,
        })?;
        for (number, bytes) in some.iter_mut().zip(bytes.chunks_exact(8)) {
            *number = u64::from_le_bytes(bytes.try_into().unwrap());
        }
    }
    Ok(())
}

fn read_image(mut reader: impl Read) -> Result<Image, Fault> {
    let mut front = [0; 32];
    reader.read_exact(&mut front).map_err(|_| Fault::TruncatedHeader)?;
    if &front[..8] != b"PCHEAP01" {
        return Err(Fault::Magic);
    }
    let region_log = u32::from_le_bytes(front[8..12].try_into().unwrap());
    if !(3..=16).contains(&region_log) {
        return Err(Fault::RegionLog);
    }
    let count = u32::from_le_bytes(front[12..16].try_into().unwrap());
    let words = number(&front[16..24]);
    let regions = words >> region_log;
    let is_whole = words & ((1 << region_log) - 1) == 0;
    if words == 0 || words > WORDS as u64 || !is_whole || regions > 16_384 || u64::from(count) > words {
        return Err(Fault::Length);
    }
    let mut buffer = vec![0; 8 << region_log.min(13)];
    let mut image = Image {
        region_log,
        allowance: number(&front[24..]),
        regions: Vec::with_capacity(regions as usize),
        live: vec![0; count as usize],
    };
    for _ in 0..regions {
        let mut region = vec![0; 1 << region_log].into_boxed_slice();
        read_numbers(&mut reader, &mut buffer, &mut region)?;
        image.regions.push(region);
    }
    read_numbers(&mut reader, &mut buffer, &mut image.live)?;
    check(&image)?;
    match reader.read(&mut [0])? {
        0 => Ok(image),
        _ => Err(Fault::Trailing),
    }
}

fn decode(bytes: &[u8]) -> Result<Image, Fault> {
    read_image(bytes)
}

fn check(image: &Image) -> Result<(), Fault> {
    let words = image.len();
    let mut next = 0;
    for (i, &a) in image.live.iter().enumerate() {
        if a < next || a >= words {
            return Err(Fault::LiveOrder(i as u32));
        }
        next = a + 1;
    }
    let mut begins = vec![0u64; words as usize / 64 + 1];
    let mut end = 0;
    let mut overlap = None;
    for &a in &image.live {
        let header = image.word(a);
        let size = header & 0xffff_ffff;
        let references = header >> 32 & 0xff_ffff;
        if header >> 56 != 1 || size <= references || a + size > words {
            return Err(Fault::Header(a));
        }
        if a < end && overlap.is_none() {
            overlap = Some(a);
        }
        end = a + size;
        begins[a as usize / 64] |= 1 << (a % 64);
    }
    if let Some(a) = overlap {
        return Err(Fault::Overlap(a));
    }
    for &a in &image.live {
        let references = image.word(a) >> 32 & 0xff_ffff;
        for field in 0..references {
            let reference = image.word(a + 1 + field);
            let is_good = reference == 0 || {
                let b = reference - 1;
                b < words && begins[b as usize / 64] & 1 << (b % 64) != 0
            };
            if !is_good {
                return Err(Fault::Reference(a, field as u32));
            }
        }
    }
    Ok(())
}

fn write_image(image: &Image, mut writer: impl Write) -> io::Result<()> {
    writer.write_all(&image.front())?;
    let mut buffer = vec![0; 8 << image.region_log.min(13)];
    let blocks = image.regions.iter().map(|region| &region[..]).chain([image.live.as_slice()]);
    for block in blocks {
        for some in block.chunks(buffer.len() / 8) {
            let bytes = &mut buffer[..8 * some.len()];
            for (number, bytes) in some.iter().zip(bytes.chunks_exact_mut(8)) {
                bytes.copy_from_slice(&number.to_le_bytes());
            }
            writer.write_all(bytes)?;
        }
    }
    writer.flush()
}

fn encode(image: &Image) -> Vec<u8> {
    let mut bytes = Vec::new();
    write_image(image, &mut bytes).unwrap();
    bytes
}

fn seen(image: &Image) -> u64 {
    let words = image.regions.iter().flat_map(|region| region.iter());
    words.chain(&image.live).fold(image.len(), |seen, word| seen.rotate_left(1) ^ word)
}

fn writer(name: &str) -> io::Result<io::BufWriter<File>> {
    Ok(io::BufWriter::with_capacity(ROOM, File::create(name)?))
}

fn generate() -> Image {
    let mut state = 0x9e37_79b9_7f4a_7c15_u64;
    let mut random = |below: usize| {
        state ^= state << 13;
        state ^= state >> 7;
        state ^= state << 17;
        (state >> 16) as usize % below
    };
    let mut words: Vec<u64> = (0..WORDS).map(|_| random(WORDS) as u64).collect();
    let mut live = Vec::new();
    let mut a = 0;
    while a < WORDS {
        let size = (2 + random(17)).min(WORDS - a);
        if random(2) == 0 {
            live.push(a as u64);
            words[a] = size as u64;
        }
        a += size;
    }
    for &a in &live {
        let size = words[a as usize];
        let references = size / 2;
        words[a as usize] = 1 << 56 | references << 32 | size;
        for field in 0..references {
            words[(a + 1 + field) as usize] = match random(8) {
                0 => 0,
                _ => 1 + live[random(live.len())],
            };
        }
    }
    let regions = words.chunks(1 << REGION_LOG).map(Box::from).collect();
    Image { region_log: REGION_LOG, allowance: 0, regions, live }
}

fn main() -> Result<(), Fault> {
    if std::env::args().any(|word| word == "generate") {
        return Ok(write_image(&generate(), writer("image")?)?);
    }
    let start = Instant::now();
    let image = read_image(io::BufReader::with_capacity(ROOM, File::open("image")?))?;
    println!("read_image {} {}", start.elapsed().as_nanos(), seen(&image));

    let start = Instant::now();
    write_image(&image, writer("written")?)?;
    println!("write_image {} 0", start.elapsed().as_nanos());
    drop(image);

    let text = fs::read("image")?;
    let start = Instant::now();
    let image = decode(&text)?;
    println!("decode {} {}", start.elapsed().as_nanos(), seen(&image));

    let start = Instant::now();
    let bytes = encode(&image);
    println!("encode {} {}", start.elapsed().as_nanos(), bytes == text);

    let mut words = vec![0u8; 8 * WORDS];
    let (from, to) = (&text[..8 * WORDS], words.as_mut_slice());
    to.fill(1);
    let start = Instant::now();
    to.copy_from_slice(black_box(from));
    println!("copy {} {}", start.elapsed().as_nanos(), black_box(to)[32]);
    Ok(())
}
