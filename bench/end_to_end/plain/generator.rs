//! Random images.
use crate::header::Header;
use crate::image::Image;
use crate::marking::{Heap, Marking};
use crate::marks::Bits;
use std::str::FromStr;

/// How live objects lead to one another.
#[derive(Clone, Copy)]
pub enum Shape {
    /// At random.
    Graph,
    /// Objects of two words, each of which refers to the next one in a random order.
    List,
    /// The same in the order of addresses.
    Chain,
    /// Objects of three words, which are a binary tree in breadth order.
    Tree,
    /// Objects of one word, to each of which the first object refers.
    Array,
    /// One object, of all words but the first, that refers to itself.
    Object,
    /// One object of two words at the end of the heap, which is all dense prefix: its allowance is its dead words.
    Last,
}

impl FromStr for Shape {
    type Err = ();

    fn from_str(word: &str) -> Result<Shape, ()> {
        match word {
            "graph" => Ok(Shape::Graph),
            "list" => Ok(Shape::List),
            "chain" => Ok(Shape::Chain),
            "tree" => Ok(Shape::Tree),
            "array" => Ok(Shape::Array),
            "object" => Ok(Shape::Object),
            "last" => Ok(Shape::Last),
            _ => Err(()),
        }
    }
}

pub struct Asked {
    pub words: usize,
    /// How many of a hundred objects live, about. Arrays and single objects don't ask.
    pub live: u64,
    pub region_log: u32,
    /// How many of a hundred words behind the headers are references, about. Only graphs and single objects ask.
    pub references: u64,
    pub shape: Shape,
    /// The version of the image: 1 has a live list, 2 and 3 have roots.
    pub version: u8,
}

struct Random(u64);

impl Random {
    fn next(&mut self) -> u64 {
        self.0 ^= self.0 << 13;
        self.0 ^= self.0 >> 7;
        self.0 ^= self.0 << 17;
        self.0.wrapping_mul(0x2545_f491_4f6c_dd1d)
    }

    fn below(&mut self, limit: u64) -> u64 {
        (u128::from(self.next()) * u128::from(limit) >> 64) as u64
    }

    fn happens(&mut self, percent: u64) -> bool {
        self.below(100) < percent
    }

    fn shuffle(&mut self, addresses: &mut [u64]) {
        for k in (1..addresses.len()).rev() {
            addresses.swap(k, self.below(k as u64 + 1) as usize);
        }
    }

    /// Half of the sizes are at most 5 words, a quarter at most 9, and so on: one in two thousand may be 4,097.
    fn size(&mut self) -> usize {
        let log = 2 + self.next().trailing_zeros().min(10);
        2 + self.below(1 << log) as usize
    }
}

struct Object {
    at: usize,
    size: usize,
    lives: bool,
}

/// Objects side by side. Four neighbours in a row share their fate, on average.
fn place(asked: &Asked, random: &mut Random) -> Vec<Object> {
    let mut objects = Vec::new();
    let mut at = 0;
    let mut lives = false;
    while at < asked.words {
        if random.happens(25) {
            lives = random.happens(asked.live);
        }
        let size = random.size().min(asked.words - at);
        objects.push(Object { at, size, lives });
        at += size;
    }
    objects
}

/// The words of one object. A quarter of the references are null, half lead to a neighbour, the rest anywhere. A dead
/// object has such words too, as garbage does.
fn write_object(words: &mut [u64], percent: u64, near: usize, live: &[u64], random: &mut Random) {
    let references = (1..words.len()).filter(|_| random.happens(percent)).count();
    words[0] = Header::object(words.len(), references).0;
    for word in &mut words[1..1 + references] {
        *word = match random.below(4) {
            0 => 0,
            1 => 1 + live[random.below(live.len() as u64) as usize],
            _ => 1 + live[(near + random.below(128) as usize).saturating_sub(64).min(live.len() - 1)],
        };
    }
    for word in &mut words[1 + references..] {
        *word = random.next();
    }
}

fn graph(asked: &Asked, random: &mut Random) -> (Vec<u64>, Vec<u64>) {
    let objects = place(asked, random);
    let live: Vec<u64> = objects.iter().filter(|object| object.lives).map(|object| object.at as u64).collect();
    assert!(!live.is_empty(), "no object lives");
    let mut words = vec![0; asked.words];
    let mut near = 0;
    for Object { at, size, lives } in objects {
        write_object(&mut words[at..at + size], asked.references, near, &live, random);
        near += usize::from(lives);
    }
    (words, live)
}

/// The addresses of live objects of so many words.
fn places(asked: &Asked, size: usize, random: &mut Random) -> Vec<u64> {
    let all = (0..(asked.words + 1 - size) as u64).step_by(size);
    all.filter(|_| random.happens(asked.live)).collect()
}

/// Objects that each refer to the next one in this order.
fn linked(asked: &Asked, order: &[u64]) -> Vec<u64> {
    let mut words = vec![0; asked.words];
    for (k, &a) in order.iter().enumerate() {
        words[a as usize] = Header::object(2, 1).0;
        words[a as usize + 1] = order.get(k + 1).map_or(0, |next| 1 + next);
    }
    words
}

fn list(asked: &Asked, random: &mut Random) -> (Vec<u64>, Vec<u64>) {
    let live = places(asked, 2, random);
    let mut order = live.clone();
    random.shuffle(&mut order);
    (linked(asked, &order), live)
}

fn chain(asked: &Asked, random: &mut Random) -> (Vec<u64>, Vec<u64>) {
    let live = places(asked, 2, random);
    (linked(asked, &live), live)
}

fn tree(asked: &Asked, random: &mut Random) -> (Vec<u64>, Vec<u64>) {
    let live = places(asked, 3, random);
    let mut words = vec![0; asked.words];
    for (k, &a) in live.iter().enumerate() {
        let a = a as usize;
        words[a] = Header::object(3, 2).0;
        for child in 1..=2 {
            words[a + child] = live.get(2 * k + child).map_or(0, |next| 1 + next);
        }
    }
    (words, live)
}

/// As many objects as there can be, so that nothing but the last word is dead.
fn array(asked: &Asked) -> (Vec<u64>, Vec<u64>) {
    let mut words = vec![0; asked.words];
    let size = asked.words / 2;
    words[0] = Header::object(size, size - 1).0;
    let live: Vec<u64> = (size as u64..asked.words as u64 - 1).collect();
    for (k, &a) in live.iter().enumerate() {
        words[a as usize] = Header::object(1, 0).0;
        words[1 + k] = 1 + a;
    }
    (words, [&[0], &live[..]].concat())
}

fn object(asked: &Asked) -> (Vec<u64>, Vec<u64>) {
    let mut words = vec![0; asked.words];
    let size = asked.words - 1;
    let references = size * asked.references as usize / 100;
    words[1] = Header::object(size, references).0;
    words[2..2 + references].fill(2);
    (words, vec![1])
}

fn last(asked: &Asked) -> (Vec<u64>, Vec<u64>) {
    let mut words = vec![0; asked.words];
    let at = asked.words - 2;
    words[at] = Header::object(2, 1).0;
    words[at + 1] = 1 + at as u64;
    (words, vec![at as u64])
}

/// Roots that lead to all live objects, in random order: to those that no object refers to, and to one of each circle
/// that these don't lead to.
fn roots_of(image: &Image, random: &mut Random) -> Vec<u64> {
    let mut order = image.live.clone();
    random.shuffle(&mut order);
    let mut referred = Bits::new(image.words.len());
    let fields = |&a: &u64| image.row(a as usize + 1, image.header(a as usize).references());
    for reference in order.iter().flat_map(fields).filter(|&reference| reference != 0) {
        referred.insert(reference as usize - 1);
    }
    let mut roots = Vec::new();
    let mut marking = Marking::of(image);
    let unreferred = order.iter().filter(|&&a| !referred.contains(a));
    for &a in unreferred.chain(&order) {
        if marking.visit(1 + a) {
            roots.push(1 + a);
            marking.run();
        }
    }
    roots
}

pub fn generate(asked: &Asked) -> Image {
    let mut random = Random(0x9e37_79b9_7f4a_7c15);
    let (words, live) = match asked.shape {
        Shape::Graph => graph(asked, &mut random),
        Shape::List => list(asked, &mut random),
        Shape::Chain => chain(asked, &mut random),
        Shape::Tree => tree(asked, &mut random),
        Shape::Array => array(asked),
        Shape::Object => object(asked),
        Shape::Last => last(asked),
    };
    let allowance = match asked.shape {
        Shape::Last => asked.words as u64 - 2,
        _ => 0,
    };
    let mut image = Image { version: asked.version, region_log: asked.region_log, allowance, words, live, roots: None, marks: Bits::new(0) };
    if asked.version > 1 {
        image.roots = Some(roots_of(&image, &mut random));
    }
    image
}
