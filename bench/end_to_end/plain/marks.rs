//! Mark bits, one a place, and the number of marked places before each 64.
use crate::prefetch::fetch;

#[derive(Clone)]
pub struct Bits(Vec<u64>);

impl Bits {
    /// No marks, with room for places up to `last`.
    pub fn new(last: usize) -> Bits {
        Bits(vec![0; last / 64 + 1])
    }

    pub fn contains(&self, i: u64) -> bool {
        self.0.get((i / 64) as usize).is_some_and(|word| word >> (i % 64) & 1 == 1)
    }

    pub fn insert(&mut self, i: usize) {
        self.0[i / 64] |= 1 << (i % 64);
    }

    /// Marks a place, and says whether it was unmarked.
    pub fn mark(&mut self, i: usize) -> bool {
        let word = &mut self.0[i / 64];
        let was = *word;
        *word = was | 1 << (i % 64);
        *word != was
    }

    /// The marked places, ascending.
    pub fn places(&self) -> Vec<u64> {
        let mut places = Vec::with_capacity(self.0.iter().map(|word| word.count_ones() as usize).sum());
        for (i, &word) in self.0.iter().enumerate() {
            let mut left = word;
            while left != 0 {
                places.push(64 * i as u64 + u64::from(left.trailing_zeros()));
                left &= left - 1;
            }
        }
        places
    }

    /// Marks the places from `from` up to `to`, itself not included, which is not `from`.
    pub fn insert_run(&mut self, from: usize, to: usize) {
        let (first, last) = (from / 64, (to - 1) / 64);
        let low = u64::MAX << (from % 64);
        let high = u64::MAX >> (63 - (to - 1) % 64);
        if first == last {
            self.0[first] |= low & high;
            return;
        }
        self.0[first] |= low;
        self.0[first + 1..last].fill(u64::MAX);
        self.0[last] |= high;
    }

    pub fn count(&self, from: usize, to: usize) -> usize {
        let below = |i: usize| (self.0[i / 64] & ((1 << (i % 64)) - 1)).count_ones() as usize;
        let whole: usize = self.0[from / 64..to / 64].iter().map(|word| word.count_ones() as usize).sum();
        whole + below(to) - below(from)
    }

    /// How many places are marked.
    pub fn len(&self) -> usize {
        self.0.iter().map(|word| word.count_ones() as usize).sum()
    }
}

/// The marks of 64 places, and the number of marked places before them, side by side so that one line of the cache has both.
#[repr(C, align(16))]
struct Block {
    bits: u64,
    before: u64,
}

/// Tells of each place how many places below it are marked.
pub struct Ranks(Vec<Block>);

impl Ranks {
    pub fn of(bits: &Bits) -> Ranks {
        let mut sum = 0;
        let block = |&bits: &u64| {
            let before = sum;
            sum += u64::from(bits.count_ones());
            Block { bits, before }
        };
        Ranks(bits.0.iter().map(block).collect())
    }

    pub fn rank(&self, i: u64) -> u64 {
        let block = &self.0[(i / 64) as usize];
        let below = block.bits & ((1 << (i % 64)) - 1);
        block.before + u64::from(below.count_ones())
    }

    /// Asks for the memory that `rank` reads.
    pub fn fetch(&self, i: u64) {
        fetch(&self.0, (i / 64) as usize);
    }
}
