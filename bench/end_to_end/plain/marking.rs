//! Marking from roots by one thread: an explicit stack, and a ring of objects whose headers were asked for and are on their way.
use crate::header::Header;
use crate::marks::Bits;

/// So many objects wait for their headers.
const RING: usize = 16;

pub trait Heap {
    fn words(&self) -> usize;
    fn word(&self, a: usize) -> u64;
    /// So many words from an address on, which are there.
    fn row(&self, a: usize, count: usize) -> impl Iterator<Item = u64>;
    /// Asks for the memory of the word at an address.
    fn fetch(&self, a: usize);

    fn header(&self, a: usize) -> Header {
        Header(self.word(a))
    }

    /// Whether an object with this header may begin at an address.
    fn is_sound(&self, a: usize, header: Header) -> bool {
        header.is_sound(self.words() - a)
    }
}

/// What the marking of a heap found. A word's place among the bits is its address and 1, which is a reference to it; place 0 is
/// that of null.
pub struct Marked {
    /// The first words of the objects that were reached, and null.
    pub begins: Bits,
    /// All words of those whose headers are sound, and null.
    pub live: Bits,
    /// The number of these words, where a word of two objects counts twice, and null.
    pub words: usize,
    /// Whether all headers are sound, and all references lead into the heap.
    pub is_sound: bool,
}

pub struct Marking<'a, H: Heap> {
    heap: &'a H,
    marked: Marked,
    /// The addresses that are marked and not followed yet.
    stack: Vec<u32>,
}

impl<'a, H: Heap> Marking<'a, H> {
    /// Nothing is marked yet but null.
    pub fn of(heap: &'a H) -> Marking<'a, H> {
        let mut begins = Bits::new(heap.words());
        begins.insert(0);
        let live = begins.clone();
        let marked = Marked { begins, live, words: 1, is_sound: true };
        Marking { heap, marked, stack: Vec::with_capacity(heap.words()) }
    }

    /// Marks what a reference leads to, to be followed by `run`. Whether it was unmarked.
    #[inline(always)]
    pub fn visit(&mut self, reference: u64) -> bool {
        if reference > self.heap.words() as u64 {
            self.marked.is_sound = false;
            return false;
        }
        let is_new = self.marked.begins.mark(reference as usize);
        if is_new {
            self.stack.push(reference as u32 - 1);
        }
        is_new
    }

    fn follow(&mut self, a: usize) {
        let header = self.heap.header(a);
        if !self.heap.is_sound(a, header) {
            self.marked.is_sound = false;
            return;
        }
        self.marked.live.insert_run(a + 1, a + 1 + header.size());
        self.marked.words += header.size();
        for reference in self.heap.row(a + 1, header.references()) {
            self.visit(reference);
        }
    }

    /// Takes an address from the stack, asks for the object's memory, and puts it into the ring.
    fn begin_next(&mut self, place: &mut Option<u32>) {
        *place = self.stack.pop();
        if let Some(a) = *place {
            self.heap.fetch(a as usize);
            self.heap.fetch(a as usize + 7);
        }
    }

    /// Marks all that the marked objects lead to.
    pub fn run(&mut self) {
        let mut ring = [None; RING];
        let mut idle = 0;
        let mut next = 0;
        while idle < RING {
            let waiting = ring[next];
            match waiting {
                Some(a) => {
                    self.follow(a as usize);
                    idle = 0;
                }
                None => idle += 1,
            }
            self.begin_next(&mut ring[next]);
            if ring[next].is_some() {
                idle = 0;
            }
            next = (next + 1) % RING;
        }
    }

    pub fn end(self) -> Marked {
        self.marked
    }
}

/// Marks the objects that the roots lead to. Those without a sound header are not followed.
pub fn mark(heap: &impl Heap, roots: &[u64]) -> Marked {
    let mut marking = Marking::of(heap);
    for &root in roots {
        marking.visit(root);
    }
    marking.run();
    marking.end()
}
