//! The same fills as `fills.rt.txt`, on a board of atomics without proofs.
use std::sync::atomic::{AtomicU64, Ordering::SeqCst};
use std::thread;
use std::time::Instant;

const REGIONS: u32 = 16_384;
const ROUNDS: usize = 300;

struct Board {
    words: Vec<AtomicU64>,
    remaining: AtomicU64,
}

/// Tells the next source of a region.
trait Moves: Sync {
    fn next_source(&self, destination: u32, from: u32) -> Option<u32>;
}

/// The table of moves, which is searched.
struct Table {
    fill: Vec<bool>,
    pairs: Vec<(u32, u32)>,
}

impl Moves for Table {
    fn next_source(&self, destination: u32, from: u32) -> Option<u32> {
        let at = self.pairs.partition_point(|pair| *pair < (destination, from));
        let &(d, s) = self.pairs.get(at)?;
        if d == destination { Some(s) } else { None }
    }
}

/// The table and the first source of each region.
struct Indexed {
    table: Table,
    first: Vec<Option<u32>>,
}

impl Moves for Indexed {
    fn next_source(&self, destination: u32, from: u32) -> Option<u32> {
        if from == 0 { self.first[destination as usize] } else { self.table.next_source(destination, from) }
    }
}

fn table() -> Table {
    let fill = vec![true; REGIONS as usize];
    let pairs = (0..REGIONS).step_by(2).map(|region| (region, region + 1)).collect();
    Table { fill, pairs }
}

fn board(table: &Table) -> Board {
    let mut readers = vec![0u64; table.fill.len()];
    for &(_, source) in &table.pairs {
        readers[source as usize] += 1;
    }
    Board {
        words: readers.into_iter().map(AtomicU64::new).collect(),
        remaining: AtomicU64::new(table.fill.iter().filter(|fills| **fills).count() as u64),
    }
}

fn fill(board: &Board, moves: &impl Moves, region: u32) -> u64 {
    if board.words[region as usize].compare_exchange(0, 8, SeqCst, SeqCst).is_err() {
        return 0;
    }
    let mut steps = 1;
    if let Some(source) = moves.next_source(region, 0) {
        let _last = board.words[source as usize].fetch_sub(1, SeqCst) == 1;
        steps += 1;
    }
    board.words[region as usize].fetch_or(4, SeqCst);
    let _all = board.remaining.fetch_sub(1, SeqCst) == 1;
    steps
}

fn work(board: &Board, moves: &impl Moves, from: u32, to: u32) -> u64 {
    (from..to).map(|region| fill(board, moves, region)).sum()
}

fn measure(name: &str, table: &Table, moves: &impl Moves) {
    for threads in [1u32, 2, 4] {
        let mut least = u128::MAX;
        let mut steps = 0;
        for _ in 0..ROUNDS {
            let board = board(table);
            let start = Instant::now();
            steps = thread::scope(|scope| {
                let part = REGIONS / threads;
                let others: Vec<_> = (1..threads)
                    .map(|k| {
                        let board = &board;
                        scope.spawn(move || work(board, moves, k * part, (k + 1) * part))
                    })
                    .collect();
                work(&board, moves, 0, part) + others.into_iter().map(|one| one.join().unwrap()).sum::<u64>()
            });
            least = least.min(start.elapsed().as_nanos());
        }
        println!("{name} {threads} {least} {steps}");
    }
}

fn main() {
    let table = table();
    let first = (0..REGIONS).map(|region| table.next_source(region, 0)).collect();
    let indexed = Indexed { table, first };
    measure("indexed", &indexed.table, &indexed);
    measure("searched", &indexed.table, &indexed.table);
}
