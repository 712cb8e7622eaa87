use pcompact::{
    collect, collect_rooted, header, reference, Collection, Fault, Figures, Progress, Settings,
};
use std::thread;

const SETTINGS: Settings = Settings::new(3);
const CELL: usize = 5;

/// A heap of cells, each with a reference to the next but two and one to one of the first three. Every third one lives.
struct Heap {
    words: Vec<u64>,
    live: Vec<u64>,
    roots: Vec<u64>,
}

fn heap(cells: usize) -> Heap {
    let address = |cell: usize| (cell * CELL) as u64;
    let mut words = vec![0; (cells * CELL).next_multiple_of(8)];
    for cell in 0..cells {
        let next = if cell + 3 < cells {
            reference(address(cell + 3))
        } else {
            0
        };
        let body = [
            header(CELL as u32, 2),
            next,
            reference(address(cell % 3)),
            cell as u64,
            7,
        ];
        words[cell * CELL..][..CELL].copy_from_slice(&body);
    }
    let live: Vec<u64> = (1..cells).step_by(3).map(address).collect();
    let roots = live.iter().rev().map(|&a| reference(a)).collect();
    Heap { words, live, roots }
}

/// Lets each worker work in a thread of its own.
fn work_all(collection: &mut Collection) {
    thread::scope(|scope| {
        for mut worker in collection.workers() {
            scope.spawn(move || assert_eq!(worker.work_all(), Progress::Settled));
        }
    });
}

#[test]
fn threads_leave_what_one_call_leaves() {
    for workers in [1, 2, 4, 16, 64] {
        let (mut one, mut other) = (heap(1_000), heap(1_000));
        let figures = collect(&mut one.words, &mut one.live, SETTINGS);
        let mut collection =
            Collection::begin(&mut other.words, &mut other.live, SETTINGS, workers).unwrap();
        assert_eq!(collection.workers().len(), workers);
        work_all(&mut collection);
        assert_eq!(collection.end().map_err(Fault::from), figures);
        assert_eq!((one.words, one.live), (other.words, other.live));
    }
}

#[test]
fn threads_move_roots() {
    for workers in [1, 2, 4, 16] {
        let (mut one, mut other) = (heap(1_000), heap(1_000));
        let figures = collect_rooted(&mut one.words, &mut one.roots, SETTINGS);
        let mut collection =
            Collection::begin_rooted(&mut other.words, &mut other.roots, SETTINGS, workers)
                .unwrap();
        work_all(&mut collection);
        assert_eq!(collection.end().map_err(Fault::from), figures);
        assert_eq!((one.words, one.roots), (other.words, other.roots));
    }
}

/// Turn by turn, in one thread.
#[test]
fn workers_take_turns() {
    let (mut one, mut other) = (heap(200), heap(200));
    let figures = collect(&mut one.words, &mut one.live, SETTINGS);
    let mut collection = Collection::begin(&mut other.words, &mut other.live, SETTINGS, 3).unwrap();
    let mut workers: Vec<_> = collection.workers().collect();
    let mut most = 10_000;
    while workers.iter_mut().any(|it| it.work(1) != Progress::Settled) {
        most -= 1;
        assert!(most > 0, "the workers don't come to an end");
    }
    assert_eq!(collection.end().map_err(Fault::from), figures);
    assert_eq!((one.words, one.live), (other.words, other.live));
}

#[test]
fn an_end_fills_what_is_left() {
    let (mut one, mut other) = (heap(200), heap(200));
    let figures = collect(&mut one.words, &mut one.live, SETTINGS);
    let mut collection = Collection::begin(&mut other.words, &mut other.live, SETTINGS, 2).unwrap();
    let first = collection.workers().next().map(|mut it| it.work(1));
    assert_eq!(first, Some(Progress::TurnsUsed));
    assert_eq!(collection.end().map_err(Fault::from), figures);
    assert_eq!((one.words, one.live), (other.words, other.live));
}

#[test]
fn a_collection_that_is_dropped_ends() {
    let (mut one, mut other) = (heap(200), heap(200));
    collect_rooted(&mut one.words, &mut one.roots, SETTINGS).unwrap();
    let begin = Collection::begin_rooted(&mut other.words, &mut other.roots, SETTINGS, 2);
    drop(begin.unwrap());
    assert_eq!((&one.words, &one.roots), (&other.words, &other.roots));
    let mut collection =
        Collection::begin_rooted(&mut other.words, &mut other.roots, SETTINGS, 2).unwrap();
    work_all(&mut collection);
    drop(collection);
    assert_eq!((one.words, one.roots), (other.words, other.roots));
}

#[test]
fn numbers_of_workers_are_refused() {
    let mut it = heap(10);
    let fault = Fault {
        number: 12,
        field: 0,
        place: 0,
    };
    for workers in [0, 65, usize::MAX] {
        let refused = Collection::begin(&mut it.words, &mut it.live, SETTINGS, workers);
        assert_eq!(refused.map(|it| it.end()).unwrap_err(), fault);
    }
    let mut beyond = [reference(it.words.len() as u64)];
    let refused = Collection::begin_rooted(&mut it.words, &mut beyond, SETTINGS, 2);
    assert_eq!(refused.map(|it| it.end()).unwrap_err().number, 17);
}

#[test]
fn nothing_is_alive() {
    let mut words = [9; 8];
    let mut none = [];
    let mut collection = Collection::begin(&mut words, &mut none, SETTINGS, 2).unwrap();
    work_all(&mut collection);
    let nothing = Figures {
        prefix_end: 0,
        new_top: 0,
        filled_regions: 0,
    };
    assert_eq!(collection.end().unwrap(), nothing);
    assert_eq!(words, [0; 8]);
}
