use pcompact::{
    check, collect, collect_rooted, decode, decode_rooted, encode, encode_rooted, header,
    new_addresses, reference, summary, summary_of_image, verify, version, Difference, Fault,
    Figures, Heap, Settings, Uncompared,
};
use std::thread;

const SETTINGS: Settings = Settings::new(3);

/// A dead cell at 0, the last cell at 3, and one that refers to it at 6.
fn list() -> [u64; 16] {
    [
        header(3, 1),
        0,
        11,
        header(3, 1),
        0,
        22,
        header(3, 1),
        reference(3),
        33,
        9,
        9,
        9,
        9,
        9,
        9,
        9,
    ]
}

fn compacted() -> [u64; 16] {
    [
        header(3, 1),
        0,
        22,
        header(3, 1),
        reference(0),
        33,
        0,
        0,
        0,
        0,
        0,
        0,
        0,
        0,
        0,
        0,
    ]
}

const FIGURES: Figures = Figures {
    prefix_end: 0,
    new_top: 6,
    filled_regions: 1,
};

#[test]
fn live_addresses_move() {
    let (mut words, mut live) = (list(), [3, 6]);
    assert_eq!(summary(&words, &live, SETTINGS), Ok(FIGURES));
    assert_eq!(collect(&mut words, &mut live, SETTINGS), Ok(FIGURES));
    assert_eq!((words, live), (compacted(), [0, 3]));
}

#[test]
fn roots_move() {
    let (mut words, mut roots) = (list(), [reference(6), 0, reference(3), reference(6)]);
    assert_eq!(
        collect_rooted(&mut words, &mut roots, SETTINGS),
        Ok(FIGURES)
    );
    assert_eq!(
        (words, roots),
        (compacted(), [reference(3), 0, reference(0), reference(3)])
    );
}

#[test]
fn nothing_is_alive() {
    let mut words = list();
    let none = Figures {
        prefix_end: 0,
        new_top: 0,
        filled_regions: 0,
    };
    assert_eq!(collect_rooted(&mut words, &mut [], SETTINGS), Ok(none));
    assert_eq!(words, [0; 16]);
}

#[test]
fn faults_leave_words_and_roots() {
    let (mut words, mut roots) = (list(), [reference(16)]);
    let fault = Fault {
        number: 17,
        field: 0,
        place: 0,
    };
    assert_eq!(collect_rooted(&mut words, &mut roots, SETTINGS), Err(fault));
    assert_eq!((words, roots), (list(), [reference(16)]));
    let fault = Fault {
        number: 9,
        field: 0,
        place: 6,
    };
    assert_eq!(collect(&mut words, &mut [6], SETTINGS), Err(fault));
    assert_eq!(fault.to_string(), "9 reference at 6 field 0");
    assert_eq!(
        collect(&mut words[..15], &mut [], SETTINGS),
        Err(Fault {
            number: 4,
            field: 0,
            place: 0
        })
    );
    assert_eq!(words, list());
}

#[test]
fn images_are_checked() {
    let image = include_bytes!("../../base.pcheap");
    assert_eq!(check(image), Ok(()));
    assert_eq!(summary_of_image(image).map(|it| it.new_top), Ok(19));
    assert_eq!(check(&image[1..]).unwrap_err().to_string(), "2 magic");
    assert_eq!(
        summary_of_image(&[]),
        Err(Fault {
            number: 1,
            field: 0,
            place: 0
        })
    );
}

#[test]
fn references_outside_move() {
    let (words, live) = (list(), [3, 6]);
    let mut references = [reference(6), 0, reference(3)];
    assert_eq!(
        new_addresses(&words, &live, SETTINGS, &mut references),
        Ok(())
    );
    assert_eq!(references, [reference(3), 0, reference(0)]);
    let stray = Fault {
        number: 17,
        field: 0,
        place: 1,
    };
    let mut references = [reference(6), reference(0)];
    assert_eq!(
        new_addresses(&words, &live, SETTINGS, &mut references),
        Err(stray)
    );
    assert_eq!(references, [reference(6), reference(0)]);
}

#[test]
fn images_are_compared() {
    let image = |words: &[u64], live: &[u64]| encode(words, live, SETTINGS).unwrap();
    let (before, after) = (image(&list(), &[3, 6]), image(&compacted(), &[0, 3]));
    assert_eq!(verify(&before, &after), Ok(None));
    assert_eq!(verify(&before, &before), Ok(Some(Difference::Word(2))));
    assert_eq!(
        verify(&before, &image(&compacted(), &[0])),
        Ok(Some(Difference::Shape))
    );
    let cut = check(&before[1..]).unwrap_err();
    assert_eq!(verify(&before[1..], &after), Err(Uncompared::Before(cut)));
    assert_eq!(verify(&before, &after[1..]), Err(Uncompared::After(cut)));
    assert_eq!(
        Uncompared::After(cut).to_string(),
        "after the collection: 2 magic"
    );
}

#[test]
fn roots_are_compared() {
    let image = |words: &[u64], roots: &[u64]| encode_rooted(words, roots, SETTINGS).unwrap();
    let before = image(&list(), &[reference(6), reference(3)]);
    let after = image(&compacted(), &[reference(3), reference(0)]);
    let turned = image(&compacted(), &[reference(0), reference(3)]);
    assert_eq!(verify(&before, &after), Ok(None));
    assert_eq!(verify(&before, &turned), Ok(Some(Difference::Root(0))));
}

#[test]
fn live_addresses_are_compared() {
    let words = [header(2, 0), header(1, 0), 0, 0, 0, 0, 0, 0];
    let image = |live: &[u64]| encode(&words, live, SETTINGS).unwrap();
    assert_eq!(
        verify(&image(&[0]), &image(&[1])),
        Ok(Some(Difference::Live(0)))
    );
}

#[test]
fn decoding_gives_what_was_encoded() {
    let settings = Settings {
        region_log: 3,
        allowance: 7,
    };
    let heap = |version, list| Heap {
        version,
        settings,
        words: self::list().to_vec(),
        list,
    };
    let image = encode(&list(), &[3, 6], settings).unwrap();
    assert_eq!(decode(&image), Ok(heap(1, vec![3, 6])));
    let rooted = heap(2, vec![reference(3), reference(6)]);
    assert_eq!(decode_rooted(&image), Ok(rooted));
    let image = encode_rooted(&list(), &[reference(6), 0], settings).unwrap();
    assert_eq!(decode(&image), Ok(heap(2, vec![3, 6])));
    assert_eq!(decode_rooted(&image), Ok(heap(2, vec![reference(6), 0])));
    assert_eq!(decode(&image[1..]), Err(check(&image[1..]).unwrap_err()));
    assert_eq!(decode(&[]).unwrap_err().to_string(), "1 truncated header");
}

#[test]
fn heaps_are_encoded_unchecked() {
    let image = encode(&[0; 8], &[9], SETTINGS).unwrap();
    assert_eq!(image.len(), 32 + 8 * 9);
    assert_eq!(
        check(&image).unwrap_err().to_string(),
        "6 live order at index 0"
    );
}

#[test]
fn threads_collect_heaps_of_their_own() {
    thread::scope(|scope| {
        for _ in 0..4 {
            scope.spawn(|| {
                for _ in 0..1_000 {
                    live_addresses_move();
                }
            });
        }
    });
}

#[test]
fn the_library_is_of_this_version() {
    let of_crate = env!("CARGO_PKG_VERSION")
        .split('.')
        .fold(0, |version, part| {
            1_000 * version + part.parse::<u32>().unwrap()
        });
    assert_eq!(version(), of_crate);
}
