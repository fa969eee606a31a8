//! Each refusal, and that a refused call has written nothing.

use level_queue::{accept, distances, need, sheet_length, write, Edge, Queue, Refused};
use level_queue::{KEY_LIMIT, MOST_EDGES, MOST_IDS};
use std::collections::BTreeSet;

/// 32-bit numbers, lowest byte first.
fn bytes(numbers: &[u32]) -> Vec<u8> {
    let bytes = numbers.iter().flat_map(|number| number.to_le_bytes());
    bytes.collect()
}

/// n, h, two offsets, the source; three row starts; two rows of one half-edge.
const SHEET: [u32; 12] = [2, 2, 20, 32, 0, 0, 1, 2, 1, 3, 0, 3];

/// The sheet with another number at a place.
fn with(place: usize, number: u32) -> Vec<u8> {
    let mut numbers = SHEET;
    numbers[place] = number;
    bytes(&numbers)
}

const ALONE: [u32; 10] = [2, 1, 20, 32, 0, 0, 1, 1, 1, 3];

#[test]
fn of_sheets() {
    let sheet = bytes(&SHEET);
    assert!(accept(&sheet).is_ok());
    for (wrong, refused) in [
        (sheet[..19].to_vec(), Refused::SheetLength),
        (sheet[..47].to_vec(), Refused::SheetLength),
        (with(2, 21), Refused::SheetLength),
        (with(0, 0), Refused::SheetSize),
        (with(0, 65_537), Refused::SheetSize),
        (with(1, 524_289), Refused::SheetSize),
        (with(4, 2), Refused::Source),
        (with(5, 1), Refused::RowStarts),
        (with(8, 2), Refused::Targets),
        (with(8, 0), Refused::Targets),
        (with(9, 65_536), Refused::Weights),
        (bytes(&ALONE), Refused::OneSided),
    ] {
        assert_eq!(accept(&wrong), Err(refused));
        let (mut found, mut image) = ([7; 2], [7; 20]);
        assert_eq!(distances(&wrong, &mut found, &mut image), Err(refused));
        assert_eq!((found, image), ([7; 2], [7; 20]));
    }
}

#[test]
fn of_the_run() {
    let sheet = bytes(&SHEET);
    let words = need(2).unwrap();
    for (found, image, refused) in [
        (1, words, Refused::DistancesTooShort),
        (1, 0, Refused::DistancesTooShort),
        (2, words - 1, Refused::ImageTooShort),
        (2, 0, Refused::ImageTooShort),
    ] {
        let (mut found, mut image) = (vec![7; found], vec![7; image]);
        assert_eq!(distances(&sheet, &mut found, &mut image), Err(refused));
        assert!(found.iter().chain(&image).all(|&word| word == 7));
    }
}

const EDGE: Edge = Edge {
    one: 0,
    other: 1,
    weight: 65_535,
};

#[test]
fn of_the_writer() {
    let length = sheet_length(2, 1).unwrap();
    let other_way = Edge {
        one: 1,
        other: 0,
        weight: 0,
    };
    let too_many = vec![EDGE; MOST_EDGES + 1];
    for (n, source, edges, room, refused) in [
        (0, 0, &[][..], 99, Refused::WriterSize),
        (65_537, 0, &[EDGE], 99, Refused::WriterSize),
        (2, 0, &too_many, 99, Refused::WriterSize),
        (2, 0, &[Edge { other: 2, ..EDGE }], 99, Refused::Ends),
        (2, 0, &[Edge { one: 1, ..EDGE }], 99, Refused::Ends),
        (
            2,
            0,
            &[Edge {
                weight: 65_536,
                ..EDGE
            }],
            99,
            Refused::Weight,
        ),
        (2, 0, &[EDGE, other_way], 99, Refused::Twice),
        (2, 2, &[EDGE], 99, Refused::Source),
        (2, 0, &[EDGE], length - 1, Refused::TargetTooShort),
    ] {
        let mut target = vec![7; room];
        assert_eq!(write(&mut target, n, source, edges), Err(refused));
        assert!(target.iter().all(|&byte| byte == 7));
    }
}

#[test]
fn of_making_and_opening() {
    let words = need(4).unwrap();
    for (n, words, refused) in [
        (0, words, Refused::Size),
        (MOST_IDS + 1, words, Refused::Size),
        (u64::MAX, words, Refused::Size),
        (4, words - 1, Refused::ImageTooShort),
        (1, 13, Refused::ImageTooShort),
    ] {
        let mut image = vec![7; words];
        assert_eq!(Queue::fresh(&mut image, n).err(), Some(refused));
        assert!(image.iter().all(|&word| word == 7));
    }
    for (words, refused) in [
        (13, Refused::ImageTooShort),
        (14, Refused::ImageNotSound),
        (words, Refused::ImageNotSound),
    ] {
        // Cleared words are no image: their n is 0.
        let mut image = vec![0; words];
        assert_eq!(Queue::open(&mut image).err(), Some(refused));
    }
}

#[test]
fn of_updates() {
    let mut image = vec![0; need(4).unwrap()];
    let mut queue = Queue::fresh(&mut image, 4).unwrap();
    // As many updates as wait before a tidy: a refused one must not tidy either.
    for id in 0..4 {
        queue.decrease(id, KEY_LIMIT - 1).unwrap();
    }
    let before = queue.words().to_vec();
    assert_eq!(queue.decrease(4, KEY_LIMIT), Err(Refused::Id));
    assert_eq!(queue.decrease(3, KEY_LIMIT), Err(Refused::Key));
    assert_eq!(queue.decrease(u64::MAX, 0), Err(Refused::Id));
    assert_eq!(queue.delete(4), Err(Refused::Id));
    assert_eq!(queue.words(), before);
}

/// In the fresh image for 6 ids each word is fixed by the layout, but that a
/// count of one element at level 0 makes the pair (0, 0) of the zero there.
#[test]
fn of_damaged_images() {
    let mut fresh = vec![0; need(6).unwrap()];
    Queue::fresh(&mut fresh, 6).unwrap();
    for place in 0..fresh.len() {
        let mut damaged = fresh.clone();
        damaged[place] += 1;
        let refused = Queue::open(&mut damaged).err();
        match place {
            // There are too few words for 7 ids.
            0 => assert_eq!(refused, Some(Refused::ImageTooShort)),
            7 => assert_eq!(refused, None),
            _ => assert_eq!(refused, Some(Refused::ImageNotSound), "word {place}"),
        }
    }
}

#[test]
fn each_has_its_number_and_sentence() {
    let table = [
        1, 2, 3, 4, 5, 11, 12, 13, 14, 15, 16, 17, 18, 21, 22, 23, 24, 25,
    ];
    let mut sentences = BTreeSet::new();
    for (refused, number) in Refused::ALL.iter().zip(table) {
        assert_eq!(refused.number(), number);
        let said = refused.to_string();
        let sentence = said.strip_prefix(&format!("refused {number}: "));
        sentences.insert(sentence.unwrap().to_string());
    }
    assert_eq!(sentences.len(), table.len());
}
