//! A damaged image is never shown as a sound one: faults are found exactly where the library
//! refuses, and they name the word that is wrong.

mod images;
mod random;

use images::{pair, sound_image, words};
use random::Random;
use viewer::faults::faults;
use viewer::image::{in_range, Places, SMALLEST};
use viewer::pair::{IDS, OPEN};
use viewer::session::{Session, State};
use viewer::svg::svg;
use viewer::text;

/// The library's verdict: 0 for a sound image.
fn verdict(words: &[u64]) -> u64 {
    match Session::of(words.to_vec()).state() {
        State::Sound(_) => 0,
        State::Refused { refused, .. } => refused.number(),
    }
}

/// A word near what sound images hold, or any other.
fn word(random: &mut Random, old: u64) -> u64 {
    match random.below(6) {
        0 => old.wrapping_add(1),
        1 => old.wrapping_sub(1),
        2 => random.below(8),
        3 => random.below(5) * OPEN + pair(random.below(12), random.below(6)).0,
        4 => old ^ (1 << random.below(64)),
        _ => [0, OPEN, OPEN - 1, u64::MAX, IDS][random.below(5) as usize],
    }
}

#[test]
fn faults_where_the_library_refuses() {
    let (mut sound, mut damaged) = (0, 0);
    for seed in 0..40_000 {
        let mut random = Random::seeded(seed);
        let n = 1 + random.below(5) as usize;
        let mut words = words(&sound_image(&mut random, n));
        for _ in 0..1 + random.below(2) {
            let at = random.below(words.len() as u64) as usize;
            words[at] = word(&mut random, words[at]);
        }
        let refused = verdict(&words);
        let found = faults(&words);
        assert_eq!(found.is_empty(), refused == 0, "seed {seed}: {found:?}");
        let drawn = Session::of(words).state();
        let text = text::state(&drawn, text::SOME);
        assert_eq!(
            text.starts_with("image     refused"),
            refused != 0,
            "seed {seed}\n{text}"
        );
        let picture = svg(&[], &drawn);
        assert_eq!(
            picture.contains(">image     refused"),
            refused != 0,
            "seed {seed}\n{picture}"
        );
        *(if refused == 0 {
            &mut sound
        } else {
            &mut damaged
        }) += 1;
    }
    assert!(sound > 1_000 && damaged > 10_000, "{sound} {damaged}");
}

/// 2 is for a slice that is too short, and only for that.
#[test]
fn short_slices() {
    for n in 1..6 {
        let whole = words(&sound_image(&mut Random::seeded(n), n as usize));
        for length in 0..whole.len() {
            assert_eq!(verdict(&whole[..length]), 2);
            assert!(
                faults(&whole[..length])[0].starts_with(&format!("the slice has {length} words"))
            );
        }
    }
    assert_eq!(verdict(&[0; SMALLEST]), 3);
    assert_eq!(faults(&[0; SMALLEST]), ["word 0 is 0: n is 1 to 65,536"]);
}

/// The image of example (g), with one word changed: what is shown.
fn damaged(at: usize, word: u64) -> String {
    let mut words = example_g();
    words[at] = word;
    text::state(&Session::of(words).state(), text::SOME)
}

/// Header, rows, elements, stack and work area as the page gives them.
fn example_g() -> Vec<u64> {
    let mut words = vec![4, 3, 3, 15, 22, 34, 327_680, 0, 0, OPEN, 0, 5, OPEN, 0, 0];
    words.extend([0; 7]);
    words.extend([
        2 * OPEN + 2,
        2 * OPEN,
        2 * OPEN + 3,
        3 * OPEN + 458_754,
        3 * OPEN + 327_683,
    ]);
    words.resize(38, 0);
    words
}

#[test]
fn each_clause_names_its_word() {
    assert_eq!(verdict(&example_g()), 0);
    let cases = [
        (0, 65_537, "word 0 is 65537: n is 1 to 65,536"),
        (1, 4, "word 1 is 4: the number of levels is 3"),
        (2, 5, "word 2 is 5: the Decreases and Deletes that wait number 3"),
        (3, 16, "word 3 is 16: the elements begin at 15"),
        (4, 0, "word 4 is 0: the update stack begins at 22"),
        (5, 38, "word 5 is 38: the work area begins at 34"),
        (7, 2, "word 7 is 2: the room of level 0 is 1"),
        (9, 327_679, "word 9 is 327679: the bound of level 1 is below that of level 0"),
        (11, 13, "word 11 is 13: the stack holds at most 12 updates"),
        (12, 458_754, "word 12 is 458754: the last bound, of level 2, is open (72057594037927936)"),
        (21, 1, "word 21 is 1: the unused element words of level 2 are zero"),
        (22, 6, "word 22 is 6: the kind of an update is 1, 2 or 3"),
        (23, 2 * OPEN + IDS, "word 23 is 144115188075921408: a Delete's key is 0"),
        (24, 2 * OPEN + 4, "word 24 is 144115188075855876: the id 4 is not below n = 4"),
        (25, 3 * OPEN + 2, "word 25 is 216172782113783810: (0,2) at level 1 is not above the bound (5,0) of level 0"),
        (33, 9, "word 33 is 9: the stack's unused words are zero"),
        (37, 1, "word 37 is 1: the work area is zero"),
    ];
    for (at, word, fault) in cases {
        let shown = damaged(at, word);
        assert!(shown.starts_with("image     refused 3: "), "{shown}");
        assert!(
            shown.lines().any(|line| line.trim() == fault),
            "{fault}\n{shown}"
        );
    }
}

/// Clauses that example (g) has no word for, on an image with elements: (4,0) at level 0, (6,0) and
/// (7,1) at level 1, where a Delete of 0 waits behind them.
#[test]
fn clauses_of_elements() {
    let good = [
        2,
        2,
        1,
        12,
        15,
        21,
        262_144,
        1,
        0,
        OPEN,
        2,
        1,
        262_144,
        393_216,
        458_753,
        2 * OPEN,
    ];
    let mut words = good.to_vec();
    words.resize(Places::of(in_range(2).unwrap()).end, 0);
    assert_eq!(verdict(&words), 0);
    let cases = [
        (
            12,
            327_680,
            "word 12 is 327680: the element (5,0) is above the bound (4,0) of its level 0",
        ),
        (
            13,
            262_144,
            "word 13 is 262144: (4,0) at level 1 is not above the bound (4,0) of level 0",
        ),
        (
            13,
            OPEN,
            "word 13 is 72057594037927936: an element is a pair, below 2^56",
        ),
        (
            14,
            458_752,
            "word 14 is 458752: the ids of level 1's elements ascend strictly",
        ),
        (
            15,
            2 * OPEN + 1,
            "word 12 is 262144: (4,0) is stored, and the entry of id 0 next before it is no Delete",
        ),
        (
            11,
            0,
            "word 15 is 144115188075855872: the stack's unused words are zero",
        ),
        (8, 1, "word 16 is 0: the kind of an update is 1, 2 or 3"),
    ];
    for (at, word, fault) in cases {
        let mut damaged = words.clone();
        damaged[at] = word;
        assert_eq!(verdict(&damaged), 3);
        assert!(
            faults(&damaged).iter().any(|found| found == fault),
            "{fault}\n{:?}",
            faults(&damaged)
        );
    }
}

/// Word 2 says what waits, and too much does: two Deletes for one id.
#[test]
fn more_than_n_wait() {
    let mut words = vec![1, 1, 2, 9, 10, 13, OPEN, 0, 2, 0, 2 * OPEN, 2 * OPEN];
    words.resize(SMALLEST, 0);
    assert_eq!(verdict(&words), 3);
    assert_eq!(
        faults(&words),
        ["word 2 is 2: at most n = 1 Decreases and Deletes wait"]
    );
}
