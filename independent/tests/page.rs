//! The page's listing and its bench examples (a) to (j).

use independent::image::{self, levels, need, Answer};
use independent::numbers::*;
use independent::programs;
use independent::run;
use independent::sheet;
use independent::sound::{sound_by_clauses, verdict, Verdict};
use independent::writer::{self, Record};

const TAKEN: Answer = Answer::Taken;

fn fresh(n: u64) -> Vec<u64> {
    let mut words = vec![7; need(n)];
    assert_eq!(image::fresh(&mut words, n), TAKEN);
    words
}

fn updates(words: &[u64], level: usize) -> &[u64] {
    let start = Layout::of(words[0]).updates_start(words, level);
    &words[start..start + words[update_count_at(level)] as usize]
}

/// The listing up to its first `min`.
fn listing_start() -> Vec<u64> {
    let mut words = fresh(4);
    for (id, key) in [(2, 7), (0, 5), (3, 5)] {
        assert_eq!(image::decrease(&mut words, id, key), TAKEN);
    }
    words
}

#[test]
fn listing() {
    let mut words = listing_start();
    let min = |id, key, reach| Answer::Min { id, key, reach };
    assert_eq!(image::delete_min(&mut words), min(0, 5, 1));
    assert_eq!(image::delete_min(&mut words), min(3, 5, 2));
    assert_eq!(image::decrease(&mut words, 1, 9), TAKEN);
    assert_eq!(image::delete(&mut words, 2), TAKEN);
    assert_eq!(image::delete_min(&mut words), min(1, 9, 2));
    assert_eq!(image::delete_min(&mut words), Answer::Empty { reach: 3 });
    assert_eq!(words, fresh(4));
}

#[test]
fn a_one_id_needs_14_words() {
    assert_eq!((need(1), levels(1)), (14, 1));
    assert_eq!(image::fresh(&mut [0; 14], 1), TAKEN);
    assert_eq!(image::fresh(&mut [0; 13], 1), Answer::Refused(2));
}

#[test]
fn b_four_ids_need_38_words() {
    assert_eq!((need(4), levels(4)), (38, 3));
    assert_eq!(image::fresh(&mut [0; 38], 4), TAKEN);
    assert_eq!(image::fresh(&mut [0; 37], 4), Answer::Refused(2));
}

#[test]
fn c_most_ids_need_393272_words() {
    assert_eq!((need(65_536), levels(65_536)), (393_272, 17));
    assert_eq!(need(1_024), 6_182);
    assert_eq!(verdict(&fresh(65_536)), Verdict::Good);
}

#[test]
fn d_too_many_ids_are_refused_1() {
    let mut words = vec![9; 393_280];
    let before = words.clone();
    for n in [0, 65_537, u64::MAX] {
        assert_eq!(image::fresh(&mut words, n), Answer::Refused(1));
    }
    // 1 is tested before 2.
    assert_eq!(image::fresh(&mut [], 0), Answer::Refused(1));
    assert_eq!(image::fresh(&mut [], 65_536), Answer::Refused(2));
    assert_eq!(words, before);
}

#[test]
fn e_keys_end_below_2_to_the_40() {
    let mut words = fresh(4);
    assert_eq!(image::decrease(&mut words, 0, (1 << 40) - 1), TAKEN);
    let before = words.clone();
    assert_eq!(image::decrease(&mut words, 0, 1 << 40), Answer::Refused(5));
    assert_eq!(words, before);
}

#[test]
fn f_ids_end_below_n() {
    let mut words = fresh(4);
    assert_eq!(image::decrease(&mut words, 3, 1), TAKEN);
    assert_eq!(image::delete(&mut words, 3), TAKEN);
    let before = words.clone();
    assert_eq!(image::decrease(&mut words, 4, 1), Answer::Refused(4));
    assert_eq!(image::decrease(&mut words, 4, 1 << 40), Answer::Refused(4));
    assert_eq!(image::delete(&mut words, 4), Answer::Refused(4));
    assert_eq!(words, before);
}

#[test]
fn g_after_the_first_min() {
    let mut words = listing_start();
    image::delete_min(&mut words);
    assert_eq!(words[bound_at(0)], 327_680);
    let waiting = [
        update(DELETE, 2),
        update(DELETE, 0),
        update(DELETE, 3),
        update(SINK, pair(7, 2)),
        update(SINK, pair(5, 3)),
    ];
    assert_eq!(updates(&words, 1), waiting);
    assert_eq!((updates(&words, 0).len(), words[2]), (0, 3));
}

#[test]
fn h_the_fifth_waiting_update_tidies() {
    let mut words = listing_start();
    image::delete_min(&mut words);
    image::delete_min(&mut words);
    image::decrease(&mut words, 1, 9);
    assert_eq!(words[2], 4);
    image::delete(&mut words, 2);
    let layout = Layout::of(4);
    assert_eq!(words[layout.level_start(0)], 458_754);
    assert_eq!(
        words[layout.level_start(1)..layout.level_start(2)],
        [pair(9, 1), 0]
    );
    assert_eq!((words[bound_at(0)], words[bound_at(1)]), (458_754, OPEN));
    assert_eq!(
        (updates(&words, 0), words[2]),
        ([update(DELETE, 2)].as_slice(), 1)
    );
}

/// The bytes of 32-bit numbers, lowest first.
fn bytes(numbers: &[u32]) -> Vec<u8> {
    numbers
        .iter()
        .flat_map(|number| number.to_le_bytes())
        .collect()
}

const SHEET_I: [u32; 22] = [
    4, 6, 20, 40, 0, // n, h, offsets, source
    0, 2, 4, 6, 6, // row starts
    1, 2, 2, 5, // vertex 0
    0, 2, 2, 2, // vertex 1
    0, 5, 1, 2, // vertex 2
];

#[test]
fn i_a_sheet_of_four_vertices() {
    let sheet = bytes(&SHEET_I);
    assert_eq!(sheet.len(), 88);
    let mut distances = [7; 5];
    let mut image = vec![7; need(4) + 1];
    assert_eq!(run::distances(&sheet, &mut distances, &mut image), Ok(3));
    assert_eq!(distances, [0, 2, 4, 1 << 40, 7]);
    assert_eq!((&image[..38], image[38]), (&fresh(4)[..], 7));
    let output = programs::distances(&sheet);
    assert_eq!(output, b"reached 3 of 4\n0 0\n1 2\n2 4\n3 -\n");
}

/// The records of (i) in another order, one the other way round.
#[test]
fn i_written() {
    let record = |one, other, weight| Record { one, other, weight };
    let records = [record(2, 0, 5), record(0, 1, 2), record(1, 2, 2)];
    let mut target = [9; 90];
    assert_eq!(writer::write(&mut target, 4, 0, &records), Ok(88));
    assert_eq!(target[..88], bytes(&SHEET_I));
    assert_eq!(target[88..], [9, 9]);
}

#[test]
fn j_one_vertex_alone() {
    let sheet = bytes(&[1, 0, 20, 28, 0, 0, 0]);
    let accepted = sheet::accept(&sheet).unwrap();
    assert_eq!((accepted.n, accepted.h, accepted.source), (1, 0, 0));
    let (mut distances, mut image) = ([7], [7; 14]);
    assert_eq!(run::distances(&sheet, &mut distances, &mut image), Ok(1));
    assert_eq!((distances, &image[..]), ([0], &fresh(1)[..]));
    assert_eq!(programs::distances(&sheet), b"reached 1 of 1\n0 0\n");
}

#[test]
fn the_listing_of_queue() {
    let input = b"new 4\ndec 2 7\ndec 0 5\ndec 3 5\nmin\nmin\ndec 1 9\ndel 2\nmin\nmin";
    let output = b"min 0 5 1\nmin 3 5 2\nmin 1 9 2\nempty 3\n";
    assert_eq!(programs::queue(input), output);
    assert_eq!(programs::queue(&[&input[..], b"\n"].concat()), output);
}

#[test]
fn word_0_out_of_range_is_3_once_there_are_14_words() {
    for n in [0, 65_537, u64::MAX] {
        let mut words = [0; 14];
        words[0] = n;
        assert_eq!(image::delete_min(&mut words), Answer::Refused(3));
        assert_eq!(image::delete(&mut words, u64::MAX), Answer::Refused(3));
        assert_eq!(image::delete_min(&mut words[..13]), Answer::Refused(2));
    }
    assert_eq!(image::delete_min(&mut fresh(4)[..37]), Answer::Refused(2));
}

#[test]
fn an_element_of_2_to_the_56_is_no_pair() {
    let mut words = fresh(4);
    words[element_count_at(0)] = 1;
    words[Layout::of(4).level_start(0)] = OPEN;
    assert_eq!(verdict(&words), Verdict::NotSound);
    assert!(sound_by_clauses(&words).is_err());
}

#[test]
fn a_call_refused_with_4_or_5_does_not_tidy() {
    let mut words = fresh(1);
    image::decrease(&mut words, 0, 3);
    assert_eq!(words[2], 1);
    let before = words.clone();
    assert_eq!(image::decrease(&mut words, 1, 3), Answer::Refused(4));
    assert_eq!(image::decrease(&mut words, 0, 1 << 40), Answer::Refused(5));
    assert_eq!(words, before);
    // With n = 1 each second update tidies.
    image::decrease(&mut words, 0, 4);
    assert_eq!(
        (words[2], words[Layout::of(1).level_start(0)]),
        (1, pair(3, 0))
    );
}

/// No Sink is passed on in anything a fresh image leads to; here one is.
#[test]
fn a_sink_above_the_bound_is_passed_on() {
    let mut words = fresh(3);
    let layout = Layout::of(3);
    words[bound_at(0)] = pair(0, 0);
    words[bound_at(1)] = pair(0, 1);
    words[update_count_at(1)] = 1;
    words[layout.stack] = update(SINK, pair(5, 2));
    assert_eq!(verdict(&words), Verdict::Good);
    assert_eq!(
        image::delete_min(&mut words),
        Answer::Min {
            id: 2,
            key: 5,
            reach: 3
        }
    );
}
