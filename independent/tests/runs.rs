//! The writer and the run.

use independent::generate::{self, Random};
use independent::generate_sheets::{
    self, good_writer_call, spoil_call, Draft, Edge, Graph, WriterFault,
};
use independent::image::{self, need, Taking};
use independent::run::{
    self, by_heap, by_rounds, distances, least_distances, OnHeap, OnImage, UNREACHED,
};
use independent::sheet::accept;
use independent::workload::{self, play};
use independent::writer::{write, Record, MOST_RECORDS};

// ---------------------------------------------------------------------------
// Writer

fn record(one: u64, other: u64, weight: u64) -> Record {
    Record { one, other, weight }
}

fn written(n: u64, source: u64, records: &[Record], room: usize) -> Result<usize, u64> {
    let mut target = vec![0xee; room];
    let answer = write(&mut target, n, source, records);
    let touched = answer.unwrap_or(0);
    assert!(target[touched..].iter().all(|&byte| byte == 0xee));
    answer
}

#[test]
fn writer_refusals_one_by_one() {
    let records = [record(0, 1, 5), record(2, 1, 65_535)];
    let none = 4_294_967_295;
    assert_eq!(written(3, 0, &records, 68), Ok(68));
    assert_eq!(written(3, none, &records, 99), Ok(68));
    assert_eq!(written(0, 0, &[], 99), Err(21));
    assert_eq!(written(65_537, 0, &[], 999_999), Err(21));
    assert_eq!(written(3 + (1 << 32), 0, &records, 99), Err(21));
    assert_eq!(written(2, 0, &records, 99), Err(22));
    assert_eq!(written(3, 0, &[record(1, 1, 0)], 99), Err(22));
    assert_eq!(written(3, 0, &[record(1, 1 << 32, 0)], 99), Err(22));
    assert_eq!(written(3, 0, &[record(1, 2, 65_536)], 99), Err(23));
    assert_eq!(written(3, 0, &[record(1, 2, 1 << 32)], 99), Err(23));
    let twice = [record(1, 2, 3), record(0, 1, 3), record(1, 2, 4)];
    assert_eq!(written(3, 0, &twice, 99), Err(24));
    let both_ways = [record(1, 2, 3), record(0, 1, 3), record(2, 1, 3)];
    assert_eq!(written(3, 0, &both_ways, 99), Err(24));
    assert_eq!(written(3, 3, &records, 68), Err(13));
    assert_eq!(written(3, none + 1, &records, 68), Err(13));
    assert_eq!(written(3, 1 << 32, &records, 0), Err(13));
    assert_eq!(written(3, 2, &records, 67), Err(25));
    assert_eq!(written(1, 0, &[], 28), Ok(28));
    assert_eq!(written(1, 0, &[], 27), Err(25));
}

#[test]
fn each_number_is_tested_over_all_records() {
    let late_end = [record(0, 1, 65_536), record(1, 3, 0)];
    assert_eq!(written(3, 9, &late_end, 0), Err(22));
    let late_weight = [record(0, 1, 0), record(1, 0, 0), record(1, 2, 65_536)];
    assert_eq!(written(3, 9, &late_weight, 0), Err(23));
    let twice = [record(0, 1, 0), record(1, 0, 0)];
    assert_eq!(written(3, 9, &twice, 0), Err(24));
    assert_eq!(written(3, 9, &twice[..1], 0), Err(13));
}

#[test]
fn the_most_records() {
    let mut random = Random::new(51);
    let ends = generate_sheets::sparse(&mut random, 65_536, MOST_RECORDS + 1);
    let one = |ends: &[u32; 2]| record(ends[0].into(), ends[1].into(), 7);
    let records: Vec<Record> = ends.iter().map(one).collect();
    let room = 20 + 4 * 65_537 + 8 * 524_288;
    assert_eq!(written(65_536, 0, &records, room + 99), Err(21));
    assert_eq!(written(65_536, 0, &records[1..], room), Ok(room));
    assert_eq!(written(65_536, 0, &records[1..], room - 1), Err(25));
}

#[test]
fn every_writer_fault_and_every_two_answer_the_first() {
    let mut random = Random::new(52);
    for one in WriterFault::ALL {
        for other in WriterFault::ALL {
            let mut met = 0;
            for _ in 0..60 {
                let mut call = good_writer_call(&mut random);
                if call.room > 100_000 {
                    continue;
                }
                let first = spoil_call(&mut random, &mut call, &[one, other]);
                let wanted = first.map_or(0, WriterFault::number);
                let answer = written(call.n, call.source, &call.records, call.room);
                let number = answer.err().unwrap_or(0);
                assert_eq!(number, wanted, "{one:?} and {other:?}");
                met += u32::from(first == Some(one.min(other)));
            }
            assert!(met > 10, "{one:?} and {other:?}: {met}");
        }
    }
}

// ---------------------------------------------------------------------------
// Run

fn sheet_of(n: u32, source: u32, edges: &[([u32; 2], [u32; 2])]) -> Vec<u8> {
    let edge = |&(ends, weights): &([u32; 2], [u32; 2])| Edge { ends, weights };
    let edges = edges.iter().map(edge).collect();
    Draft::of(&Graph { n, edges }, source).bytes()
}

fn run_on(bytes: &[u8]) -> (u64, Vec<u64>) {
    let n = accept(bytes).unwrap().n;
    let (mut filled, mut image) = (vec![1; n], vec![1; need(n as u64)]);
    let reached = distances(bytes, &mut filled, &mut image).unwrap();
    (reached, filled)
}

/// A walk pays the weight in the row it leaves by.
#[test]
fn unequal_weights() {
    let edges = [([0, 1], [10, 1]), ([0, 2], [1, 20]), ([1, 2], [30, 4])];
    assert_eq!(run_on(&sheet_of(3, 0, &edges)), (3, vec![0, 5, 1]));
    assert_eq!(run_on(&sheet_of(3, 1, &edges)), (3, vec![1, 0, 2]));
    assert_eq!(run_on(&sheet_of(3, 2, &edges)), (3, vec![5, 4, 0]));
}

#[test]
fn sources_and_zero_weights() {
    let edges = [([0, 1], [0, 0]), ([2, 3], [7, 0])];
    let far = UNREACHED;
    assert_eq!(
        run_on(&sheet_of(5, u32::MAX, &edges)),
        (2, vec![0, 0, far, far, far])
    );
    assert_eq!(
        run_on(&sheet_of(5, 1, &edges)),
        (2, vec![0, 0, far, far, far])
    );
    assert_eq!(
        run_on(&sheet_of(5, 3, &edges)),
        (2, vec![far, far, 0, 0, far])
    );
    assert_eq!(
        run_on(&sheet_of(5, 4, &edges)),
        (1, vec![far, far, far, far, 0])
    );
}

/// The longest path there is: still far below 2^40.
#[test]
fn the_longest_path() {
    let edges: Vec<_> = (1..65_536)
        .map(|v| ([v - 1, v], [65_535, 65_535]))
        .collect();
    let (reached, filled) = run_on(&sheet_of(65_536, 0, &edges));
    assert_eq!((reached, filled[65_535]), (65_536, 65_535 * 65_535));
}

#[test]
fn run_refusals_in_order() {
    let good = sheet_of(4, 0, &[([0, 1], [2, 2])]);
    let mut damaged = good.clone();
    damaged.push(0);
    let refused = |sheet: &[u8], distance_words: usize, image_words: usize| {
        let (mut filled, mut image) = (vec![9; distance_words], vec![9; image_words]);
        let answer = distances(sheet, &mut filled, &mut image);
        if answer.is_err() {
            assert!(filled.iter().chain(&image).all(|&word| word == 9));
        }
        answer
    };
    assert_eq!(refused(&damaged, 0, 0), Err(11));
    assert_eq!(refused(&good, 3, 0), Err(18));
    assert_eq!(refused(&good, 4, 37), Err(2));
    assert_eq!(refused(&good, 4, 13), Err(2));
    assert_eq!(refused(&good, 4, 0), Err(2));
    assert_eq!(refused(&good, 4, 38), Ok(2));
    assert_eq!(refused(&good, 9, 60), Ok(2));
}

#[test]
fn three_ways_agree() {
    let mut random = Random::new(53);
    for _ in 0..4_000 {
        let made = generate_sheets::good_sheet(&mut random);
        let sheet = accept(&made.bytes).unwrap();
        let (reached, filled) = run_on(&made.bytes);
        assert_eq!(filled, by_heap(&sheet));
        assert_eq!(filled, least_distances(&sheet));
        if sheet.n <= 300 {
            assert_eq!(filled, by_rounds(&sheet));
        }
        let found = filled.iter().filter(|&&distance| distance < UNREACHED);
        assert_eq!(reached, found.count() as u64);
    }
}

// ---------------------------------------------------------------------------
// Workloads

/// However updates are taken, and by the heap, the answers are the same; the
/// image is too.
#[test]
fn all_sides_of_the_bench_do_the_same() {
    for n in [1_024, 4_096, 16_384] {
        for workload in workload::all(n) {
            let answers = play(&workload.steps, &mut OnHeap::new(workload.n));
            let takings = [Taking::Either, Taking::ByLookup, Taking::ByGroup];
            let images = takings.map(|taking| {
                let mut words = vec![0; need(workload.n)];
                image::inner_fresh(&mut words, workload.n);
                let image = &mut words[..];
                let played = play(&workload.steps, &mut OnImage { image, taking });
                assert_eq!(played, answers, "{} {taking:?}", workload.name);
                words
            });
            assert!(images[0] == images[1] && images[0] == images[2]);
        }
    }
}

/// Each way to take updates, from any sound image, call by call.
#[test]
fn ways_to_take_updates_agree() {
    let mut random = Random::new(54);
    for _ in 0..3_000 {
        let small = random.between(1, 40);
        let n = random.pick(&[small, small, 100, 300]);
        let words = generate::sound_image(&mut random, n);
        let mut three = [words.clone(), words.clone(), words];
        for _ in 0..12 {
            let takings = [Taking::Either, Taking::ByLookup, Taking::ByGroup];
            let mut answers = Vec::new();
            for (words, taking) in three.iter_mut().zip(takings) {
                answers.push(image::inner_delete_min_by(words, taking));
            }
            assert!(answers.iter().all(|&answer| answer == answers[0]));
            assert!(three[0] == three[1] && three[0] == three[2]);
        }
    }
}

#[test]
fn sheets_of_the_bench_are_good() {
    for (bytes, n, h) in [
        (workload::grid_sheet(32, 4, 1, 255), 1_024, 3_968),
        (workload::grid_sheet(32, 8, 1, 255), 1_024, 7_812),
        (
            workload::sparse_sheet(2_000, 8_000, 0, 65_535),
            2_000,
            8_000,
        ),
    ] {
        let sheet = accept(&bytes).unwrap();
        assert_eq!((sheet.n, sheet.h), (n, h));
        assert_eq!(run_on(&bytes).1, run::by_heap(&sheet));
    }
}
