//! Whole runs, from the bytes of a sheet to its distances.

use crate::timing::{least_times, milliseconds, ratio, repeated, Clock, Side, ROUNDS};
use independent::image::need;
use independent::numbers::{id_of, key_of, pair};
use independent::run::{self, by_heap, UNREACHED};
use independent::sheet::{accept, Sheet};
use independent::workload::{grid_sheet, sparse_sheet};
use std::cmp::Reverse;
use std::collections::BinaryHeap;
use std::hint::black_box;

#[cfg(any(feature = "proved_run", feature = "proved_sheet"))]
use independent::harness::Judged;
#[cfg(any(feature = "proved_run", feature = "proved_sheet"))]
use independent::proved::Proved;

pub fn print() {
    println!("Whole runs: milliseconds a run, least of {ROUNDS} rounds");
    println!("a: independent, c: proved, d: BinaryHeap of (distance, vertex), e: BinaryHeap of both in a word;");
    println!("all accept the sheet first, which alone takes a* and c*, and that share of a and c");
    println!(
        "{:38}{:>10}{:>10}{:>10}{:>10}{:>7}{:>7}{:>7}{:>9}{:>8}{:>9}{:>8}",
        "", "a", "c", "d", "e", "c/a", "c/d", "c/e", "a*", "share", "c*", "share"
    );
    for neighbours in [4, 8] {
        for (weights, least, most) in [
            ("1 to 255", 1, 255),
            ("0 to 65,535", 0, 65_535),
            ("constant", 7, 7),
        ] {
            let name = format!("256 x 256, {neighbours} neighbours, {weights}");
            print_run(&name, &grid_sheet(256, neighbours, least, most));
        }
    }
    let sparse = sparse_sheet(65_536, 524_288, 0, 65_535);
    print_run("sparse, h = 524,288, 0 to 65,535", &sparse);
    for neighbours in [4, 8] {
        let name = format!("32 x 32, {neighbours} neighbours, 1 to 255");
        print_run(&name, &grid_sheet(32, neighbours, 1, 255));
    }
}

fn print_run(name: &str, bytes: &[u8]) {
    let wanted = by_heap(&accept(bytes).expect("a good sheet"));
    let mut sides = vec![
        run_side(bytes, &wanted, run::distances),
        heap_side(bytes, &wanted, by_heap),
        heap_side(bytes, &wanted, by_packed_heap),
        repeated(Clock::Thread, || {
            black_box(accept(black_box(bytes)).is_ok());
        }),
    ];
    let runs = sides.len();
    sides.extend(proved_run(bytes, &wanted));
    let accepts = sides.len();
    sides.extend(proved_accept(bytes));
    let times = least_times(&mut sides);
    let (a, d, e, a_accept) = (times[0], times[1], times[2], times[3]);
    let c = times[runs..accepts].first().copied();
    let c_accept = times[accepts..].first().copied();
    let share = |part: Option<f64>, whole: Option<f64>| match (part, whole) {
        (Some(part), Some(whole)) => format!("{:.0}%", 100.0 * part / whole),
        _ => "-".to_string(),
    };
    println!(
        "{name:38}{:>10}{:>10}{:>10}{:>10}{:>7}{:>7}{:>7}{:>9}{:>8}{:>9}{:>8}",
        milliseconds(Some(a)),
        milliseconds(c),
        milliseconds(Some(d)),
        milliseconds(Some(e)),
        ratio(c, a),
        ratio(c, d),
        ratio(c, e),
        milliseconds(Some(a_accept)),
        share(Some(a_accept), Some(a)),
        milliseconds(c_accept),
        share(c_accept, c),
    );
}

/// Its distances must be the least ones.
fn run_side<'a>(
    bytes: &'a [u8],
    wanted: &'a [u64],
    run: impl Fn(&[u8], &mut [u64], &mut [u64]) -> Result<u64, u64> + 'a,
) -> Side<'a> {
    let mut distances = vec![0; wanted.len()];
    let mut image = vec![0; need(wanted.len() as u64)];
    assert!(run(bytes, &mut distances, &mut image).is_ok());
    assert_eq!(distances, wanted);
    repeated(Clock::Thread, move || {
        black_box(run(black_box(bytes), &mut distances, &mut image).is_ok());
    })
}

/// So must a heap's be.
fn heap_side<'a>(
    bytes: &'a [u8],
    wanted: &[u64],
    run: impl Fn(&Sheet) -> Vec<u64> + 'a,
) -> Side<'a> {
    let run = move || run(&accept(black_box(bytes)).expect("a good sheet"));
    assert_eq!(run(), wanted);
    repeated(Clock::Thread, move || {
        black_box(run());
    })
}

/// `by_heap` with distance and vertex in one word, as a pair.
fn by_packed_heap(sheet: &Sheet) -> Vec<u64> {
    let mut distances = vec![UNREACHED; sheet.n];
    distances[sheet.source] = 0;
    let mut heap = BinaryHeap::from([Reverse(pair(0, sheet.source as u64))]);
    while let Some(Reverse(smallest)) = heap.pop() {
        let (vertex, distance) = (id_of(smallest) as usize, key_of(smallest));
        if distance > distances[vertex] {
            continue;
        }
        for (target, weight) in sheet.row(vertex) {
            let through_here = distance + weight;
            if through_here < distances[target] {
                distances[target] = through_here;
                heap.push(Reverse(pair(through_here, target as u64)));
            }
        }
    }
    distances
}

#[cfg(feature = "proved_run")]
fn proved_run<'a>(bytes: &'a [u8], wanted: &'a [u64]) -> Option<Side<'a>> {
    let run = |bytes: &[u8], distances: &mut [u64], image: &mut [u64]| {
        Proved.distances(bytes, distances, image)
    };
    Some(run_side(bytes, wanted, run))
}

#[cfg(not(feature = "proved_run"))]
fn proved_run<'a>(_bytes: &'a [u8], _wanted: &'a [u64]) -> Option<Side<'a>> {
    None
}

#[cfg(feature = "proved_sheet")]
fn proved_accept(bytes: &[u8]) -> Option<Side<'_>> {
    Some(repeated(Clock::Thread, || {
        black_box(Proved.accept(black_box(bytes)).is_ok());
    }))
}

#[cfg(not(feature = "proved_sheet"))]
fn proved_accept(_bytes: &[u8]) -> Option<Side<'_>> {
    None
}
