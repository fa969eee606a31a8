//! Whole lists of inner calls, and Delete-Mins that stop at the first levels.

use crate::timing::{least_times, milliseconds, ratio, Side, Watch, ROUNDS};
use independent::generate::Random;
use independent::image::{self, need, Answer, Taking};
use independent::numbers::*;
#[cfg(feature = "proved_inner")]
use independent::proved::Inner;
use independent::run::{OnHeap, OnImage, Queue};
use independent::workload::{self, play, Workload};
use std::hint::black_box;

pub fn print() {
    println!("Lists of inner calls: milliseconds a list, least of {ROUNDS} rounds");
    println!("a: independent, b: independent with each update looked up, c: proved, d: BinaryHeap");
    println!(
        "{:24}{:>9}{:>11}{:>11}{:>11}{:>11}{:>8}{:>8}{:>8}{:>8}{:>8}",
        "n = 65,536", "calls", "a", "b", "c", "d", "c/a", "c/b", "c/d", "a/d", "b/d"
    );
    for workload in workload::all(65_536) {
        print_workload(&workload);
    }
}

fn print_workload(workload: &Workload) {
    let answers = play(&workload.steps, &mut OnHeap::new(workload.n));
    let mut sides = vec![
        on_image(workload, Taking::Either, answers),
        on_image(workload, Taking::ByLookup, answers),
        on_heap(workload, answers),
    ];
    sides.extend(proved(workload, answers));
    let times = least_times(&mut sides);
    let (a, b, d, c) = (times[0], times[1], times[2], times.get(3).copied());
    println!(
        "{:24}{:>9}{:>11}{:>11}{:>11}{:>11}{:>8}{:>8}{:>8}{:>8}{:>8}",
        workload.name,
        workload.steps.len(),
        milliseconds(Some(a)),
        milliseconds(Some(b)),
        milliseconds(c),
        milliseconds(Some(d)),
        ratio(c, a),
        ratio(c, b),
        ratio(c, d),
        ratio(Some(a), d),
        ratio(Some(b), d),
    );
}

fn on_image(workload: &Workload, taking: Taking, answers: u64) -> Side<'_> {
    let mut image = vec![0; need(workload.n)];
    Box::new(move || {
        image::inner_fresh(&mut image, workload.n);
        let image = &mut image[..];
        timed(workload, &mut OnImage { image, taking }, answers)
    })
}

fn on_heap(workload: &Workload, answers: u64) -> Side<'_> {
    Box::new(move || timed(workload, &mut OnHeap::new(workload.n), answers))
}

#[cfg(feature = "proved_inner")]
fn proved(workload: &Workload, answers: u64) -> Option<Side<'_>> {
    let mut image = vec![0; need(workload.n)];
    Some(Box::new(move || {
        image::inner_fresh(&mut image, workload.n);
        timed(workload, &mut Inner(&mut image), answers)
    }))
}

#[cfg(not(feature = "proved_inner"))]
fn proved(_workload: &Workload, _answers: u64) -> Option<Side<'_>> {
    None
}

/// All sides must have answered the same.
fn timed(workload: &Workload, queue: &mut impl Queue, answers: u64) -> f64 {
    let start = Watch::start();
    let sum = play(black_box(&workload.steps), queue);
    let time = start.nanoseconds();
    assert_eq!(sum, answers, "{}: other answers", workload.name);
    time
}

// ---------------------------------------------------------------------------
// Delete-Mins that stop early

/// So many calls in a round.
const REPEATS: u32 = 20_000;

/// Such a call must not take longer because n is larger.
pub fn print_shallow() {
    println!("Delete-Mins that stop at level 0 or 1: nanoseconds a call, least of {ROUNDS} rounds");
    println!(
        "{:34}{:>10}{:>10}{:>8}{:>10}{:>10}{:>8}",
        "", "a, 1,024", "65,536", "ratio", "c, 1,024", "65,536", "ratio"
    );
    for stop in [0, 1] {
        for waiting in [0, 4] {
            print_stop(stop, waiting);
        }
    }
}

fn print_stop(stop: usize, waiting: u64) {
    let images = [1_024, 65_536].map(|n| Shallow::new(n, stop, waiting));
    let mut sides: Vec<Side> = Vec::new();
    for shallow in &images {
        let mine = |image: &mut [u64]| {
            black_box(image::inner_delete_min(black_box(image)));
        };
        sides.push(shallow.side(mine));
    }
    #[cfg(feature = "proved_inner")]
    for shallow in &images {
        let proved = |image: &mut [u64]| {
            black_box(Inner(black_box(image)).delete_min());
        };
        sides.push(shallow.side(proved));
    }
    let times = least_times(&mut sides);
    print!(
        "{:34}",
        format!("stops at level {stop}, {waiting} updates wait")
    );
    for two in 0..2 {
        match times.get(2 * two..2 * two + 2) {
            Some([small, large]) => print!("{small:>10.1}{large:>10.1}{:>8.2}", large / small),
            _ => print!("{:>10}{:>10}{:>8}", "-", "-", "-"),
        }
    }
    println!();
}

/// An image whose next Delete-Min stops early, and the words it changes.
struct Shallow {
    image: Vec<u64>,
    changed: Vec<(usize, u64)>,
}

impl Shallow {
    fn new(n: u64, stop: usize, waiting: u64) -> Shallow {
        let mut image = full(n);
        // Each Delete-Min takes level 0's only pair: the next has to go on.
        for _ in 0..stop {
            image::inner_delete_min(&mut image);
        }
        for number in 0..waiting {
            match number % 2 {
                0 => image::inner_delete(&mut image, number),
                _ => image::inner_decrease(&mut image, number, KEY_LIMIT - 1),
            };
        }
        let mut after = image.clone();
        let answer = image::inner_delete_min(&mut after);
        let reach = stop as u64 + 1;
        assert!(
            matches!(answer, Answer::Min { reach: r, .. } if r == reach),
            "{answer:?}"
        );
        let differs = |&at: &usize| image[at] != after[at];
        let changed = (0..image.len()).filter(differs);
        Shallow {
            changed: changed.map(|at| (at, image[at])).collect(),
            image,
        }
    }

    /// Many calls, each on the same image: what it changed is put back.
    fn side<'a>(&'a self, call: impl Fn(&mut [u64]) + 'a) -> Side<'a> {
        let mut image = self.image.clone();
        Box::new(move || {
            let start = Watch::start();
            for _ in 0..REPEATS {
                call(&mut image);
                for &(at, word) in &self.changed {
                    image[at] = word;
                }
            }
            start.nanoseconds() / f64::from(REPEATS)
        })
    }
}

/// All ids live, tidied: every level is as full as it can be. The smallest
/// pairs are of ids that no update of these images names.
fn full(n: u64) -> Vec<u64> {
    let mut random = Random::new(n);
    let mut image = vec![0; need(n)];
    image::inner_fresh(&mut image, n);
    for id in 0..n {
        let key = match id {
            0..10 => KEY_LIMIT / 2 + id,
            10..20 => id,
            _ => 1_000 + random.below(KEY_LIMIT / 2),
        };
        image::inner_decrease(&mut image, id, key);
    }
    image::tidy(&mut image);
    image
}
