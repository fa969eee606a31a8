//! Single calls: the test of soundness, fresh images, pushes.

use crate::timing::Watch;
use independent::generate::Random;
use independent::harness::Judged;
use independent::image::{self, need};
use independent::numbers::*;
#[cfg(feature = "proved_inner")]
use independent::proved::Inner;
use independent::reading::plain_reading;
#[cfg(feature = "proved_inner")]
use independent::run::Queue;
use independent::sound::{verdict, Verdict};
use std::hint::black_box;

const ROUNDS: usize = 25;
/// A round of one side lasts about so long: enough to read a clock by.
const ROUND_NANOSECONDS: f64 = 2e6;

/// Something to be timed on an image.
type Work<'a> = dyn FnMut(&mut [u64]) + 'a;

pub fn print() {
    println!("Single calls: nanoseconds a call, least of {ROUNDS} rounds");
    println!(
        "{:34}{:>14}{:>14}{:>9}",
        "", "independent", "proved", "ratio"
    );
    for n in [1_024, 65_536] {
        soundness(n);
        soundness_plainly(n);
    }
    for n in [1_024, 65_536] {
        fresh(n);
    }
    for n in [1_024, 65_536] {
        outward_decrease(n);
    }
    for n in [1_024, 65_536] {
        inner_push(n);
    }
}

fn soundness(n: u64) {
    let name = format!("soundness, n = {n}");
    let mut mine = |image: &mut [u64]| {
        black_box(verdict(black_box(image)));
    };
    with_proved(&name, &half_full(n), &mut mine, |side| {
        Box::new(move |image| {
            black_box(side.judge(black_box(image)));
        })
    });
}

/// The same single reading without a proof: what the proof costs.
fn soundness_plainly(n: u64) {
    let name = format!("  by one plain reading, n = {n}");
    let mut mine = |image: &mut [u64]| {
        black_box(plain_reading(black_box(image)));
    };
    with_proved(&name, &half_full(n), &mut mine, |side| {
        Box::new(move |image| {
            black_box(side.judge(black_box(image)));
        })
    });
}

fn fresh(n: u64) {
    let name = format!("fresh, n = {n}");
    let mut mine = |image: &mut [u64]| {
        black_box(image::fresh(black_box(image), n));
    };
    with_proved(&name, &half_full(n), &mut mine, |side| {
        Box::new(move |image| {
            black_box(side.fresh(black_box(image), n));
        })
    });
}

/// The outward call is mostly its test of soundness.
fn outward_decrease(n: u64) {
    let name = format!("outward decrease, n = {n}");
    let image = half_full(n);
    let top = stack_top(&image);
    let mut mine = |image: &mut [u64]| {
        black_box(image::decrease(black_box(image), 5, 9));
        pop(image, top);
    };
    with_proved(&name, &image, &mut mine, |side| {
        Box::new(move |image| {
            black_box(side.decrease(black_box(image), 5, 9));
            pop(image, top);
        })
    });
}

fn inner_push(n: u64) {
    let name = format!("inner push, n = {n}");
    let image = half_full(n);
    let top = stack_top(&image);
    let mut mine = |image: &mut [u64]| {
        black_box(image::inner_decrease(black_box(image), 5, 9));
        pop(image, top);
    };
    print_beside(&name, &image, &mut mine, proved_push(top));
}

#[cfg(feature = "proved_inner")]
fn proved_push(top: usize) -> Option<Box<Work<'static>>> {
    Some(Box::new(move |image| {
        Inner(black_box(image)).decrease(5, 9);
        pop(image, top);
    }))
}

#[cfg(not(feature = "proved_inner"))]
fn proved_push(_top: usize) -> Option<Box<Work<'static>>> {
    None
}

/// Takes the last update away again, so that every call meets the same image.
fn pop(image: &mut [u64], top: usize) {
    image[top] = 0;
    image[update_count_at(0)] -= 1;
    image[2] -= 1;
}

fn stack_top(image: &[u64]) -> usize {
    Layout::of(image[0]).updates_start(image, 0) + image[update_count_at(0)] as usize
}

/// Half of the ids live in the levels, about half of the updates that may
/// wait do, some of them Sinks below level 0.
fn half_full(n: u64) -> Vec<u64> {
    let mut random = Random::new(n);
    let mut image = vec![0; need(n)];
    image::inner_fresh(&mut image, n);
    for id in 0..n / 2 {
        image::inner_decrease(&mut image, 2 * id, random.below(KEY_LIMIT));
    }
    image::tidy(&mut image);
    for number in 0..n / 2 {
        let id = random.below(n);
        match random.below(3) {
            0 => image::inner_delete(&mut image, id),
            _ => image::inner_decrease(&mut image, id, random.below(KEY_LIMIT)),
        };
        if number == n / 4 {
            image::inner_delete_min(&mut image);
        }
    }
    assert_eq!(verdict(&image), Verdict::Good);
    image
}

// ---------------------------------------------------------------------------
// Timing

#[cfg(feature = "proved")]
fn proved() -> Option<&'static dyn Judged> {
    Some(&independent::proved::Proved)
}

/// Without the library `--self` times the same code as both sides, which shows
/// how far two equal times differ on this computer.
#[cfg(not(feature = "proved"))]
fn proved() -> Option<&'static dyn Judged> {
    let itself = std::env::args().any(|word| word == "--self");
    itself.then_some(&independent::harness::Itself { has_min: true })
}

fn with_proved(
    name: &str,
    image: &[u64],
    mine: &mut Work,
    theirs: impl FnOnce(&'static dyn Judged) -> Box<Work<'static>>,
) {
    print_beside(name, image, mine, proved().map(theirs));
}

fn print_beside(name: &str, image: &[u64], mine: &mut Work, theirs: Option<Box<Work<'static>>>) {
    let Some(mut theirs) = theirs else {
        let [least] = least_times(image, [mine]);
        return print_row(name, least, None);
    };
    let [least, proved] = least_times(image, [mine, &mut *theirs]);
    print_row(name, least, Some(proved));
}

fn least_times<const SIDES: usize>(image: &[u64], mut sides: [&mut Work; SIDES]) -> [f64; SIDES] {
    let mut copies: [Vec<u64>; SIDES] = std::array::from_fn(|_| image.to_vec());
    let times: [u32; SIDES] = std::array::from_fn(|i| repeats(&mut copies[i], sides[i]));
    let mut least = [f64::INFINITY; SIDES];
    for round in 0..ROUNDS {
        for turn in 0..SIDES {
            // The sides take turns at going first.
            let side = (turn + round) % SIDES;
            let start = Watch::start();
            for _ in 0..times[side] {
                sides[side](&mut copies[side]);
            }
            let time = start.nanoseconds() / f64::from(times[side]);
            least[side] = least[side].min(time);
        }
    }
    least
}

/// How often a call fits into a round.
fn repeats(image: &mut [u64], side: &mut Work) -> u32 {
    let start = Watch::start();
    for _ in 0..10 {
        side(image);
    }
    let one = start.nanoseconds() / 10.0;
    (ROUND_NANOSECONDS / one.max(1.0)).clamp(10.0, 1e6) as u32
}

fn print_row(name: &str, independent: f64, proved: Option<f64>) {
    match proved {
        Some(proved) => {
            let ratio = proved / independent;
            println!("{name:34}{independent:14.1}{proved:14.1}{ratio:9.2}");
        }
        None => println!("{name:34}{independent:14.1}{:>14}{:>9}", "-", "-"),
    }
}
