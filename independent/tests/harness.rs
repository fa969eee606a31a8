//! The comparison itself: it passes on good code and notices every mistake.

use independent::harness::{run_case, Counts, Failure, Itself, Sides, Topic};
use independent::mistake::{self, Mistake};
use std::panic::{catch_unwind, AssertUnwindSafe};

const SEED: u64 = 31;

fn case(topic: Topic, case: u64, itself: &Itself, counts: &mut Counts) -> Result<(), Failure> {
    let sides = Sides {
        calls: itself,
        programs: itself,
    };
    run_case(topic, SEED, case, sides, counts)
}

/// The first failing case, if one of so many fails; a panic fails too.
fn first_failing(topic: Topic, judged: &Itself, cases: u64) -> Option<u64> {
    (0..cases).find(|&number| {
        let run = || case(topic, number, judged, &mut Counts::default());
        !matches!(catch_unwind(AssertUnwindSafe(run)), Ok(Ok(())))
    })
}

/// So many cases, all of them good; what they met.
fn good(topic: Topic, cases: u64, itself: &Itself) -> Counts {
    let mut counts = Counts::default();
    for number in 0..cases {
        case(topic, number, itself, &mut counts)
            .unwrap_or_else(|failure| panic!("{} case {number}: {failure}", topic.name()));
    }
    counts
}

/// Each of these refusals was met more than fifty times.
fn all_met(counts: &Counts, numbers: &[usize]) -> bool {
    numbers.iter().all(|&number| counts.refused[number] > 50)
}

#[test]
fn good_queue_calls_pass() {
    for has_min in [false, true] {
        let counts = good(Topic::Queue, 4_000, &Itself { has_min });
        let met = all_met(&counts, &[1, 2, 3, 4, 5]);
        assert!(
            met && counts.mins > 1_000 && counts.empty > 100,
            "{}",
            counts.line()
        );
    }
}

#[test]
fn good_sheets_pass() {
    let counts = good(Topic::Sheet, 8_000, &Itself { has_min: true });
    let met = all_met(&counts, &[11, 12, 13, 14, 15, 16, 17]);
    assert!(met && counts.sheets_accepted > 1_000, "{}", counts.line());
}

#[test]
fn good_writer_calls_pass() {
    let counts = good(Topic::Writer, 8_000, &Itself { has_min: true });
    let met = all_met(&counts, &[13, 21, 22, 23, 24, 25]);
    assert!(met && counts.sheets_written > 1_000, "{}", counts.line());
}

#[test]
fn good_runs_pass() {
    let counts = good(Topic::Run, 16_000, &Itself { has_min: true });
    let met = all_met(&counts, &[2, 11, 12, 13, 14, 15, 16, 18]);
    assert!(met && counts.runs > 4_000, "{}", counts.line());
}

#[test]
fn good_programs_pass() {
    let counts = good(Topic::Programs, 2_000, &Itself { has_min: true });
    assert!(counts.lines > 50_000, "{}", counts.line());
}

fn notices(mistake: Mistake, has_min: bool) {
    let (topic, name) = (mistake.topic(), mistake.name());
    mistake::set(Some(mistake));
    let failing = first_failing(topic, &Itself { has_min }, 20_000);
    mistake::set(None);
    let Some(number) = failing else {
        panic!("{name} is not noticed");
    };
    // Without the mistake the same case passes.
    let again = case(topic, number, &Itself { has_min }, &mut Counts::default());
    assert_eq!(again, Ok(()), "{name}");
}

#[test]
fn every_mistake_of_the_queue_is_noticed() {
    for mistake in Mistake::all() {
        if mistake.topic() != Topic::Queue {
            continue;
        }
        notices(mistake, true);
        if !mistake.needs_min() {
            notices(mistake, false);
        }
    }
}

#[test]
fn every_other_mistake_is_noticed() {
    let others = Mistake::all().into_iter();
    let others: Vec<Mistake> = others.filter(|one| one.topic() != Topic::Queue).collect();
    assert!(others.len() >= 60);
    for mistake in others {
        notices(mistake, true);
    }
}
