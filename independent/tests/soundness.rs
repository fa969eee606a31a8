//! Two tests of soundness against each other, and what the generator offers.

use independent::generate::{break_clause, damage, size, sound_image, Parts, Random};
use independent::numbers::*;
use independent::reading::plain_reading;
use independent::sound::{broken_clauses, sound_by_clauses, verdict, Clause, Failure, Verdict};
use std::collections::BTreeSet;

/// The slow test, put as the fast one puts it.
fn slow(words: &[u64]) -> Verdict {
    match sound_by_clauses(words) {
        Ok(()) => Verdict::Good,
        Err(Failure::TooShort) => Verdict::TooShort,
        Err(_) => Verdict::NotSound,
    }
}

#[test]
fn generated_images_are_sound() {
    let mut random = Random::new(11);
    for _ in 0..6_000 {
        let n = size(&mut random);
        let words = sound_image(&mut random, n);
        assert_eq!(words.len(), need(n));
        assert_eq!(sound_by_clauses(&words), Ok(()), "n = {n}: {words:?}");
        assert_eq!(verdict(&words), Verdict::Good, "n = {n}");
    }
}

#[test]
fn the_largest_images_are_sound() {
    let mut random = Random::new(12);
    for _ in 0..25 {
        let words = sound_image(&mut random, MOST_IDS);
        assert_eq!(sound_by_clauses(&words), Ok(()));
        assert_eq!(verdict(&words), Verdict::Good);
    }
}

#[test]
fn both_tests_agree_on_damaged_words() {
    let mut random = Random::new(13);
    let mut sound = 0;
    for _ in 0..30_000 {
        let n = size(&mut random).min(1_025);
        let mut words = sound_image(&mut random, n);
        damage(&mut random, &mut words);
        if random.one_in(3) {
            words.extend([u64::MAX, 0, 5]);
        }
        assert_eq!(verdict(&words), slow(&words), "n = {n}: {words:?}");
        assert_eq!(plain_reading(&words), slow(&words), "n = {n}: {words:?}");
        sound += u32::from(slow(&words) == Verdict::Good);
    }
    assert!(
        sound > 1_000,
        "some damage must leave a sound image: {sound}"
    );
}

#[test]
fn both_tests_agree_on_any_words() {
    let mut random = Random::new(14);
    for _ in 0..20_000 {
        let length = random.index(80);
        let mut words: Vec<u64> = (0..length).map(|_| random.below(9)).collect();
        if random.one_in(2) && length > 0 {
            words[0] = random.word();
        }
        assert_eq!(verdict(&words), slow(&words), "{words:?}");
    }
}

#[test]
fn each_clause_is_broken_alone_by_some_damaged_image() {
    let mut random = Random::new(15);
    let mut alone = BTreeSet::new();
    for _ in 0..60_000 {
        let n = random.between(1, 12);
        let mut words = sound_image(&mut random, n);
        damage(&mut random, &mut words);
        if let Ok([clause]) = broken_clauses(&words).as_deref() {
            assert_eq!(verdict(&words), Verdict::NotSound);
            alone.insert(*clause);
        }
    }
    let missing: Vec<_> = Clause::ALL
        .iter()
        .filter(|clause| !alone.contains(clause))
        .collect();
    assert!(missing.is_empty(), "never broken alone: {missing:?}");
}

#[test]
fn aiming_at_a_clause_breaks_it_at_all_sizes() {
    let mut random = Random::new(16);
    for n in [30, 64, 65, 1_000, 1_024, 1_025] {
        for clause in Clause::ALL {
            let mut hits = 0;
            for _ in 0..60 {
                let mut words = sound_image(&mut random, n);
                break_clause(&mut random, &mut words, clause);
                assert_eq!(verdict(&words), slow(&words), "n = {n}, {clause:?}");
                hits += u32::from(broken_clauses(&words).unwrap().contains(&clause));
            }
            assert!(hits > 0, "n = {n}, {clause:?}");
        }
    }
}

/// The last id of the most there can be, in elements and in updates.
#[test]
fn the_last_of_65536_ids() {
    let mut parts = Parts::fresh(MOST_IDS);
    parts.elements[0].push(pair(3, 65_535));
    parts.updates[0].push(update(DECREASE, pair(2, 65_535)));
    let words = parts.into_words();
    assert_eq!(
        (verdict(&words), slow(&words)),
        (Verdict::Good, Verdict::Good)
    );
}

/// What a reader would want to meet among the sound images.
#[test]
fn the_sound_images_are_of_many_kinds() {
    let mut random = Random::new(17);
    let mut seen = BTreeSet::new();
    for _ in 0..4_000 {
        let n = random.between(1, 40);
        let words = sound_image(&mut random, n);
        let parts = Parts::of(&words);
        let stacked: usize = parts.updates.iter().map(Vec::len).sum();
        let deep = parts.updates.iter().skip(1).flatten();
        if deep.clone().any(|&word| kind_of(word) == SINK) {
            seen.insert("a Sink waits");
        }
        if deep.clone().any(|&word| kind_of(word) == DECREASE) {
            seen.insert("a Decrease waits below level 0");
        }
        if parts.updates[parts.updates.len() - 1]
            .iter()
            .any(|&word| moot(&parts, word))
        {
            seen.insert("a Delete of nothing waits at the last level");
        }
        if parts
            .bounds
            .iter()
            .any(|&bound| bound < OPEN && id_of(bound) >= n)
        {
            seen.insert("a bound is no pair of an id below n");
        }
        if stacked == 3 * n as usize {
            seen.insert("the stack is full");
        }
        if words[2] == n {
            seen.insert("the next update tidies");
        }
        if parts
            .elements
            .iter()
            .enumerate()
            .all(|(i, level)| level.len() == 1 << i || i > 2)
        {
            seen.insert("levels are full");
        }
        if parts
            .elements
            .iter()
            .enumerate()
            .any(|(i, l)| l.contains(&parts.bounds[i]))
        {
            seen.insert("an element is its level's bound");
        }
    }
    assert_eq!(seen.len(), 8, "{seen:?}");
}

fn moot(parts: &Parts, word: u64) -> bool {
    let last = parts.elements.len() - 1;
    let stored = parts.elements[last]
        .iter()
        .any(|&pair| id_of(pair) == id_of(pair_of(word)));
    kind_of(word) == DELETE && !stored
}
