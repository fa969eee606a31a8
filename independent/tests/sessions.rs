//! Sessions of calls: against the plain map, against the reach's definition,
//! and against a second, literal way through tidy and Delete-Min.

mod literal;

use independent::generate::{self, Call, Parts, Random};
use independent::image::{self, Answer};
use independent::numbers::*;
use independent::plain::{self, Plain};
use independent::sound::{sound_by_clauses, verdict, Verdict};

/// Words behind every image of these tests; no call may write them.
const BEHIND: [u64; 3] = [u64::MAX, 0, 77];

fn outward(words: &mut [u64], call: Call) -> Answer {
    match call {
        Call::Fresh(n) => image::fresh(words, n),
        Call::Decrease(id, key) => image::decrease(words, id, key),
        Call::Delete(id) => image::delete(words, id),
        _ => image::delete_min(words),
    }
}

/// The answer by the plain map and by the reach's definition.
fn expected(plain: &mut Plain, before: &[u64], call: Call) -> Answer {
    match call {
        Call::Decrease(id, key) => plain.decrease(id, key),
        Call::Delete(id) => plain.delete(id),
        _ => match (plain.delete_min(), plain::reach(before)) {
            (Some((id, key)), Some(reach)) => Answer::Min { id, key, reach },
            (None, None) => Answer::Empty {
                reach: levels(before[0]) as u64,
            },
            (held, reach) => panic!("plain map {held:?}, reach {reach:?}"),
        },
    }
}

/// Everything the page says of one call.
fn check_call(words: &mut [u64], plain: &mut Plain, call: Call) {
    let before = words.to_vec();
    let expected = expected(plain, &before, call);
    let answer = outward(words, call);
    assert_eq!(answer, expected, "{call:?}");
    match answer {
        Answer::Refused(_) => assert_eq!(words, before),
        Answer::Taken => check_push(words, &before, call),
        Answer::Min { reach, .. } => check_min(words, &before, reach as usize - 1),
        Answer::Empty { .. } => {
            let mut fresh = before.clone();
            image::fresh(&mut fresh, before[0]);
            assert_eq!(words, fresh);
        }
    }
    let need = need(before[0]);
    assert_eq!(words[need..], BEHIND);
    assert_eq!(verdict(words), Verdict::Good, "{call:?}");
    assert_eq!(plain::live_map(words), plain.map, "{call:?}");
}

/// A push without tidy changes exactly three words; with it, as the page says.
fn check_push(words: &[u64], before: &[u64], call: Call) {
    let pushed = match call {
        Call::Decrease(id, key) => update(DECREASE, pair(key, id)),
        Call::Delete(id) => update(DELETE, id),
        _ => unreachable!("only these are taken"),
    };
    let mut parts = Parts::of(before);
    if before[2] == before[0] {
        literal::tidy(&mut parts);
    } else {
        let changed = words.iter().zip(before).filter(|(new, old)| new != old);
        assert_eq!(changed.count(), 3);
    }
    parts.updates[0].push(pushed);
    assert_eq!(words[..need(before[0])], parts.into_words());
}

/// Levels beyond k stay as found, save for updates added behind those waiting
/// at level k+1; and every word is as the literal rules leave it.
fn check_min(words: &[u64], before: &[u64], k: usize) {
    let (old, new) = (Parts::of(before), Parts::of(words));
    for level in k + 1..levels(before[0]) {
        assert_eq!(new.bounds[level], old.bounds[level]);
        assert_eq!(new.elements[level], old.elements[level]);
        if level == k + 1 {
            assert!(new.updates[level].starts_with(&old.updates[level]));
        } else {
            assert_eq!(new.updates[level], old.updates[level]);
        }
    }
    let mut parts = old;
    assert_eq!(literal::delete_min(&mut parts), Some(k));
    assert_eq!(words[..need(before[0])], parts.into_words());
}

fn run_session(random: &mut Random, mut words: Vec<u64>, calls: u64) {
    let n = words[0];
    words.extend(BEHIND);
    let mut plain = Plain::of(&words);
    let habits = generate::habits(random);
    for _ in 0..calls {
        let call = generate::call(random, n, &habits);
        check_call(&mut words, &mut plain, call);
    }
}

#[test]
fn sessions_from_fresh_images() {
    let mut random = Random::new(21);
    for _ in 0..1_500 {
        let n = random.between(1, 40);
        let calls = random.below(6 * n + 10);
        run_session(&mut random, Parts::fresh(n).into_words(), calls);
    }
}

#[test]
fn sessions_from_sound_images() {
    let mut random = Random::new(22);
    for _ in 0..6_000 {
        let n = random.between(1, 40);
        let words = generate::sound_image(&mut random, n);
        let calls = random.below(3 * n + 6);
        run_session(&mut random, words, calls);
    }
}

#[test]
fn sessions_of_a_thousand_ids() {
    let mut random = Random::new(23);
    for _ in 0..40 {
        let n = random.pick(&[1_000, 1_024, 1_025]);
        let words = generate::sound_image(&mut random, n);
        run_session(&mut random, words, 40);
    }
}

#[test]
fn sessions_of_the_most_ids() {
    let mut random = Random::new(24);
    for _ in 0..4 {
        let words = generate::sound_image(&mut random, MOST_IDS);
        run_session(&mut random, words, 4);
    }
}

/// Draining a queue answers all pairs in ascending order of cost, then id.
#[test]
fn drained_in_order() {
    let mut random = Random::new(25);
    for n in [1, 2, 3, 7, 64, 500] {
        let mut words = generate::sound_image(&mut random, n);
        let live = plain::live_map(&words);
        let mut pairs: Vec<u64> = live.iter().map(|(&id, &key)| pair(key, id)).collect();
        pairs.sort_unstable();
        for held in pairs {
            let Answer::Min { id, key, .. } = image::delete_min(&mut words) else {
                panic!("a live pair is missing");
            };
            assert_eq!(pair(key, id), held);
        }
        let reach = levels(n) as u64;
        assert_eq!(image::delete_min(&mut words), Answer::Empty { reach });
    }
}

/// The inner calls do what the outward ones do.
#[test]
fn inner_calls_agree() {
    let mut random = Random::new(26);
    for _ in 0..2_000 {
        let n = random.between(1, 40);
        let mut words = generate::sound_image(&mut random, n);
        let mut inner = words.clone();
        for _ in 0..20 {
            let (id, key) = (random.below(n), random.below(50));
            let answers = match random.below(3) {
                0 => (
                    image::delete(&mut words, id),
                    image::inner_delete(&mut inner, id),
                ),
                1 => {
                    let answer = image::decrease(&mut words, id, key);
                    (answer, image::inner_decrease(&mut inner, id, key))
                }
                _ => (
                    image::delete_min(&mut words),
                    image::inner_delete_min(&mut inner),
                ),
            };
            assert_eq!(answers.0, answers.1);
            assert_eq!(words, inner);
        }
    }
}

// ---------------------------------------------------------------------------
// Every small image

/// All lists of at most so many of these words.
fn lists(words: &[u64], most: usize) -> Vec<Vec<u64>> {
    let mut all = vec![Vec::new()];
    let mut longest = all.clone();
    for _ in 0..most {
        let longer = |list: &Vec<u64>| {
            let list = list.clone();
            let add = move |&word: &u64| [list.as_slice(), &[word]].concat();
            words.iter().map(add).collect::<Vec<_>>()
        };
        longest = longest.iter().flat_map(longer).collect();
        all.extend(longest.iter().cloned());
    }
    all
}

/// Soundness by both tests; on a sound image every call with keys 0 to 2.
fn check_image(parts: &Parts) -> bool {
    let mut words = parts.clone().into_words();
    let by_clauses = sound_by_clauses(&words).is_ok();
    assert_eq!(verdict(&words) == Verdict::Good, by_clauses, "{parts:?}");
    if !by_clauses {
        return false;
    }
    words.extend(BEHIND);
    let ids = 0..=parts.n;
    let decreases = ids
        .clone()
        .flat_map(|id| [0, 1, 2, KEY_LIMIT].map(|key| Call::Decrease(id, key)));
    let calls = decreases
        .chain(ids.map(Call::Delete))
        .chain([Call::DeleteMin]);
    for call in calls {
        check_call(&mut words.clone(), &mut Plain::of(&words), call);
    }
    true
}

#[test]
fn every_small_image_of_one_id() {
    let pairs = [pair(0, 0), pair(1, 0)];
    let kinds = [DECREASE, DELETE, SINK];
    let updates: Vec<u64> = kinds
        .iter()
        .flat_map(|&kind| pairs.map(|pair| update(kind, pair)))
        .collect();
    let mut sound = 0;
    for elements in lists(&pairs, 1) {
        for waiting in lists(&updates, 3) {
            let mut parts = Parts::fresh(1);
            parts.elements[0] = elements.clone();
            parts.updates[0] = waiting;
            sound += u32::from(check_image(&parts));
        }
    }
    // No element or one of two; nothing waits, or one Delete, or one of two Decreases.
    assert_eq!(sound, 3 * 4);
}

#[test]
fn every_small_image_of_two_ids() {
    let pairs = [pair(0, 0), pair(0, 1), pair(1, 0), pair(1, 1)];
    let deletes = [0, 1].map(|id| update(DELETE, id));
    let decreases = pairs.map(|pair| update(DECREASE, pair));
    let top_updates = lists(&[&deletes[..], &decreases[1..3]].concat(), 1);
    let sinks = pairs.map(|pair| update(SINK, pair));
    let deep_updates = lists(&[&deletes[..], &decreases[..], &sinks[..]].concat(), 2);
    let mut sound = 0;
    for bound in [0, 1, 70, pair(1, 0), pair(1, 1), OPEN - 1, OPEN] {
        for top in lists(&pairs, 1) {
            for deep in lists(&pairs, 2) {
                for top_waiting in &top_updates {
                    for deep_waiting in &deep_updates {
                        let mut parts = Parts::fresh(2);
                        parts.bounds[0] = bound;
                        parts.elements = vec![top.clone(), deep.clone()];
                        parts.updates = vec![top_waiting.clone(), deep_waiting.clone()];
                        sound += u32::from(check_image(&parts));
                    }
                }
            }
        }
    }
    assert!(sound > 1_000, "{sound}");
}
