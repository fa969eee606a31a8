//! Tidy and Delete-Min once more, sentence by sentence, on lists.

use independent::generate::Parts;
use independent::numbers::*;
use std::collections::BTreeMap;

fn ascending_by_id(mut pairs: Vec<u64>) -> Vec<u64> {
    pairs.sort_by_key(|&pair| id_of(pair));
    pairs
}

/// "Take the live pairs ascending; level 0 gets the first, level 1 the next
/// two, level i the next 2^i."
pub fn tidy(parts: &mut Parts) {
    let mut live = BTreeMap::new();
    for level in (0..parts.bounds.len()).rev() {
        for &pair in &parts.elements[level] {
            live.insert(id_of(pair), pair);
        }
        for &word in &parts.updates[level] {
            let pair = pair_of(word);
            match (kind_of(word), live.get(&id_of(pair)).copied()) {
                (DELETE, _) => live.remove(&id_of(pair)),
                (DECREASE, Some(held)) if held <= pair => None,
                _ => live.insert(id_of(pair), pair),
            };
        }
    }
    let mut pairs: Vec<u64> = live.into_values().collect();
    pairs.sort();
    *parts = Parts::fresh(parts.n);
    fill(parts, pairs, parts.bounds.len() - 1, OPEN);
}

/// The pairs, ascending, fill level 0, 1 and on. "A filled level's bound is
/// its largest, but the last filled one, and all after it up to k (all of 0
/// to k if none was filled), get level k's bound."
fn fill(parts: &mut Parts, mut pairs: Vec<u64>, k: usize, bound_of_k: u64) {
    for level in 0..=k {
        let rest = pairs.split_off(pairs.len().min(1 << level));
        let filled_and_not_last = !rest.is_empty();
        parts.bounds[level] = if filled_and_not_last {
            pairs[pairs.len() - 1]
        } else {
            bound_of_k
        };
        parts.elements[level] = ascending_by_id(pairs);
        pairs = rest;
    }
    assert!(pairs.is_empty());
}

/// The stopping level, or `None` for an empty queue.
pub fn delete_min(parts: &mut Parts) -> Option<usize> {
    let levels = parts.bounds.len();
    let mut stop = None;
    for level in 0..levels {
        for word in std::mem::take(&mut parts.updates[level]) {
            if let Some(passed) = take(parts, level, word) {
                // "Past the last level a passed Delete is dropped."
                match parts.updates.get_mut(level + 1) {
                    Some(updates) => updates.push(passed),
                    None => assert_eq!(kind_of(passed), DELETE),
                }
            }
        }
        if !parts.elements[level].is_empty() {
            stop = Some(level);
            break;
        }
    }
    match stop {
        Some(k) => stop_at(parts, k),
        None => *parts = Parts::fresh(parts.n),
    }
    stop
}

/// One update at one level; what it passes on.
fn take(parts: &mut Parts, level: usize, word: u64) -> Option<u64> {
    let (kind, pair, bound) = (kind_of(word), pair_of(word), parts.bounds[level]);
    let elements = &mut parts.elements[level];
    let here = elements.iter().position(|&held| id_of(held) == id_of(pair));
    match (kind, here) {
        (DELETE, Some(at)) => {
            elements.remove(at);
            Some(word)
        }
        (DELETE, None) => Some(word),
        (DECREASE, Some(at)) => {
            elements[at] = elements[at].min(pair);
            None
        }
        (DECREASE, None) if pair <= bound => {
            elements.push(pair);
            Some(update(DELETE, id_of(pair)))
        }
        (SINK, None) if pair <= bound => {
            elements.push(pair);
            None
        }
        (SINK, Some(_)) => panic!("a Sink meets a stored pair of its id"),
        _ => Some(word),
    }
}

fn stop_at(parts: &mut Parts, k: usize) {
    let mut pairs = std::mem::take(&mut parts.elements[k]);
    pairs.sort();
    if pairs.len() > 1 << k {
        let rest = ascending_by_id(pairs.split_off(1 << k));
        parts.updates[k + 1].extend(rest.iter().map(|&pair| update(SINK, pair)));
        parts.bounds[k] = pairs[pairs.len() - 1];
    }
    pairs.remove(0);
    let bound_of_k = parts.bounds[k];
    fill(parts, pairs, k, bound_of_k);
    assert!(parts.elements[k].is_empty());
}
