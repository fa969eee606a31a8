//! The queue on its image, by the page's call rules.
//!
//! The outward calls test the image first; their `inner_` twins rely on a
//! sound image. A refusal writes nothing.

use crate::mistake::{self, Mistake};
use crate::numbers::*;
pub use crate::numbers::{levels, need};
use crate::sound::{verdict, Verdict};

#[derive(Clone, Copy, PartialEq, Eq, Debug)]
pub enum Answer {
    Taken,
    Refused(u64),
    Min { id: u64, key: u64, reach: u64 },
    Empty { reach: u64 },
}

// ---------------------------------------------------------------------------
// Outward calls

pub fn fresh(image: &mut [u64], n: u64) -> Answer {
    if mistake::on(Mistake::Fresh2Before1) && image.len() < LEAST_WORDS {
        return Answer::Refused(2);
    }
    if !in_range(n) {
        return Answer::Refused(1);
    }
    // The least need is 14 words, so "under 14 words" is no test of its own.
    if image.len() < need(n) {
        return Answer::Refused(2);
    }
    inner_fresh(image, n);
    Answer::Taken
}

pub fn decrease(image: &mut [u64], id: u64, key: u64) -> Answer {
    match refusal(image, id, key) {
        Some(number) => Answer::Refused(number),
        None => inner_decrease(image, id, key),
    }
}

pub fn delete(image: &mut [u64], id: u64) -> Answer {
    match refusal(image, id, 0) {
        Some(number) => Answer::Refused(number),
        None => inner_delete(image, id),
    }
}

pub fn delete_min(image: &mut [u64]) -> Answer {
    match image_refusal(image) {
        Some(number) => Answer::Refused(number),
        None => inner_delete_min(image),
    }
}

/// Refusals 2 and 3.
fn image_refusal(image: &[u64]) -> Option<u64> {
    let n_in_range = image.first().is_some_and(|&n| in_range(n));
    if mistake::on(Mistake::ShortGives3) && image.len() < LEAST_WORDS && !n_in_range {
        return Some(3);
    }
    match verdict(image) {
        Verdict::TooShort => Some(2),
        Verdict::NotSound if mistake::on(Mistake::WordZeroGives2) && !n_in_range => Some(2),
        Verdict::NotSound => Some(3),
        Verdict::Good => None,
    }
}

/// Refusals 2 to 5, in this order. A Delete brings key 0.
fn refusal(image: &mut [u64], id: u64, key: u64) -> Option<u64> {
    if let Some(number) = image_refusal(image) {
        return Some(number);
    }
    if mistake::on(Mistake::TidyOnRefusal) && image[2] == image[0] {
        tidy(image);
    }
    let bad_id = id >= image[0] + u64::from(mistake::on(Mistake::IdLimitTaken));
    let bad_key = key >= KEY_LIMIT + u64::from(mistake::on(Mistake::KeyLimitTaken));
    match (bad_id, bad_key) {
        (true, true) if mistake::on(Mistake::Refusals4And5Swapped) => Some(5),
        (true, _) => Some(4),
        (false, true) => Some(5),
        (false, false) => None,
    }
}

// ---------------------------------------------------------------------------
// Inner calls

/// No elements, no updates, all bounds open. n is in range, the room is there.
pub fn inner_fresh(image: &mut [u64], n: u64) -> Answer {
    let layout = Layout::of(n);
    if mistake::on(Mistake::FreshClearsBehind) {
        image.fill(0);
    }
    if !mistake::on(Mistake::FreshKeepsOldWords) {
        image[layout.elements..layout.need].fill(0);
    }
    write_header(image, &layout);
    Answer::Taken
}

/// The header of a fresh image.
fn write_header(image: &mut [u64], layout: &Layout) {
    let fixed = [
        layout.n,
        layout.levels,
        0,
        layout.elements,
        layout.stack,
        layout.work,
    ];
    for (word, number) in image.iter_mut().zip(fixed) {
        *word = number as u64;
    }
    for level in 0..layout.levels {
        image[bound_at(level)] = OPEN;
        image[element_count_at(level)] = 0;
        image[update_count_at(level)] = 0;
    }
}

pub fn inner_decrease(image: &mut [u64], id: u64, key: u64) -> Answer {
    if mistake::on(Mistake::IdleDecreaseDropped) {
        let held = crate::plain::live_map(image).get(&id).copied();
        if held.is_some_and(|held| held <= key) {
            return Answer::Taken;
        }
    }
    take_in(image, update(DECREASE, pair(key, id)))
}

pub fn inner_delete(image: &mut [u64], id: u64) -> Answer {
    take_in(image, update(DELETE, id))
}

fn take_in(image: &mut [u64], word: u64) -> Answer {
    if mistake::on(Mistake::TidyAfterPush) && image[2] == image[0] {
        push(image, word);
        tidy(image);
        return Answer::Taken;
    }
    if tidy_is_due(image) {
        tidy(image);
    }
    push(image, word);
    Answer::Taken
}

fn tidy_is_due(image: &[u64]) -> bool {
    if mistake::on(Mistake::SinksCounted) {
        let layout = Layout::of(image[0]);
        let all = (0..layout.levels)
            .map(|i| image[update_count_at(i)])
            .sum::<u64>();
        return all >= image[0];
    }
    if mistake::on(Mistake::TidyEarly) {
        return image[2] + 1 >= image[0];
    }
    image[2] == image[0]
}

/// One update at level 0, whose updates end the stack: three words change.
fn push(image: &mut [u64], word: u64) {
    let counts = image[bound_at(0)..bound_at(image[1] as usize)].chunks_exact(3);
    let stacked = counts.map(|row| row[2]).sum::<u64>();
    let top = (image[4] + stacked) as usize;
    image[top] = word;
    if mistake::on(Mistake::PushedInFront) {
        let first = top - image[update_count_at(0)] as usize;
        image[first..=top].rotate_right(1);
    }
    image[update_count_at(0)] += 1;
    image[2] += 1;
}

// ---------------------------------------------------------------------------
// Tidy

/// Spreads the live pairs over the levels, ascending. No updates remain.
pub fn tidy(image: &mut [u64]) {
    let layout = Layout::of(image[0]);
    let by_id = live_pairs(image, &layout);
    let mut ascending = by_id.clone();
    ascending.sort_unstable();
    if mistake::on(Mistake::TidyCostsOnly) {
        ascending.sort_by_key(|&pair| (key_of(pair), MOST_IDS - id_of(pair)));
    }
    let used = layout.updates_start(image, 0) + image[update_count_at(0)] as usize;
    image[layout.elements..used].fill(0);
    write_header(image, &layout);
    if mistake::on(Mistake::TidyCostOrder) {
        spread(image, &layout, &ascending, &ascending);
    } else {
        spread(image, &layout, &by_id, &ascending);
    }
    fill_bounds(image, &ascending, layout.levels - 1, OPEN);
    if mistake::on(Mistake::TidyLastBound) {
        bound_last_filled(image, &ascending);
    }
}

const ABSENT: u64 = u64::MAX;

/// The live map as its pairs in ascending id.
fn live_pairs(image: &[u64], layout: &Layout) -> Vec<u64> {
    let mut live = vec![ABSENT; layout.n];
    let mut top = layout.stack;
    for level in (0..layout.levels).rev() {
        let start = layout.level_start(level);
        for &pair in &image[start..start + image[element_count_at(level)] as usize] {
            live[id_of(pair) as usize] = pair;
        }
        let count = image[update_count_at(level)] as usize;
        for &word in &image[top..top + count] {
            let pair = pair_of(word);
            let held = &mut live[id_of(pair) as usize];
            match kind_of(word) {
                DELETE => *held = ABSENT,
                // ABSENT is above every pair: a Decrease then enters.
                DECREASE if !mistake::on(Mistake::TidyDecreaseSets) => *held = pair.min(*held),
                _ => *held = pair,
            }
        }
        top += count;
    }
    live.retain(|&pair| pair != ABSENT);
    live
}

/// How many of this many ascending pairs go above a level: 1 + 2 + 4 and on.
fn placed_above(level: usize) -> usize {
    (1 << level) - 1
}

/// The deepest level that this many pairs reach. At least one pair.
fn last_filled(pairs: usize) -> usize {
    pairs.ilog2() as usize
}

/// Gives level 0 the first of the ascending pairs, level 1 the next two, level
/// i the next 2^i. `by_id` holds the same pairs in ascending id, so that each
/// level comes out in ascending id without another sort. Counts must be 0.
fn spread(image: &mut [u64], layout: &Layout, by_id: &[u64], ascending: &[u64]) {
    if ascending.is_empty() {
        return;
    }
    let deepest = last_filled(ascending.len());
    for &pair in by_id {
        let mut level = deepest;
        while level > 0 && pair < ascending[placed_above(level)] {
            level -= 1;
        }
        let count = image[element_count_at(level)] as usize;
        image[layout.level_start(level) + count] = pair;
        image[element_count_at(level)] += 1;
    }
}

/// A filled level's bound is its largest, but the last filled one, and all
/// after it up to `through`, get `last` (all of them if none was filled).
fn fill_bounds(image: &mut [u64], ascending: &[u64], through: usize, last: u64) {
    for level in 0..=through {
        let next = placed_above(level + 1);
        let filled_below = next < ascending.len();
        image[bound_at(level)] = if filled_below {
            ascending[next - 1]
        } else {
            last
        };
    }
}

fn bound_last_filled(image: &mut [u64], ascending: &[u64]) {
    if let Some(&largest) = ascending.last() {
        image[bound_at(last_filled(ascending.len()))] = largest;
    }
}

// ---------------------------------------------------------------------------
// Delete-Min

pub fn inner_delete_min(image: &mut [u64]) -> Answer {
    inner_delete_min_by(image, Taking::Either)
}

/// How a level takes its updates. What comes of it is the same.
#[derive(Clone, Copy, PartialEq, Eq, Debug)]
pub enum Taking {
    /// Whichever is likely to be quicker.
    Either,
    /// Each is looked up by itself, however many there are.
    ByLookup,
    /// Grouped by id, however few there are.
    ByGroup,
}

pub fn inner_delete_min_by(image: &mut [u64], taking: Taking) -> Answer {
    let layout = Layout::of(image[0]);
    for level in 0..layout.levels {
        if hands_all_on(image, &layout, level) {
            image[update_count_at(level + 1)] += image[update_count_at(level)];
            image[update_count_at(level)] = 0;
            continue;
        }
        let here = take_updates(image, &layout, level, taking);
        if here > 0 {
            return stop_at(image, &layout, level, here);
        }
    }
    // Elements, stack and work area are zero by now: only the header is old.
    if !mistake::on(Mistake::MinEmptyKeepsBounds) {
        write_header(image, &layout);
    }
    Answer::Empty {
        reach: layout.levels as u64,
    }
}

/// An empty level whose bound is that of the level above takes nothing: all
/// its updates are above that bound or Deletes. Its stack words are already
/// behind those of the next level, so counts alone pass them on.
fn hands_all_on(image: &[u64], layout: &Layout, level: usize) -> bool {
    level > 0
        && level + 1 < layout.levels
        && image[element_count_at(level)] == 0
        && image[bound_at(level)] == image[bound_at(level - 1)]
}

/// The level takes its updates in order and passes on what it must. Its
/// elements move to the work area, ascending by id; their number is returned.
fn take_updates(image: &mut [u64], layout: &Layout, level: usize, taking: Taking) -> usize {
    let first = layout.updates_start(image, level);
    let count = image[update_count_at(level)] as usize;
    let here = move_to_work(image, layout, level);
    let bound = image[bound_at(level)];
    let (front, work) = image[..layout.need].split_at_mut(layout.work);
    let updates = &mut front[first..first + count];
    let counted_before = counted(updates);
    let by_lookup = match taking {
        Taking::Either => count <= FEW || here + count <= SMALL,
        Taking::ByLookup => true,
        Taking::ByGroup => false,
    };
    let here = if by_lookup {
        take_in_order(updates, work, here, bound)
    } else {
        take_by_id(updates, work, here, bound)
    };
    let passed = if level + 1 < layout.levels {
        close_gaps(updates)
    } else {
        0
    };
    updates[passed..].fill(0);
    // Word 2 falls by the Decreases that ended here and the Deletes dropped.
    front[2] -= counted_before - counted(&front[first..first + passed]);
    front[update_count_at(level)] = 0;
    if passed > 0 {
        front[update_count_at(level + 1)] += passed as u64;
    }
    here
}

/// How many of these updates word 2 counts.
fn counted(updates: &[u64]) -> u64 {
    let sinks = updates
        .iter()
        .filter(|&&word| kind_of(word) == SINK)
        .count();
    (updates.len() - sinks) as u64
}

fn move_to_work(image: &mut [u64], layout: &Layout, level: usize) -> usize {
    let count = image[element_count_at(level)] as usize;
    let start = layout.level_start(level);
    image.copy_within(start..start + count, layout.work);
    image[start..start + count].fill(0);
    image[element_count_at(level)] = 0;
    count
}

/// No update word is zero: it marks a place of the stack that passes nothing.
const ENDED: u64 = 0;

/// Up to this many updates are taken one by one, and more of them at a level
/// that stays small; else they are grouped by id, so that many entering pairs
/// do not each move many elements behind them.
const FEW: usize = 16;
const SMALL: usize = 4_096;

/// What one update does: the pair that is here afterwards, and the word that
/// is passed on in its place.
fn apply(word: u64, here: Option<u64>, bound: u64) -> (Option<u64>, u64) {
    let pair = pair_of(word);
    let within = if mistake::on(Mistake::MinCostsOnly) {
        key_of(pair) <= key_of(bound)
    } else {
        pair <= bound
    };
    match (kind_of(word), here) {
        (DELETE, _) => (None, word),
        (DECREASE, Some(held)) => (Some(pair.min(held)), ENDED),
        (DECREASE, None) if within => (Some(pair), delete_behind(pair)),
        (SINK, _) if within || mistake::on(Mistake::MinSinkEnters) => (Some(pair), ENDED),
        _ => (here, word),
    }
}

/// A Decrease that entered sends a Delete down: an older pair of the id may
/// be stored below.
fn delete_behind(pair: u64) -> u64 {
    if mistake::on(Mistake::MinNoDeleteDown) {
        return ENDED;
    }
    update(DELETE, id_of(pair))
}

/// Each update in turn, looked up among the `here` first words of `work`.
fn take_in_order(updates: &mut [u64], work: &mut [u64], mut here: usize, bound: u64) -> usize {
    for word in updates {
        let id = id_of(pair_of(*word));
        match work[..here].binary_search_by_key(&id, |&pair| id_of(pair)) {
            Ok(at) => {
                let (after, passed) = apply(*word, Some(work[at]), bound);
                *word = passed;
                match after {
                    Some(pair) => work[at] = pair,
                    None => {
                        work.copy_within(at + 1..here, at);
                        here -= 1;
                        work[here] = 0;
                    }
                }
            }
            Err(at) => {
                let (after, passed) = apply(*word, None, bound);
                *word = passed;
                if let Some(pair) = after {
                    work.copy_within(at..here, at + 1);
                    work[at] = pair;
                    here += 1;
                }
            }
        }
    }
    here
}

/// The same, an id at a time: updates of different ids do not see each other,
/// and each leaves its passed word in its own place, so the order stays.
fn take_by_id(updates: &mut [u64], work: &mut [u64], here: usize, bound: u64) -> usize {
    let places = updates.iter().zip(0u64..);
    let mut by_id: Vec<u64> = places
        .map(|(&word, place)| id_of(pair_of(word)) << 32 | place)
        .collect();
    by_id.sort_unstable();
    let before = work[..here].to_vec();
    let mut before = before.as_slice();
    let mut count = 0;
    let mut keep = |pair: u64| {
        work[count] = pair;
        count += 1;
    };
    for group in by_id.chunk_by(|one, other| one >> 32 == other >> 32) {
        let id = group[0] >> 32;
        while let Some((&pair, rest)) = before.split_first().filter(|(&pair, _)| id_of(pair) < id) {
            keep(pair);
            before = rest;
        }
        let mut held = None;
        if let Some((&pair, rest)) = before.split_first().filter(|(&pair, _)| id_of(pair) == id) {
            held = Some(pair);
            before = rest;
        }
        for &entry in group {
            let word = &mut updates[entry as u32 as usize];
            (held, *word) = apply(*word, held, bound);
        }
        held.into_iter().for_each(&mut keep);
    }
    before.iter().copied().for_each(&mut keep);
    let after = count;
    // The work area is zero behind the elements, as it was found.
    if after < here {
        work[after..here].fill(0);
    }
    after
}

/// Moves the words passed on together; returns their number.
fn close_gaps(updates: &mut [u64]) -> usize {
    let mut passed = 0;
    for place in 0..updates.len() {
        if updates[place] != ENDED {
            updates[passed] = updates[place];
            passed += 1;
        }
    }
    passed
}

/// Level k stops with its `here` elements in the work area, ascending by id.
fn stop_at(image: &mut [u64], layout: &Layout, k: usize, here: usize) -> Answer {
    let (front, work) = image.split_at_mut(layout.work);
    let work = &mut work[..here];
    let mut ascending = work.to_vec();
    if here > 1 << k {
        ascending.select_nth_unstable((1 << k) - 1);
        ascending.truncate(1 << k);
    }
    ascending.sort_unstable();
    let (smallest, largest) = (ascending[0], ascending[ascending.len() - 1]);
    if here > ascending.len() {
        sink(front, layout, k, work, largest);
        if !mistake::on(Mistake::MinBoundStays) {
            front[bound_at(k)] = largest;
        }
    }
    let bound = front[bound_at(k)];
    let others = &ascending[1..];
    let mut by_id = Vec::with_capacity(others.len());
    by_id.extend(
        work.iter()
            .filter(|&&pair| pair > smallest && pair <= largest),
    );
    spread(front, layout, &by_id, others);
    fill_bounds(front, others, k, bound);
    if mistake::on(Mistake::MinLastBound) {
        bound_last_filled(front, others);
    }
    work.fill(0);
    let reach = k as u64 + u64::from(!mistake::on(Mistake::MinReach));
    Answer::Min {
        id: id_of(smallest),
        key: key_of(smallest),
        reach,
    }
}

/// What is above `largest` becomes Sinks at the end of level k+1's updates,
/// behind what level k passed on, in ascending id.
fn sink(front: &mut [u64], layout: &Layout, k: usize, work: &[u64], largest: u64) {
    let first = layout.updates_start(front, k + 1);
    let waiting = front[update_count_at(k + 1)] as usize;
    let mut top = first + waiting;
    for &pair in work.iter().filter(|&&pair| pair > largest) {
        front[top] = update(SINK, pair);
        top += 1;
    }
    let sinks = top - first - waiting;
    if mistake::on(Mistake::MinSinksFirst) {
        front[first..top].rotate_right(sinks);
    }
    if mistake::on(Mistake::MinSinksFalling) {
        front[top - sinks..top].reverse();
    }
    if mistake::on(Mistake::MinSinksInWord2) {
        front[2] += sinks as u64;
    }
    front[update_count_at(k + 1)] += sinks as u64;
}
