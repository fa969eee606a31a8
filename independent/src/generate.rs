//! Random sizes, calls, sound images and damaged words, all from a seed.

use crate::image;
use crate::numbers::*;
use crate::sound::Clause;

/// Splitmix64: small, and the same numbers on every computer.
#[derive(Clone, Debug)]
pub struct Random {
    state: u64,
}

impl Random {
    pub fn new(seed: u64) -> Random {
        Random { state: seed }
    }

    /// A generator of its own for each case, so that a case can run alone.
    pub fn for_case(seed: u64, case: u64) -> Random {
        let mut mixed = Random::new(case ^ 0x5851_f42d_4c95_7f2d);
        Random::new(seed ^ mixed.word())
    }

    pub fn word(&mut self) -> u64 {
        self.state = self.state.wrapping_add(0x9e37_79b9_7f4a_7c15);
        let mut mixed = self.state;
        mixed = (mixed ^ (mixed >> 30)).wrapping_mul(0xbf58_476d_1ce4_e5b9);
        mixed = (mixed ^ (mixed >> 27)).wrapping_mul(0x94d0_49bb_1331_11eb);
        mixed ^ (mixed >> 31)
    }

    /// 0 to limit-1; limit is at least 1.
    pub fn below(&mut self, limit: u64) -> u64 {
        self.word() % limit
    }

    pub fn index(&mut self, length: usize) -> usize {
        self.below(length as u64) as usize
    }

    /// Both ends included.
    pub fn between(&mut self, least: u64, most: u64) -> u64 {
        let span = most - least;
        least
            + if span == u64::MAX {
                self.word()
            } else {
                self.below(span + 1)
            }
    }

    pub fn one_in(&mut self, times: u64) -> bool {
        self.below(times) == 0
    }

    pub fn pick<T: Copy>(&mut self, from: &[T]) -> T {
        from[self.index(from.len())]
    }
}

/// n: mostly small, where the corners are, sometimes 1,000, rarely the most.
pub fn size(random: &mut Random) -> u64 {
    match random.below(1000) {
        0 => random.pick(&[65_535, 65_536, 65_536, 32_768, 40_000]),
        1..=10 => random.pick(&[1_000, 1_023, 1_024, 1_025]),
        11..=60 => random.between(41, 300),
        61..=500 => random.between(1, 8),
        _ => random.between(1, 40),
    }
}

/// Words that stand at an edge of some rule.
pub fn extreme(random: &mut Random) -> u64 {
    let edge = random.pick(&[
        0,
        1,
        14,
        MOST_IDS,
        KEY_LIMIT,
        OPEN,
        2 * OPEN,
        3 * OPEN,
        4 * OPEN,
        1 << 63,
        1 << 32,
        u64::MAX,
    ]);
    match random.below(4) {
        0 => edge.wrapping_add(1),
        1 => edge.wrapping_sub(1),
        2 => edge.wrapping_add(random.below(100_000)),
        _ => edge,
    }
}

// ---------------------------------------------------------------------------
// Calls

#[derive(Clone, Copy, PartialEq, Eq, Debug)]
pub enum Call {
    Fresh(u64),
    Decrease(u64, u64),
    Delete(u64),
    DeleteMin,
    Judge,
}

/// What a session tends to do.
#[derive(Clone, Copy, Debug)]
pub struct Habits {
    /// Keys are below this: few keys bring equal costs.
    pub keys: u64,
    /// Of ten calls, so many are Delete-Mins and so many Deletes.
    pub mins: u64,
    pub deletes: u64,
    /// One call in so many is out of range.
    pub wrong: u64,
}

pub fn habits(random: &mut Random) -> Habits {
    Habits {
        keys: random.pick(&[1, 3, 12, 1_000, KEY_LIMIT]),
        mins: random.pick(&[0, 1, 3, 5]),
        deletes: random.pick(&[1, 2, 4]),
        wrong: random.pick(&[8, 40, 1_000_000]),
    }
}

pub fn call(random: &mut Random, n: u64, habits: &Habits) -> Call {
    let wrong = random.one_in(habits.wrong);
    let id = match (wrong, random.below(3)) {
        (true, 0) => n,
        (true, 1) => n.saturating_add(extreme(random)),
        _ => random.below(n),
    };
    let key = match (wrong, random.below(3)) {
        (true, 0) => KEY_LIMIT,
        (true, 1) => KEY_LIMIT.saturating_add(extreme(random)),
        (true, _) => KEY_LIMIT - 1,
        _ => random.below(habits.keys),
    };
    let tenth = random.below(10);
    if tenth < habits.mins {
        Call::DeleteMin
    } else if tenth < habits.mins + habits.deletes {
        Call::Delete(id)
    } else {
        Call::Decrease(id, key)
    }
}

// ---------------------------------------------------------------------------
// Sound images

/// The contents of an image, level by level.
#[derive(Clone, Debug)]
pub struct Parts {
    pub n: u64,
    pub bounds: Vec<u64>,
    pub elements: Vec<Vec<u64>>,
    pub updates: Vec<Vec<u64>>,
}

impl Parts {
    pub fn fresh(n: u64) -> Parts {
        let levels = levels(n);
        Parts {
            n,
            bounds: vec![OPEN; levels],
            elements: vec![Vec::new(); levels],
            updates: vec![Vec::new(); levels],
        }
    }

    /// The contents of a sound image.
    pub fn of(words: &[u64]) -> Parts {
        let layout = Layout::of(words[0]);
        let mut parts = Parts::fresh(words[0]);
        for level in 0..layout.levels {
            parts.bounds[level] = words[bound_at(level)];
            let start = layout.level_start(level);
            let count = words[element_count_at(level)] as usize;
            parts.elements[level] = words[start..start + count].to_vec();
            let start = layout.updates_start(words, level);
            let count = words[update_count_at(level)] as usize;
            parts.updates[level] = words[start..start + count].to_vec();
        }
        parts
    }

    pub fn into_words(mut self) -> Vec<u64> {
        let layout = Layout::of(self.n);
        let mut words = vec![0; layout.need];
        image::inner_fresh(&mut words, self.n);
        let mut top = layout.stack;
        for level in (0..layout.levels).rev() {
            let elements = &mut self.elements[level];
            elements.sort_unstable_by_key(|&pair| id_of(pair));
            let start = layout.level_start(level);
            words[start..start + elements.len()].copy_from_slice(elements);
            let updates = &self.updates[level];
            words[top..top + updates.len()].copy_from_slice(updates);
            top += updates.len();
            words[2] += updates
                .iter()
                .filter(|&&word| kind_of(word) != SINK)
                .count() as u64;
            words[bound_at(level)] = self.bounds[level];
            words[element_count_at(level)] = elements.len() as u64;
            words[update_count_at(level)] = updates.len() as u64;
        }
        words
    }
}

/// A sound image, not only one that calls reach from a fresh image.
pub fn sound_image(random: &mut Random, n: u64) -> Vec<u64> {
    match random.below(10) {
        0 => Parts::fresh(n).into_words(),
        1 if n > 1 => full_stack(random, n).into_words(),
        2 | 3 => reached(random, n),
        _ => built(random, n).into_words(),
    }
}

/// What a session makes of a fresh image.
fn reached(random: &mut Random, n: u64) -> Vec<u64> {
    let mut words = Parts::fresh(n).into_words();
    let habits = Habits {
        wrong: u64::MAX,
        ..habits(random)
    };
    for _ in 0..random.below(3 * n.min(2_000) + 2) {
        match call(random, n, &habits) {
            Call::Decrease(id, key) => image::inner_decrease(&mut words, id % n, key % KEY_LIMIT),
            Call::Delete(id) => image::inner_delete(&mut words, id % n),
            _ => image::inner_delete_min(&mut words),
        };
    }
    words
}

/// Bounds that never fall, the last one open.
fn bounds(random: &mut Random, n: u64, keys: u64) -> Vec<u64> {
    let levels = levels(n);
    let style = random.below(4);
    let mut bounds: Vec<u64> = (0..levels)
        .map(|i| bound(random, n, keys, style, i))
        .collect();
    bounds.sort_unstable();
    bounds[levels - 1] = OPEN;
    bounds
}

fn bound(random: &mut Random, n: u64, keys: u64, style: u64, level: usize) -> u64 {
    let deeper = levels(n) - 1 - level;
    match style {
        // Shares of the keys that fit the levels' room.
        0 => pair(keys >> deeper, random.below(n)),
        // A pair of an id in range.
        1 => pair(random.below(keys), random.below(n)),
        // Any number, also one that is no pair of an id below n.
        2 => random.below(pair(keys, 0) + 70_000).min(OPEN),
        // Equal ones, low ones, open ones.
        _ => random.pick(&[0, 1, pair(keys / 2, 0), pair(keys / 2, 0), OPEN]),
    }
}

/// A pair of this id above `low` (if given) and at most `high`.
fn pair_within(
    random: &mut Random,
    id: u64,
    low: Option<u64>,
    high: u64,
    keys: u64,
) -> Option<u64> {
    let least = match low {
        Some(low) if low >= id => (low - id) / MOST_IDS + 1,
        _ => 0,
    };
    let most = (high.checked_sub(id)? / MOST_IDS).min(KEY_LIMIT - 1);
    if least > most {
        return None;
    }
    let usual = keys.clamp(least, most);
    let key = match random.below(8) {
        0 => least,
        1 => most,
        2 => random.between(least, most),
        _ => random.between(least, usual),
    };
    Some(pair(key, id))
}

/// An image made entry by entry, oldest to newest.
struct Builder<'a> {
    random: &'a mut Random,
    parts: Parts,
    keys: u64,
    /// The newest entry of the id lets no stored pair follow.
    closed: Vec<bool>,
    /// Ids lately deleted: a stored pair of them may follow.
    deleted: Vec<u64>,
    /// Decreases and Deletes still to be placed.
    left: u64,
}

fn built(random: &mut Random, n: u64) -> Parts {
    let keys = random.pick(&[1, 4, 20, 5_000, KEY_LIMIT]);
    let waiting = match random.below(5) {
        0 => 0,
        1 | 2 => n,
        3 => n - 1,
        _ => random.below(n + 1),
    };
    let parts = Parts {
        bounds: bounds(random, n, keys),
        ..Parts::fresh(n)
    };
    let closed = vec![false; n as usize];
    let mut builder = Builder {
        random,
        parts,
        keys,
        closed,
        deleted: Vec::new(),
        left: waiting,
    };
    let levels = levels(n);
    for level in (0..levels).rev() {
        builder.place_elements(level);
        builder.place_updates(level, levels);
    }
    builder.parts
}

impl Builder<'_> {
    /// Pairs of this level are above the bound of the level above.
    fn low(&self, level: usize) -> Option<u64> {
        level.checked_sub(1).map(|above| self.parts.bounds[above])
    }

    fn any_id(&mut self) -> u64 {
        if !self.deleted.is_empty() && self.random.one_in(2) {
            let at = self.random.index(self.deleted.len());
            return self.deleted[at];
        }
        self.random.below(self.parts.n)
    }

    fn place_elements(&mut self, level: usize) {
        let room = 1u64 << level;
        let wanted = match self.random.below(4) {
            0 => 0,
            1 => self.random.below(room + 1),
            _ => room,
        };
        for _ in 0..2 * wanted {
            if self.parts.elements[level].len() as u64 == wanted {
                return;
            }
            let id = self.any_id();
            if self.closed[id as usize] {
                continue;
            }
            let high = self.parts.bounds[level].min(OPEN - 1);
            let low = self.low(level);
            if let Some(pair) = pair_within(self.random, id, low, high, self.keys) {
                self.closed[id as usize] = true;
                self.parts.elements[level].push(pair);
            }
        }
    }

    fn place_updates(&mut self, level: usize, levels: usize) {
        let tries = match self.random.below(4) {
            0 => 0,
            1 => self.left,
            _ => 2 * self.left / levels as u64 + self.random.below(4),
        };
        for _ in 0..tries {
            self.place_update(level);
        }
        // Level 0 takes the rest: there a Delete can always wait.
        while level == 0 && self.left > 0 {
            self.place_update(0);
        }
    }

    fn place_update(&mut self, level: usize) {
        let (id, low) = (self.any_id(), self.low(level));
        let kind = self.random.pick(&[DECREASE, DELETE, DELETE, SINK, SINK]);
        let above = pair_within(self.random, id, low, OPEN - 1, self.keys);
        let word = match (kind, above) {
            (DELETE, _) if self.left > 0 => update(DELETE, id),
            (DECREASE, Some(pair)) if self.left > 0 => update(DECREASE, pair),
            (SINK, Some(pair)) if level > 0 && !self.closed[id as usize] => update(SINK, pair),
            _ => return,
        };
        self.left -= u64::from(kind != SINK);
        self.closed[id as usize] = kind != DELETE;
        if kind == DELETE {
            self.deleted.push(id);
        }
        self.parts.updates[level].push(word);
    }
}

/// All 3n words of the stack in use: n Deletes, each between two Sinks of its
/// id. Needs a level that may hold Sinks, so n is at least 2.
fn full_stack(random: &mut Random, n: u64) -> Parts {
    let mut parts = Parts::fresh(n);
    let last = parts.bounds.len() - 1;
    for level in 0..last {
        let above = level.checked_sub(1).map_or(0, |above| parts.bounds[above]);
        parts.bounds[level] = above + random.below(200_000);
    }
    let mut deletes = vec![0u64; n as usize];
    for _ in 0..n {
        deletes[random.index(n as usize)] += 1;
    }
    // An id with d Deletes stands 2d+1 times: Sink, Delete, Sink and on.
    let mut turns = Vec::new();
    for (id, &count) in (0..n).zip(&deletes) {
        turns.extend(std::iter::repeat_n(id, 2 * count as usize + 1));
    }
    for at in (1..turns.len()).rev() {
        turns.swap(at, random.index(at + 1));
    }
    let mut sink_next = vec![true; n as usize];
    let length = turns.len();
    for (at, id) in turns.into_iter().enumerate() {
        // Deepest level first, level 1 last.
        let level = last - at * last / length;
        let low = Some(parts.bounds[level - 1]);
        let sinks = std::mem::replace(&mut sink_next[id as usize], false);
        let word = if sinks {
            let pair = pair_within(random, id, low, OPEN - 1, 10);
            update(SINK, pair.expect("bounds are low"))
        } else {
            sink_next[id as usize] = true;
            update(DELETE, id)
        };
        parts.updates[level].push(word);
    }
    parts
}

// ---------------------------------------------------------------------------
// Damaged words

/// Damages a sound image somehow; most often it is no longer sound.
pub fn damage(random: &mut Random, words: &mut Vec<u64>) {
    match random.below(10) {
        0 => any_word(random, words),
        1 => {
            for _ in 0..random.between(2, 4) {
                any_word(random, words);
            }
        }
        2 if random.one_in(2) => header_word(random, words),
        2 => meet_bound(random, words),
        3 if random.one_in(4) => words.truncate(random.index(words.len())),
        3 => words[0] = random.pick(&[0, words[0] + 1, words[0] - 1, MOST_IDS + 1, u64::MAX]),
        _ => {
            let clause = random.pick(&Clause::ALL);
            break_clause(random, words, clause);
        }
    }
}

fn any_word(random: &mut Random, words: &mut [u64]) {
    let at = random.index(words.len());
    let new = match random.below(5) {
        0 => extreme(random),
        1 => words[at] ^ 1 << random.below(64),
        2 => words[at].wrapping_add(1),
        3 => words[at].wrapping_sub(1),
        _ => words[random.index(words.len())],
    };
    words[at] = new;
}

fn header_word(random: &mut Random, words: &mut [u64]) {
    let header = 6 + 3 * levels(words[0]);
    any_word(random, &mut words[..header]);
}

/// Brings a bound and a pair together, where "at most" and "above" part ways.
fn meet_bound(random: &mut Random, words: &mut [u64]) {
    let layout = Layout::of(words[0]);
    let level = random.index(layout.levels);
    let bound = bound_at(level);
    let next = (level + 1).min(layout.levels - 1);
    let below =
        layout.level_start(next)..layout.level_start(next) + words[element_count_at(next)] as usize;
    let first = layout.updates_start(words, next);
    let waiting = first..first + words[update_count_at(next)] as usize;
    match random.below(4) {
        0 if !below.is_empty() => words[bound] = words[below].iter().copied().min().unwrap_or(0),
        1 if !waiting.is_empty() => {
            let pairs = words[waiting]
                .iter()
                .filter(|&&word| kind_of(word) != DELETE);
            words[bound] = pairs.map(|&word| pair_of(word)).min().unwrap_or(0);
        }
        2 => {
            let here = words[bound].min(OPEN - 1);
            on_update(random, words, &layout, |_, word| {
                update(kind_of(word), here)
            });
        }
        _ => {
            let here = words[bound].min(OPEN - 1) + random.below(2);
            on_element(random, words, &layout, |_, _| here);
        }
    }
}

/// Aims at one clause of a sound image; what chance offers is not always
/// enough to hit it, or not it alone.
pub fn break_clause(random: &mut Random, words: &mut [u64], clause: Clause) {
    let layout = Layout::of(words[0]);
    let level = random.index(layout.levels);
    match clause {
        Clause::LevelNumber => nudge(random, &mut words[1]),
        Clause::Offsets => {
            let at = random.pick(&[3, 4, 5]);
            nudge(random, &mut words[at]);
        }
        Clause::ElementRoom => overfill_level(random, words, level),
        Clause::StackRoom => overfill_stack(random, words, &layout),
        Clause::UnusedElements => {
            let unused = words[element_count_at(level)] as usize..1 << level;
            mark_one(random, words, shifted(unused, layout.level_start(level)));
        }
        Clause::UnusedStack => {
            let top = stack_top(words, &layout);
            mark_one(random, words, top..layout.work);
        }
        Clause::WorkArea => mark_one(random, words, layout.work..layout.need),
        Clause::ElementsArePairs => on_element(random, words, &layout, |random, _| {
            random.pick(&[OPEN, OPEN, OPEN + 1])
        }),
        Clause::UpdateKinds => on_update(random, words, &layout, |random, word| {
            update(random.pick(&[0, 4, 7, 255]), pair_of(word))
        }),
        Clause::DeleteKeys => on_update(random, words, &layout, |random, word| {
            let key = random.pick(&[1, KEY_LIMIT - 1]);
            update(DELETE, pair(key, id_of(pair_of(word))))
        }),
        Clause::BoundsNeverFall => words[bound_at(level)] = lone_bound(random, words, level),
        Clause::LastBoundOpen => {
            let last = bound_at(layout.levels - 1);
            words[last] = random.pick(&[OPEN - 1, OPEN + 1, u64::MAX, OPEN - MOST_IDS, 0]);
        }
        Clause::ElementIds => on_element(random, words, &layout, |random, word| {
            other_id(random, layout.n as u64, word)
        }),
        Clause::ElementsAscend => swap_elements(random, words, &layout, level),
        Clause::UpdateIds => on_update(random, words, &layout, |random, word| {
            other_id(random, layout.n as u64, word)
        }),
        Clause::ElementsWithinBound | Clause::ElementsAboveBefore => {
            on_element(random, words, &layout, move_key)
        }
        Clause::UpdatesAboveBefore => on_update(random, words, &layout, |random, word| {
            update(kind_of(word), move_key(random, pair_of(word)))
        }),
        Clause::NoSinkAtZero => {
            let sink = update(SINK, pair(random.below(9), random.below(words[0])));
            push_word(words, &layout, sink);
        }
        Clause::WaitingCounted => nudge(random, &mut words[2]),
        Clause::WaitingAtMostN => {
            for _ in words[2]..=words[0] {
                let id = random.below(words[0]);
                push_word(words, &layout, update(DELETE, id));
                words[2] += 1;
            }
        }
        Clause::StoredAfterDelete => on_update(random, words, &layout, |_, word| {
            update(DECREASE, pair(KEY_LIMIT - 1, id_of(pair_of(word))))
        }),
    }
}

fn nudge(random: &mut Random, word: &mut u64) {
    *word = match random.below(4) {
        0 => word.wrapping_add(1),
        1 => word.wrapping_sub(1),
        2 => extreme(random),
        _ => *word ^ 1 << random.below(64),
    };
}

fn shifted(range: std::ops::Range<usize>, by: usize) -> std::ops::Range<usize> {
    range.start + by..range.end + by
}

fn stack_top(words: &[u64], layout: &Layout) -> usize {
    layout.updates_start(words, 0) + words[update_count_at(0)] as usize
}

/// Makes one word of the range nonzero; its ends more often than others.
fn mark_one(random: &mut Random, words: &mut [u64], range: std::ops::Range<usize>) {
    if range.is_empty() {
        return;
    }
    let at = match random.below(3) {
        0 => range.start,
        1 => range.end - 1,
        _ => range.start + random.index(range.len()),
    };
    words[at] = random.pick(&[1, 1 << 63, u64::MAX, update(DELETE, 0)]);
}

/// A count beyond the level's room, small or so large that sums wrap.
fn overfill_level(random: &mut Random, words: &mut [u64], level: usize) {
    let start = Layout::of(words[0]).level_start(level);
    let more = random.pick(&[
        1,
        2,
        1 << 62,
        u64::MAX - (1 << 20),
        (start as u64).wrapping_neg() - 1,
    ]);
    words[element_count_at(level)] = (1u64 << level).saturating_add(more);
}

/// Counts beyond the stack's room: by one, or so that their sum wraps.
fn overfill_stack(random: &mut Random, words: &mut [u64], layout: &Layout) {
    let stacked = (stack_top(words, layout) - layout.stack) as u64;
    let room = 3 * layout.n as u64;
    let level = random.index(layout.levels);
    match random.below(4) {
        0 => words[update_count_at(0)] += room - stacked + 1,
        1 => words[update_count_at(level)] += room - stacked + 1,
        2 => words[update_count_at(level)] = u64::MAX - random.below(room),
        _ => {
            // 2^63 twice: a sum of 64 bits does not see it.
            words[update_count_at(level)] ^= 1 << 63;
            let other = random.index(layout.levels);
            words[update_count_at(other)] ^= 1 << 63;
        }
    }
}

fn on_element(
    random: &mut Random,
    words: &mut [u64],
    layout: &Layout,
    change: impl Fn(&mut Random, u64) -> u64,
) {
    let level = random.index(layout.levels);
    let count = words[element_count_at(level)] as usize;
    if count > 0 {
        let any = random.index(count);
        let at = layout.level_start(level) + random.pick(&[0, any, count - 1]);
        words[at] = change(random, words[at]);
    }
}

fn on_update(
    random: &mut Random,
    words: &mut [u64],
    layout: &Layout,
    change: impl Fn(&mut Random, u64) -> u64,
) {
    let used = stack_top(words, layout) - layout.stack;
    if used > 0 {
        let at = layout.stack + random.index(used);
        words[at] = change(random, words[at]);
    }
}

/// An id that no pair may have, if there is one; else some other id.
fn other_id(random: &mut Random, n: u64, word: u64) -> u64 {
    let id = match random.below(3) {
        _ if n == MOST_IDS => random.below(n),
        0 => n,
        1 => MOST_IDS - 1,
        _ => random.between(n, MOST_IDS - 1),
    };
    word - id_of(word) + id
}

/// A bound beyond its neighbours.
fn lone_bound(random: &mut Random, words: &[u64], level: usize) -> u64 {
    let here = words[bound_at(level)];
    let below = words
        .get(bound_at(level + 1))
        .copied()
        .unwrap_or(here)
        .min(OPEN);
    let above = if level > 0 {
        words[bound_at(level - 1)]
    } else {
        0
    };
    random.pick(&[
        below + 1,
        below.saturating_add(MOST_IDS),
        above.saturating_sub(1),
        u64::MAX,
    ])
}

/// Two neighbours change places, or one stands twice.
fn swap_elements(random: &mut Random, words: &mut [u64], layout: &Layout, level: usize) {
    let count = words[element_count_at(level)] as usize;
    if count < 2 {
        return;
    }
    let at = layout.level_start(level) + random.index(count - 1);
    match random.below(3) {
        0 => words[at + 1] = words[at],
        _ => words.swap(at, at + 1),
    }
}

fn move_key(random: &mut Random, word: u64) -> u64 {
    let (id, key) = (id_of(word), key_of(word) % KEY_LIMIT);
    let keys = [
        0,
        key.saturating_sub(1),
        (key + 1).min(KEY_LIMIT - 1),
        KEY_LIMIT - 1,
    ];
    pair(random.pick(&keys), id)
}

/// One more update at level 0, word 2 left alone.
fn push_word(words: &mut [u64], layout: &Layout, word: u64) {
    let top = stack_top(words, layout);
    if top < layout.work {
        words[top] = word;
        words[update_count_at(0)] += 1;
    }
}
