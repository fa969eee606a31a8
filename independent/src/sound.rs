//! Soundness of any words: once fast, once sentence by sentence.

use crate::mistake::{self, Mistake};
use crate::numbers::*;
use std::collections::BTreeMap;

#[derive(Clone, Copy, PartialEq, Eq, Debug)]
pub enum Verdict {
    /// Refusal 2.
    TooShort,
    /// Refusal 3.
    NotSound,
    Good,
}

impl Verdict {
    /// 0 for a sound image, else the refusal number.
    pub fn number(self) -> u64 {
        match self {
            Verdict::Good => 0,
            Verdict::TooShort => 2,
            Verdict::NotSound => 3,
        }
    }
}

/// The fast test: one reading of the image, oldest to newest.
pub fn verdict(words: &[u64]) -> Verdict {
    if mistake::in_soundness() {
        return match sound_by_clauses(words) {
            Ok(()) => Verdict::Good,
            Err(Failure::TooShort) => Verdict::TooShort,
            Err(_) => Verdict::NotSound,
        };
    }
    if words.len() < LEAST_WORDS {
        return Verdict::TooShort;
    }
    if !in_range(words[0]) {
        return Verdict::NotSound;
    }
    let layout = Layout::of(words[0]);
    if words.len() < layout.need {
        return Verdict::TooShort;
    }
    let words = &words[..layout.need];
    // The table has a byte per id; a small n must not pay for a large table.
    let sound = match layout.n {
        0..=64 => header_good(words, &layout) && parts_good(words, &layout, &mut [0; 64]),
        65..=1024 => header_good(words, &layout) && parts_good(words, &layout, &mut [0; 1024]),
        n => header_good(words, &layout) && parts_good(words, &layout, &mut vec![0; n]),
    };
    if sound {
        Verdict::Good
    } else {
        Verdict::NotSound
    }
}

fn header_good(words: &[u64], layout: &Layout) -> bool {
    let offsets = [layout.elements, layout.stack, layout.work].map(|offset| offset as u64);
    if words[1] != layout.levels as u64 || words[3..6] != offsets || words[2] > layout.n as u64 {
        return false;
    }
    let room = 3 * layout.n as u64;
    let (mut above, mut stacked) = (0, 0);
    for level in 0..layout.levels {
        let bound = words[bound_at(level)];
        let updates = words[update_count_at(level)];
        // Each count is held against its room alone, so the sum cannot wrap.
        if bound < above || words[element_count_at(level)] > 1 << level || updates > room {
            return false;
        }
        above = bound;
        stacked += updates;
    }
    above == OPEN && stacked <= room
}

/// Elements, updates, unused words and work area. The header is good.
fn parts_good(words: &[u64], layout: &Layout, table: &mut [u8]) -> bool {
    let table = &mut table[..layout.n];
    let (mut top, mut waiting) = (layout.stack, 0);
    for level in (0..layout.levels).rev() {
        let bound = words[bound_at(level)];
        let least = if level == 0 {
            0
        } else {
            words[bound_at(level - 1)] + 1
        };
        let start = layout.level_start(level);
        let count = words[element_count_at(level)] as usize;
        let (held, unused) = words[start..start + (1 << level)].split_at(count);
        let updates = &words[top..top + words[update_count_at(level)] as usize];
        top += updates.len();
        if !elements_good(held, least, bound.min(OPEN - 1), table) || !all_zero(unused) {
            return false;
        }
        match updates_good(updates, least, level, table) {
            Some(counted) => waiting += counted,
            None => return false,
        }
    }
    // Behind the stack's last word come its unused words, then the work area.
    waiting == words[2] && all_zero(&words[top..])
}

/// A byte of the table: the newest entry of the id is one that no stored pair
/// may follow. A Delete takes the mark away.
const CLOSED: u8 = 1;
const CLEAR: u8 = 0;

fn elements_good(held: &[u64], least: u64, most: u64, table: &mut [u8]) -> bool {
    if least > most {
        return held.is_empty();
    }
    let span = most - least;
    let mut next = 0;
    for &pair in held {
        let id = id_of(pair) as usize;
        let Some(mark) = table.get_mut(id) else {
            return false;
        };
        if (pair.wrapping_sub(least) > span) | (id < next) | (*mark != CLEAR) {
            return false;
        }
        *mark = CLOSED;
        next = id + 1;
    }
    true
}

/// The number of Decreases and Deletes among the updates, if all are good.
/// Kinds come in any order, so they choose a row here instead of a branch.
fn updates_good(updates: &[u64], least: u64, level: usize, table: &mut [u8]) -> Option<u64> {
    // By kind: the least good word, and how far the good words go from there.
    // Kinds above 3 meet a row too; they are beyond its end.
    let up_to_open = OPEN - 1 - least.min(OPEN - 1);
    let sink = if level > 0 {
        (update(SINK, least), up_to_open)
    } else {
        (0, 0)
    };
    let rows = [
        (u64::MAX, 0),
        (update(DECREASE, least), up_to_open),
        (update(DELETE, 0), MOST_IDS - 1),
        sink,
    ];
    let mut sinks = 0;
    for &word in updates {
        let (first, span) = rows[kind_of(word) as usize % 4];
        let mark = table.get_mut(id_of(word) as usize)?;
        // Kind 1 and 3, Decrease and Sink, are odd; 2 and 3 have the next bit.
        let closes = kind_of(word) as u8 & 1;
        let stores = closes & (kind_of(word) >> 1) as u8;
        if (word.wrapping_sub(first) > span) | (stores & *mark != CLEAR) {
            return None;
        }
        *mark = closes;
        sinks += u64::from(stores);
    }
    Some(updates.len() as u64 - sinks)
}

fn all_zero(words: &[u64]) -> bool {
    let (blocks, rest) = words.as_chunks::<64>();
    let zero = |words: &[u64]| words.iter().fold(0, |all, word| all | word) == 0;
    blocks.iter().all(|block| zero(block)) && zero(rest)
}

// ---------------------------------------------------------------------------
// The slow test: the page's sentences, a function each.

/// The clauses of soundness; the first ten are what "this layout holds" means.
#[derive(Clone, Copy, PartialEq, Eq, Debug, PartialOrd, Ord)]
pub enum Clause {
    LevelNumber,
    Offsets,
    ElementRoom,
    StackRoom,
    UnusedElements,
    UnusedStack,
    WorkArea,
    ElementsArePairs,
    UpdateKinds,
    DeleteKeys,
    BoundsNeverFall,
    LastBoundOpen,
    ElementIds,
    ElementsAscend,
    UpdateIds,
    ElementsWithinBound,
    ElementsAboveBefore,
    UpdatesAboveBefore,
    NoSinkAtZero,
    WaitingCounted,
    WaitingAtMostN,
    StoredAfterDelete,
}

impl Clause {
    pub const ALL: [Clause; 22] = [
        Clause::LevelNumber,
        Clause::Offsets,
        Clause::ElementRoom,
        Clause::StackRoom,
        Clause::UnusedElements,
        Clause::UnusedStack,
        Clause::WorkArea,
        Clause::ElementsArePairs,
        Clause::UpdateKinds,
        Clause::DeleteKeys,
        Clause::BoundsNeverFall,
        Clause::LastBoundOpen,
        Clause::ElementIds,
        Clause::ElementsAscend,
        Clause::UpdateIds,
        Clause::ElementsWithinBound,
        Clause::ElementsAboveBefore,
        Clause::UpdatesAboveBefore,
        Clause::NoSinkAtZero,
        Clause::WaitingCounted,
        Clause::WaitingAtMostN,
        Clause::StoredAfterDelete,
    ];

    pub fn name(self) -> &'static str {
        match self {
            Clause::LevelNumber => "level-number",
            Clause::Offsets => "offsets",
            Clause::ElementRoom => "element-room",
            Clause::StackRoom => "stack-room",
            Clause::UnusedElements => "unused-elements",
            Clause::UnusedStack => "unused-stack",
            Clause::WorkArea => "work-area",
            Clause::ElementsArePairs => "elements-are-pairs",
            Clause::UpdateKinds => "update-kinds",
            Clause::DeleteKeys => "delete-keys",
            Clause::BoundsNeverFall => "bounds-never-fall",
            Clause::LastBoundOpen => "last-bound-open",
            Clause::ElementIds => "element-ids",
            Clause::ElementsAscend => "elements-ascend",
            Clause::UpdateIds => "update-ids",
            Clause::ElementsWithinBound => "elements-within-bound",
            Clause::ElementsAboveBefore => "elements-above-before",
            Clause::UpdatesAboveBefore => "updates-above-before",
            Clause::NoSinkAtZero => "no-sink-at-zero",
            Clause::WaitingCounted => "waiting-counted",
            Clause::WaitingAtMostN => "waiting-at-most-n",
            Clause::StoredAfterDelete => "stored-after-delete",
        }
    }

    /// Whether this clause alone holds. The slice has the need of its n.
    pub fn holds(self, image: &View) -> bool {
        match self {
            Clause::LevelNumber => image.words[1] == image.layout.levels as u64,
            Clause::Offsets => offsets(image),
            Clause::ElementRoom => element_room(image),
            Clause::StackRoom => stack_room(image),
            Clause::UnusedElements => unused_elements(image),
            Clause::UnusedStack => unused_stack(image),
            Clause::WorkArea => work_area(image),
            Clause::ElementsArePairs => elements_are_pairs(image),
            Clause::UpdateKinds => update_kinds(image),
            Clause::DeleteKeys => delete_keys(image),
            Clause::BoundsNeverFall => bounds_never_fall(image),
            Clause::LastBoundOpen => image.bound(image.layout.levels - 1) == OPEN,
            Clause::ElementIds => element_ids(image),
            Clause::ElementsAscend => elements_ascend(image),
            Clause::UpdateIds => update_ids(image),
            Clause::ElementsWithinBound => elements_within_bound(image),
            Clause::ElementsAboveBefore => elements_above_before(image),
            Clause::UpdatesAboveBefore => updates_above_before(image),
            Clause::NoSinkAtZero => no_sink_at_zero(image),
            Clause::WaitingCounted => image.words[2] == waiting(image),
            Clause::WaitingAtMostN => waiting(image) <= image.layout.n as u64,
            Clause::StoredAfterDelete => stored_after_delete(image),
        }
    }
}

#[derive(Clone, Copy, PartialEq, Eq, Debug)]
pub enum Failure {
    TooShort,
    /// Word 0 is out of range: nothing else can be said of the words.
    Size,
    Broken(Clause),
}

/// The first clause that fails, in the order of `Clause::ALL`.
pub fn sound_by_clauses(words: &[u64]) -> Result<(), Failure> {
    let image = View::of(words)?;
    let tested = Clause::ALL
        .iter()
        .filter(|&&clause| mistake::skipped() != Some(clause));
    match tested.copied().find(|clause| !clause.holds(&image)) {
        Some(clause) => Err(Failure::Broken(clause)),
        None => Ok(()),
    }
}

/// Every clause that fails.
pub fn broken_clauses(words: &[u64]) -> Result<Vec<Clause>, Failure> {
    let image = View::of(words)?;
    Ok(Clause::ALL
        .into_iter()
        .filter(|clause| !clause.holds(&image))
        .collect())
}

/// Words of the right length, read without trust in any count: a count beyond
/// its room is read as the room, so that every clause can be asked alone.
pub struct View<'a> {
    words: &'a [u64],
    layout: Layout,
}

impl<'a> View<'a> {
    pub fn of(words: &'a [u64]) -> Result<View<'a>, Failure> {
        if words.len() < LEAST_WORDS {
            return Err(Failure::TooShort);
        }
        if !in_range(words[0]) {
            return Err(Failure::Size);
        }
        if words.len() < need(words[0]) {
            return Err(Failure::TooShort);
        }
        Ok(View {
            words,
            layout: Layout::of(words[0]),
        })
    }

    fn levels(&self) -> std::ops::Range<usize> {
        0..self.layout.levels
    }

    fn bound(&self, level: usize) -> u64 {
        self.words[bound_at(level)]
    }

    fn level_words(&self, level: usize) -> &'a [u64] {
        let start = self.layout.level_start(level);
        &self.words[start..start + (1 << level)]
    }

    fn stack_words(&self) -> &'a [u64] {
        &self.words[self.layout.stack..self.layout.work]
    }

    fn elements(&self, level: usize) -> &'a [u64] {
        let count = self.words[element_count_at(level)].min(1 << level);
        &self.level_words(level)[..count as usize]
    }

    /// Words of the stack that the levels from this one down take up.
    fn stacked(&self, level: usize) -> usize {
        let counts = (level..self.layout.levels).map(|i| self.words[update_count_at(i)]);
        let all = counts.fold(0u64, |sum, count| sum.saturating_add(count));
        all.min(3 * self.layout.n as u64) as usize
    }

    fn updates(&self, level: usize) -> &'a [u64] {
        &self.stack_words()[self.stacked(level + 1)..self.stacked(level)]
    }

    fn all_updates(&self) -> &'a [u64] {
        &self.stack_words()[..self.stacked(0)]
    }
}

fn offsets(image: &View) -> bool {
    let layout = &image.layout;
    image.words[3] == layout.elements as u64
        && image.words[4] == layout.stack as u64
        && image.words[5] == layout.work as u64
}

fn element_room(image: &View) -> bool {
    image
        .levels()
        .all(|i| image.words[element_count_at(i)] <= 1 << i)
}

fn stack_room(image: &View) -> bool {
    let counts = image
        .levels()
        .map(|i| u128::from(image.words[update_count_at(i)]));
    let mut sum = counts.sum::<u128>();
    if mistake::on(Mistake::SoundSumWraps) {
        sum = u128::from(sum as u64);
    }
    sum <= 3 * image.layout.n as u128
}

fn unused_elements(image: &View) -> bool {
    image.levels().all(|i| {
        let unused = &image.level_words(i)[image.elements(i).len()..];
        unused.iter().all(|&word| word == 0)
    })
}

fn unused_stack(image: &View) -> bool {
    image.stack_words()[image.stacked(0)..]
        .iter()
        .all(|&word| word == 0)
}

fn work_area(image: &View) -> bool {
    image.words[image.layout.work..image.layout.need]
        .iter()
        .all(|&word| word == 0)
}

fn elements_are_pairs(image: &View) -> bool {
    image.levels().all(|i| {
        image
            .elements(i)
            .iter()
            .all(|&word| key_of(word) < KEY_LIMIT)
    })
}

fn update_kinds(image: &View) -> bool {
    let mut updates = image.all_updates().iter();
    updates.all(|&word| [DECREASE, DELETE, SINK].contains(&kind_of(word)))
}

fn delete_keys(image: &View) -> bool {
    let mut updates = image.all_updates().iter();
    updates.all(|&word| kind_of(word) != DELETE || key_of(pair_of(word)) == 0)
}

fn bounds_never_fall(image: &View) -> bool {
    image
        .levels()
        .skip(1)
        .all(|i| image.bound(i - 1) <= image.bound(i))
}

fn element_ids(image: &View) -> bool {
    let n = image.layout.n as u64;
    image
        .levels()
        .all(|i| image.elements(i).iter().all(|&pair| id_of(pair) < n))
}

fn elements_ascend(image: &View) -> bool {
    let ascends = |level: &[u64]| level.windows(2).all(|two| id_of(two[0]) < id_of(two[1]));
    image.levels().all(|i| ascends(image.elements(i)))
}

fn update_ids(image: &View) -> bool {
    let n = image.layout.n as u64;
    image
        .all_updates()
        .iter()
        .all(|&word| id_of(pair_of(word)) < n)
}

fn elements_within_bound(image: &View) -> bool {
    image
        .levels()
        .all(|i| image.elements(i).iter().all(|&pair| pair <= image.bound(i)))
}

fn elements_above_before(image: &View) -> bool {
    let equal = mistake::on(Mistake::SoundElementAtBefore);
    let good = |pair: u64, before: u64| pair > before || equal && pair == before;
    let mut lower = image.levels().skip(1);
    lower.all(|i| {
        image
            .elements(i)
            .iter()
            .all(|&pair| good(pair, image.bound(i - 1)))
    })
}

fn updates_above_before(image: &View) -> bool {
    let equal = mistake::on(Mistake::SoundUpdateAtBefore);
    let good = |word: u64, before: u64| match kind_of(word) {
        DECREASE | SINK => pair_of(word) > before || equal && pair_of(word) == before,
        _ => true,
    };
    let mut lower = image.levels().skip(1);
    lower.all(|i| {
        image
            .updates(i)
            .iter()
            .all(|&word| good(word, image.bound(i - 1)))
    })
}

fn no_sink_at_zero(image: &View) -> bool {
    image.updates(0).iter().all(|&word| kind_of(word) != SINK)
}

fn waiting(image: &View) -> u64 {
    let counted = |word: &&u64| [DECREASE, DELETE].contains(&kind_of(**word));
    image.all_updates().iter().filter(counted).count() as u64
}

fn stored_after_delete(image: &View) -> bool {
    // For each id the kind of the entry read last.
    let mut newest = BTreeMap::new();
    for level in image.levels().rev() {
        let stored = image.elements(level).iter();
        let stored = stored.map(|&pair| (ELEMENT, pair));
        let updates = image.updates(level).iter();
        let updates = updates.map(|&word| (kind_of(word), pair_of(word)));
        for (kind, pair) in stored.chain(updates) {
            let before = newest.insert(id_of(pair), kind);
            if follows_only_a_delete(kind) && before.is_some_and(|before| before != DELETE) {
                return false;
            }
        }
    }
    true
}

/// Stands for the kind of an element: no word of 64 bits has this kind.
const ELEMENT: u64 = 256;

fn follows_only_a_delete(kind: u64) -> bool {
    match kind {
        ELEMENT => !mistake::on(Mistake::SoundElementsAnywhere),
        SINK => !mistake::on(Mistake::SoundSinksAnywhere),
        _ => false,
    }
}
