//! Where things lie in an image of n ids, and the levels that its words hold.

use std::ops::Range;

use crate::pair::{Bound, Pair, Update, IDS};

/// The words before the first level's row, and the words of a row.
pub const HEAD: usize = 6;
pub const ROW: usize = 3;

/// The words of the smallest image.
pub const SMALLEST: usize = 14;

/// "n from 1 to 65,536": n as a size, where it is one.
pub fn in_range(n: u64) -> Option<usize> {
    usize::try_from(n).ok().filter(|_| (1..=IDS).contains(&n))
}

/// Where the parts of an image of n ids begin.
pub struct Places {
    pub n: usize,
    pub levels: usize,
    pub elements: usize,
    pub stack: usize,
    pub work: usize,
    pub end: usize,
}

impl Places {
    pub fn of(n: usize) -> Places {
        // "L is the least number, at least 1, with 2^(L-1) >= n."
        let mut levels = 1;
        while 1 << (levels - 1) < n {
            levels += 1;
        }
        let elements = HEAD + ROW * levels;
        let stack = elements + (1 << levels) - 1;
        let work = stack + 3 * n;
        Places {
            n,
            levels,
            elements,
            stack,
            work,
            end: work + n,
        }
    }

    /// The row of level i: bound, element count, update count.
    pub fn row(&self, i: usize) -> usize {
        HEAD + ROW * i
    }

    /// "level i starts 2^i - 1 words in and has 2^i words"
    pub fn elements_of(&self, i: usize) -> Range<usize> {
        let start = self.elements + (1 << i) - 1;
        start..start + (1 << i)
    }
}

#[derive(Clone, Debug, PartialEq, Eq)]
pub struct Level {
    pub bound: Bound,
    pub elements: Vec<Pair>,
    pub updates: Vec<Update>,
}

#[derive(Clone, Debug, PartialEq, Eq)]
pub struct Image {
    pub n: usize,
    /// Word 2: how many Decreases and Deletes wait.
    pub waiting: u64,
    /// Level 0 first.
    pub levels: Vec<Level>,
}

impl Image {
    /// The levels of a sound image. Of other words it is some image or other: whoever shows it has
    /// had it judged.
    pub fn read(words: &[u64]) -> Image {
        let n = in_range(word(words, 0)).unwrap_or(1);
        let places = Places::of(n);
        let mut levels = Vec::new();
        // The stack has "the deepest level's updates first".
        let mut next = places.stack;
        for i in (0..places.levels).rev() {
            let row = places.row(i);
            let held = part(words, places.elements_of(i).start, word(words, row + 1));
            let waiting = part(words, next, word(words, row + 2));
            next += waiting.len();
            levels.push(Level {
                bound: Bound(word(words, row)),
                elements: held.iter().map(|&w| Pair(w)).collect(),
                updates: waiting.iter().filter_map(|&w| Update::of(w)).collect(),
            });
        }
        levels.reverse();
        Image {
            n,
            waiting: word(words, 2),
            levels,
        }
    }
}

/// A word, 0 where there is none.
fn word(words: &[u64], at: usize) -> u64 {
    words.get(at).copied().unwrap_or(0)
}

/// The words from `start` on, `count` of them, or none where there are not so many.
fn part(words: &[u64], start: usize, count: u64) -> &[u64] {
    let end = usize::try_from(count)
        .ok()
        .and_then(|count| start.checked_add(count));
    end.and_then(|end| words.get(start..end)).unwrap_or(&[])
}
