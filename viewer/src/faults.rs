//! What is wrong with an image that is refused: a sentence for each word that breaks a clause of
//! soundness. Whether an image is refused, and by which number, the proved library says; this only
//! tells a reader where to look.

use std::collections::HashMap;
use std::ops::Range;

use crate::image::{in_range, Places, SMALLEST};
use crate::pair::{Bound, Kind, Pair, Update, OPEN};

/// Empty exactly for a sound image.
pub fn faults(words: &[u64]) -> Vec<String> {
    if words.len() < SMALLEST {
        return vec![format!(
            "the slice has {} words, and the smallest image has {SMALLEST}",
            words.len()
        )];
    }
    let Some(n) = in_range(words[0]) else {
        return vec![format!("word 0 is {}: n is 1 to 65,536", words[0])];
    };
    let places = Places::of(n);
    if words.len() < places.end {
        return vec![format!(
            "the slice has {} words, and n = {n} needs {}",
            words.len(),
            places.end
        )];
    }
    let mut search = Search {
        words,
        places,
        found: Vec::new(),
        waiting: 0,
        newest: HashMap::new(),
    };
    search.header();
    search.bounds();
    if let Some(updates) = search.counts() {
        // Oldest to newest: the deepest level first.
        for (i, stretch) in updates.into_iter().enumerate().rev() {
            search.elements(i);
            search.updates(i, stretch);
        }
        search.waiting();
    }
    search.zeros(
        search.places.work..search.places.end,
        "the work area is zero",
    );
    search.found
}

struct Search<'a> {
    words: &'a [u64],
    places: Places,
    found: Vec<String>,
    /// Decreases and Deletes read so far.
    waiting: usize,
    /// Whether the newest entry of an id, among those read so far, is a Delete.
    newest: HashMap<u64, bool>,
}

impl Search<'_> {
    fn wrong(&mut self, at: usize, clause: &str) {
        self.found
            .push(format!("word {at} is {}: {clause}", self.words[at]));
    }

    /// The word is this number.
    fn is(&mut self, at: usize, value: usize, what: &str) {
        if self.words[at] != value as u64 {
            self.wrong(at, &format!("{what} {value}"));
        }
    }

    fn zeros(&mut self, stretch: Range<usize>, clause: &str) {
        for at in stretch {
            if self.words[at] != 0 {
                self.wrong(at, clause);
            }
        }
    }

    fn header(&mut self) {
        self.is(1, self.places.levels, "the number of levels is");
        self.is(3, self.places.elements, "the elements begin at");
        self.is(4, self.places.stack, "the update stack begins at");
        self.is(5, self.places.work, "the work area begins at");
    }

    fn bound(&self, i: usize) -> Bound {
        Bound(self.words[self.places.row(i)])
    }

    /// Above the bound of the level before, where there is one.
    fn beyond(&self, i: usize, pair: Pair) -> bool {
        i == 0 || !self.bound(i - 1).admits(pair)
    }

    fn bounds(&mut self) {
        for i in 1..self.places.levels {
            if self.bound(i) < self.bound(i - 1) {
                self.wrong(
                    self.places.row(i),
                    &format!("the bound of level {i} is below that of level {}", i - 1),
                );
            }
        }
        let last = self.places.levels - 1;
        if self.bound(last) != Bound(OPEN) {
            self.wrong(
                self.places.row(last),
                &format!("the last bound, of level {last}, is open ({OPEN})"),
            );
        }
    }

    /// Where each level's updates lie, level 0 first; nothing where a count is too large to read
    /// on.
    fn counts(&mut self) -> Option<Vec<Range<usize>>> {
        let mut next = self.places.stack;
        let mut stretches = Vec::new();
        let before = self.found.len();
        for i in (0..self.places.levels).rev() {
            let row = self.places.row(i);
            if self.words[row + 1] > 1 << i {
                self.wrong(row + 1, &format!("the room of level {i} is {}", 1 << i));
            }
            let free = self.places.work - next;
            match usize::try_from(self.words[row + 2])
                .ok()
                .filter(|&count| count <= free)
            {
                Some(count) => {
                    stretches.push(next..next + count);
                    next += count;
                }
                None => self.wrong(
                    row + 2,
                    &format!("the stack holds at most {} updates", 3 * self.places.n),
                ),
            }
        }
        if self.found.len() > before {
            return None;
        }
        self.zeros(next..self.places.work, "the stack's unused words are zero");
        stretches.reverse();
        Some(stretches)
    }

    fn elements(&mut self, i: usize) {
        let area = self.places.elements_of(i);
        let used = area.start + self.words[self.places.row(i) + 1] as usize;
        let mut least_id = 0;
        for at in area.start..used {
            let pair = Pair(self.words[at]);
            if pair.0 >= OPEN {
                self.wrong(at, "an element is a pair, below 2^56");
            }
            if pair.id() < least_id {
                self.wrong(
                    at,
                    &format!("the ids of level {i}'s elements ascend strictly"),
                );
            }
            least_id = pair.id() + 1;
            if !self.bound(i).admits(pair) {
                self.wrong(
                    at,
                    &format!(
                        "the element {pair} is above the bound {} of its level {i}",
                        self.bound(i)
                    ),
                );
            }
            self.pair(at, i, pair);
            self.stored(at, pair);
        }
        self.zeros(
            used..area.end,
            &format!("the unused element words of level {i} are zero"),
        );
    }

    /// What elements, Decreases and Sinks have in common: an id below n, and a place above the
    /// bound before.
    fn pair(&mut self, at: usize, i: usize, pair: Pair) {
        self.id(at, pair);
        if !self.beyond(i, pair) {
            self.wrong(
                at,
                &format!(
                    "{pair} at level {i} is not above the bound {} of level {}",
                    self.bound(i - 1),
                    i - 1
                ),
            );
        }
    }

    fn id(&mut self, at: usize, pair: Pair) {
        if pair.id() >= self.places.n as u64 {
            self.wrong(
                at,
                &format!("the id {} is not below n = {}", pair.id(), self.places.n),
            );
        }
    }

    /// The entry of the id "that comes next before" a stored pair, "if there is one, is a Delete".
    fn stored(&mut self, at: usize, pair: Pair) {
        if self.newest.insert(pair.id(), false) == Some(false) {
            self.wrong(
                at,
                &format!(
                    "{pair} is stored, and the entry of id {} next before it is no Delete",
                    pair.id()
                ),
            );
        }
    }

    fn updates(&mut self, i: usize, stretch: Range<usize>) {
        for at in stretch {
            match Update::of(self.words[at]) {
                None => self.wrong(at, "the kind of an update is 1, 2 or 3"),
                Some(update) => self.update(at, i, update),
            }
        }
    }

    fn update(&mut self, at: usize, i: usize, update: Update) {
        let id = update.pair.id();
        match update.kind {
            Kind::Decrease => {
                self.pair(at, i, update.pair);
                self.newest.insert(id, false);
                self.waiting += 1;
            }
            Kind::Delete => {
                if update.pair.key() != 0 {
                    self.wrong(at, "a Delete's key is 0");
                }
                self.id(at, update.pair);
                self.newest.insert(id, true);
                self.waiting += 1;
            }
            Kind::Sink => {
                if i == 0 {
                    self.wrong(at, "level 0 holds no Sink");
                }
                self.pair(at, i, update.pair);
                self.stored(at, update.pair);
            }
        }
    }

    fn waiting(&mut self) {
        self.is(
            2,
            self.waiting,
            "the Decreases and Deletes that wait number",
        );
        if self.waiting > self.places.n {
            self.wrong(
                2,
                &format!("at most n = {} Decreases and Deletes wait", self.places.n),
            );
        }
    }
}
