//! Random sound images, and images as words.

use std::collections::HashMap;

use crate::random::Random;
use viewer::image::{Image, Level, Places};
use viewer::pair::{Bound, Kind, Pair, Update, IDS, OPEN};

pub fn pair(key: u64, id: u64) -> Pair {
    Pair(key * IDS + id)
}

/// A sound image of n ids whose bounds and pairs have few keys, so that many meet. Not only such as
/// calls leave.
pub fn sound_image(random: &mut Random, n: usize) -> Image {
    let count = Places::of(n).levels;
    let mut bounds: Vec<u64> = (1..count).map(|_| bound(random, n)).collect();
    bounds.sort();
    bounds.push(OPEN);
    let mut maker = Maker {
        n: n as u64,
        waiting: 0,
        newest: HashMap::new(),
    };
    let mut levels = Vec::new();
    for i in (0..count).rev() {
        let floor = if i == 0 { 0 } else { bounds[i - 1] + 1 };
        levels.push(maker.level(random, i, floor, Bound(bounds[i])));
    }
    levels.reverse();
    Image {
        n,
        waiting: maker.waiting,
        levels,
    }
}

/// Any bound: of a pair of an id, of another pair, open.
fn bound(random: &mut Random, n: usize) -> u64 {
    match random.below(6) {
        0 => OPEN,
        1 => pair(random.below(8), IDS - 1).0,
        _ => pair(random.below(8), random.below(n as u64)).0,
    }
}

/// Makes levels from the deepest up, and holds what the reading so far has.
struct Maker {
    n: u64,
    waiting: u64,
    /// Whether the newest entry of an id is a Delete.
    newest: HashMap<u64, bool>,
}

impl Maker {
    fn level(&mut self, random: &mut Random, i: usize, floor: u64, bound: Bound) -> Level {
        let mut elements = Vec::new();
        for id in 0..self.n {
            let pair = pair(random.below(10), id);
            let fits = pair.0 >= floor && bound.admits(pair) && elements.len() < 1 << i;
            if fits && random.below(3) == 0 && self.storable(id) {
                elements.push(pair);
            }
        }
        let mut updates = Vec::new();
        for _ in 0..random.below(self.n + 2) {
            updates.extend(self.update(random, i, floor));
        }
        Level {
            bound,
            elements,
            updates,
        }
    }

    /// A stored pair may come next: nothing of its id came before, or a Delete did last.
    fn storable(&mut self, id: u64) -> bool {
        let free = self.newest.get(&id).copied().unwrap_or(true);
        if free {
            self.newest.insert(id, false);
        }
        free
    }

    fn update(&mut self, random: &mut Random, i: usize, floor: u64) -> Option<Update> {
        let id = random.below(self.n);
        let above = pair(random.below(12), id);
        let kind = [Kind::Decrease, Kind::Delete, Kind::Sink][random.below(3) as usize];
        let room = self.waiting < self.n;
        match kind {
            Kind::Sink => (i > 0 && above.0 >= floor && self.storable(id))
                .then_some(Update { kind, pair: above }),
            Kind::Decrease if room && above.0 >= floor => {
                self.waiting += 1;
                self.newest.insert(id, false);
                Some(Update { kind, pair: above })
            }
            Kind::Delete if room => {
                self.waiting += 1;
                self.newest.insert(id, true);
                Some(Update {
                    kind,
                    pair: pair(0, id),
                })
            }
            _ => None,
        }
    }
}

/// The image as words.
pub fn words(image: &Image) -> Vec<u64> {
    let places = Places::of(image.n);
    let mut words = vec![0; places.end];
    let head = [
        image.n,
        places.levels,
        image.waiting as usize,
        places.elements,
        places.stack,
        places.work,
    ];
    for (at, word) in head.into_iter().enumerate() {
        words[at] = word as u64;
    }
    let mut top = places.stack;
    for (i, level) in image.levels.iter().enumerate().rev() {
        let row = places.row(i);
        words[row] = level.bound.0;
        words[row + 1] = level.elements.len() as u64;
        words[row + 2] = level.updates.len() as u64;
        for (at, element) in level.elements.iter().enumerate() {
            words[places.elements_of(i).start + at] = element.0;
        }
        for update in &level.updates {
            words[top] = (update.kind as u64 + 1) * OPEN + update.pair.0;
            top += 1;
        }
    }
    words
}
