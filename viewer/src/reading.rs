//! Oldest to newest: the live map, dead pairs, and where a Delete-Min would stop. All of it by the
//! page's definitions, without the procedure.

use std::collections::{BTreeMap, HashSet};

use crate::image::{Image, Level};
use crate::pair::{Kind, Pair};

/// The live map that the reading of these levels leaves, by id: "a stored pair sets its id, a
/// Delete clears it, a Decrease lowers it or enters it if absent".
pub fn live(levels: &[Level]) -> BTreeMap<u64, Pair> {
    let mut map = BTreeMap::new();
    for level in levels.iter().rev() {
        map.extend(level.elements.iter().map(|&pair| (pair.id(), pair)));
        for update in &level.updates {
            let id = update.pair.id();
            match update.kind {
                Kind::Sink => {
                    map.insert(id, update.pair);
                }
                Kind::Delete => {
                    map.remove(&id);
                }
                Kind::Decrease => {
                    let held = map.entry(id).or_insert(update.pair);
                    *held = update.pair.min(*held);
                }
            }
        }
    }
    map
}

/// The live pairs in ascending order.
pub fn live_pairs(levels: &[Level]) -> Vec<Pair> {
    let mut pairs: Vec<Pair> = live(levels).into_values().collect();
    pairs.sort();
    pairs
}

/// What a Delete-Min would answer.
#[derive(Clone, Copy, Debug, PartialEq, Eq)]
pub struct Next {
    /// The smallest live pair, or nothing where the live map is empty.
    pub pair: Option<Pair>,
    pub reach: usize,
}

/// "k is the least level for which the reading of levels k to 0 alone leaves a live pair within
/// level k's bound. If no level holds one, the answer is empty, reach L."
pub fn next_min(image: &Image) -> Next {
    let levels = &image.levels;
    let answers = |k: &usize| {
        live(&levels[..=*k])
            .values()
            .any(|&pair| levels[*k].bound.admits(pair))
    };
    let stop = (0..levels.len()).find(answers);
    Next {
        pair: live_pairs(levels).first().copied(),
        reach: stop.map_or(levels.len(), |k| k + 1),
    }
}

/// Which pairs of a level are dead.
#[derive(Clone, Debug, PartialEq, Eq)]
pub struct Dead {
    pub elements: Vec<bool>,
    pub updates: Vec<bool>,
}

/// A pair (element, Sink or Decrease) is dead where a Delete of its id is newer: the live map does
/// not rest on it, though its word still stands. Level 0 first, as the levels.
pub fn dead(levels: &[Level]) -> Vec<Dead> {
    let mut deleted = HashSet::new();
    let mut all = Vec::new();
    for level in levels {
        // From the newest back to the oldest: a level's updates, then its elements.
        let mut updates: Vec<bool> = Vec::new();
        for update in level.updates.iter().rev() {
            let id = update.pair.id();
            if update.kind == Kind::Delete {
                deleted.insert(id);
                updates.push(false);
            } else {
                updates.push(deleted.contains(&id));
            }
        }
        updates.reverse();
        let elements = level
            .elements
            .iter()
            .map(|pair| deleted.contains(&pair.id()))
            .collect();
        all.push(Dead { elements, updates });
    }
    all
}
