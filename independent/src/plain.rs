//! The plain map: what the queue holds, without levels or waiting updates.

use crate::image::Answer;
use crate::numbers::*;
use std::collections::BTreeMap;

/// id to key.
pub type Map = BTreeMap<u64, u64>;

/// Reads levels `deepest` to 0 alone, oldest to newest.
pub fn reading(image: &[u64], deepest: usize) -> Map {
    let layout = Layout::of(image[0]);
    let mut map = Map::new();
    for level in (0..=deepest).rev() {
        let start = layout.level_start(level);
        for &pair in &image[start..start + image[element_count_at(level)] as usize] {
            map.insert(id_of(pair), key_of(pair));
        }
        let start = layout.updates_start(image, level);
        for &word in &image[start..start + image[update_count_at(level)] as usize] {
            read_update(&mut map, word);
        }
    }
    map
}

fn read_update(map: &mut Map, word: u64) {
    let (id, key) = (id_of(pair_of(word)), key_of(pair_of(word)));
    match kind_of(word) {
        DELETE => {
            map.remove(&id);
        }
        DECREASE => lower(map, id, key),
        _ => {
            map.insert(id, key);
        }
    }
}

/// A Decrease lowers an id or enters it if absent.
fn lower(map: &mut Map, id: u64, key: u64) {
    let held = map.entry(id).or_insert(key);
    *held = key.min(*held);
}

/// The live map of a sound image.
pub fn live_map(image: &[u64]) -> Map {
    reading(image, levels(image[0]) - 1)
}

/// The reach by its definition, without the procedure: the least level k for
/// which the reading of levels k to 0 alone leaves a live pair within level
/// k's bound. `None` when no level does.
pub fn reach(image: &[u64]) -> Option<u64> {
    let within = |level: usize| {
        let bound = image[bound_at(level)];
        reading(image, level)
            .iter()
            .any(|(&id, &key)| pair(key, id) <= bound)
    };
    (0..levels(image[0]))
        .find(|&level| within(level))
        .map(|level| level as u64 + 1)
}

/// A plain map that takes the queue's calls.
#[derive(Clone, Debug, PartialEq, Eq)]
pub struct Plain {
    pub n: u64,
    pub map: Map,
}

impl Plain {
    pub fn fresh(n: u64) -> Plain {
        Plain { n, map: Map::new() }
    }

    /// The plain map of an image starts as its live map.
    pub fn of(image: &[u64]) -> Plain {
        Plain {
            n: image[0],
            map: live_map(image),
        }
    }

    pub fn decrease(&mut self, id: u64, key: u64) -> Answer {
        if id >= self.n {
            return Answer::Refused(4);
        }
        if key >= KEY_LIMIT {
            return Answer::Refused(5);
        }
        lower(&mut self.map, id, key);
        Answer::Taken
    }

    pub fn delete(&mut self, id: u64) -> Answer {
        if id >= self.n {
            return Answer::Refused(4);
        }
        self.map.remove(&id);
        Answer::Taken
    }

    /// The smallest pair, taken out. A plain map knows of no reach.
    pub fn delete_min(&mut self) -> Option<(u64, u64)> {
        let smallest = self.map.iter().map(|(&id, &key)| pair(key, id)).min()?;
        self.map.remove(&id_of(smallest));
        Some((id_of(smallest), key_of(smallest)))
    }
}
