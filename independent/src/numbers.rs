//! The page's numbers: pairs, update words, and where things lie in an image.

/// n is at most this, and a pair is key x 65,536 + id.
pub const MOST_IDS: u64 = 65_536;
/// Keys are below this.
pub const KEY_LIMIT: u64 = 1 << 40;
/// The open bound: above every pair.
pub const OPEN: u64 = 1 << 56;
/// The image of n = 1 has 14 words; no slice below that is looked into.
pub const LEAST_WORDS: usize = 14;

pub const DECREASE: u64 = 1;
pub const DELETE: u64 = 2;
pub const SINK: u64 = 3;

pub fn pair(key: u64, id: u64) -> u64 {
    key * MOST_IDS + id
}

pub fn key_of(pair: u64) -> u64 {
    pair / MOST_IDS
}

pub fn id_of(pair: u64) -> u64 {
    pair % MOST_IDS
}

pub fn update(kind: u64, pair: u64) -> u64 {
    kind * OPEN + pair
}

pub fn kind_of(update: u64) -> u64 {
    update / OPEN
}

pub fn pair_of(update: u64) -> u64 {
    update % OPEN
}

/// n is from 1 to 65,536.
pub fn in_range(n: u64) -> bool {
    (1..=MOST_IDS).contains(&n)
}

/// L: the least number, at least 1, with 2^(L-1) >= n. n is at least 1.
pub fn levels(n: u64) -> usize {
    (u64::BITS - (n - 1).leading_zeros()) as usize + 1
}

/// Words needed in all. n is in range.
pub fn need(n: u64) -> usize {
    5 + 3 * levels(n) + (1 << levels(n)) + 4 * n as usize
}

/// Word numbers of a level's row in the header.
pub fn bound_at(level: usize) -> usize {
    6 + 3 * level
}

pub fn element_count_at(level: usize) -> usize {
    7 + 3 * level
}

pub fn update_count_at(level: usize) -> usize {
    8 + 3 * level
}

/// Where the parts of an image for n lie, worked out from n alone.
#[derive(Clone, Copy, Debug)]
pub struct Layout {
    pub n: usize,
    pub levels: usize,
    pub elements: usize,
    pub stack: usize,
    pub work: usize,
    pub need: usize,
}

impl Layout {
    pub fn of(n: u64) -> Layout {
        let levels = levels(n);
        let n = n as usize;
        let elements = 6 + 3 * levels;
        let stack = elements + (1 << levels) - 1;
        let work = stack + 3 * n;
        Layout {
            n,
            levels,
            elements,
            stack,
            work,
            need: work + n,
        }
    }

    /// First element word of a level.
    pub fn level_start(&self, level: usize) -> usize {
        self.elements + (1 << level) - 1
    }

    /// First stack word of a level's updates: those of deeper levels lie before.
    pub fn updates_start(&self, image: &[u64], level: usize) -> usize {
        let deeper = level + 1..self.levels;
        self.stack
            + deeper
                .map(|i| image[update_count_at(i)] as usize)
                .sum::<usize>()
    }
}
