//! Random calls, beside a plain map that takes the same ones.

use level_queue::{need, Min, Queue, KEY_LIMIT};
use std::collections::BTreeMap;

/// Marsaglia's generator of shifts and exclusive ors.
struct Xorshift(u64);

impl Xorshift {
    fn below(&mut self, limit: u64) -> u64 {
        self.0 ^= self.0 << 13;
        self.0 ^= self.0 >> 7;
        self.0 ^= self.0 << 17;
        self.0 % limit
    }
}

/// A key for each id that has one.
#[derive(Default)]
struct Plain(BTreeMap<u64, u64>);

impl Plain {
    fn decrease(&mut self, id: u64, key: u64) {
        let held = self.0.entry(id).or_insert(key);
        *held = key.min(*held);
    }

    fn take_min(&mut self) -> Option<(u64, u64)> {
        let (key, id) = self.0.iter().map(|(&id, &key)| (key, id)).min()?;
        self.0.remove(&id);
        Some((id, key))
    }
}

/// The pair without the reach, which must be one of 1 to the number of levels.
fn pair(min: Min, levels: u64) -> Option<(u64, u64)> {
    let (pair, reach) = match min {
        Min::Pair { id, key, reach } => (Some((id, key)), reach),
        Min::Empty { reach } => (None, reach),
    };
    assert!((1..=levels).contains(&reach));
    pair
}

/// Few keys, so that they are often equal, or many.
fn session(n: u64, keys: u64, calls: u32, random: &mut Xorshift) {
    const BEHIND: u64 = 77;
    let words = need(n).unwrap();
    let mut image = vec![BEHIND; words + 3];
    let mut queue = Queue::fresh(&mut image, n).unwrap();
    let mut plain = Plain::default();
    let levels = queue.words()[1];
    for _ in 0..calls {
        let id = random.below(n);
        match random.below(10) {
            0..=5 => {
                let key = random.below(keys);
                queue.decrease(id, key).unwrap();
                plain.decrease(id, key);
            }
            6 => {
                queue.delete(id).unwrap();
                plain.0.remove(&id);
            }
            7 => {
                // Kept and opened again: it must have stayed sound.
                queue = Queue::open(&mut image).unwrap();
                assert_eq!(queue.n(), n);
            }
            _ => assert_eq!(pair(queue.delete_min(), levels), plain.take_min()),
        }
    }
    while let Some(least) = plain.take_min() {
        assert_eq!(pair(queue.delete_min(), levels), Some(least));
    }
    assert_eq!(queue.delete_min(), Min::Empty { reach: levels });
    assert_eq!(queue.words()[words..], [BEHIND; 3]);
}

#[test]
fn small() {
    let random = &mut Xorshift(0x5EED);
    for n in 1..=40 {
        for keys in [1, 3, KEY_LIMIT] {
            session(n, keys, 400, random);
        }
    }
}

#[test]
fn larger() {
    let random = &mut Xorshift(0xA11CE);
    session(1_000, 50, 20_000, random);
    session(65_536, KEY_LIMIT, 2_000, random);
}
