//! The test of an image by one plain reading, level by level from the deepest up, with nothing done for speed but that. It stands in the bench as the
//! measure of what a proof costs; it judges nothing. (`sound::verdict` is the test that does, written for speed.)

use crate::numbers::*;
use crate::sound::Verdict;

/// What an id's last entry was.
const NOTHING: u8 = 0;
const DELETED: u8 = 1;
const SET: u8 = 2;

pub fn plain_reading(words: &[u64]) -> Verdict {
    if words.len() < LEAST_WORDS {
        return Verdict::TooShort;
    }
    let n = words[0];
    if !(1..=MOST_IDS).contains(&n) {
        return Verdict::NotSound;
    }
    if words.len() < need(n) {
        return Verdict::TooShort;
    }
    let levels = levels(n);
    match header_is_right(words, n, levels) && levels_are_right(words, n, levels) {
        true => Verdict::Good,
        false => Verdict::NotSound,
    }
}

fn header_is_right(words: &[u64], n: u64, levels: usize) -> bool {
    let elements = 6 + 3 * levels;
    let stack = elements - 1 + (1 << levels);
    let offsets = [elements, stack, stack + 3 * n as usize];
    if words[1] != levels as u64 || (0..3).any(|i| words[3 + i] != offsets[i] as u64) {
        return false;
    }
    let mut used = 0;
    for level in 0..levels {
        if level + 1 < levels && words[6 + 3 * level] > words[9 + 3 * level] {
            return false;
        }
        let updates = words[8 + 3 * level];
        if updates > 3 * n - used {
            return false;
        }
        used += updates;
    }
    words[3 + 3 * levels] == OPEN
}

fn levels_are_right(words: &[u64], n: u64, levels: usize) -> bool {
    let mut table = vec![NOTHING; if n <= 4096 { 4096 } else { 65_536 }];
    let elements = 6 + 3 * levels;
    let mut at = elements - 1 + (1 << levels);
    let end = at + 4 * n as usize;
    let mut waiting = 0;
    for level in (0..levels).rev() {
        let floor = if level == 0 {
            0
        } else {
            words[3 + 3 * level] + 1
        };
        let (count, updates) = (words[7 + 3 * level] as usize, words[8 + 3 * level] as usize);
        let room = 1 << level;
        let from = elements + room - 1;
        if count > room
            || !pairs_are_right(
                &words[from..from + count],
                n,
                floor,
                words[6 + 3 * level],
                &mut table,
            )
            || words[from + count..from + room]
                .iter()
                .any(|&word| word != 0)
        {
            return false;
        }
        match waiting_updates(&words[at..at + updates], n, floor, level == 0, &mut table) {
            Some(more) => waiting += more,
            None => return false,
        }
        at += updates;
    }
    waiting == words[2] && waiting <= n && words[at..end].iter().all(|&word| word == 0)
}

fn pairs_are_right(pairs: &[u64], n: u64, floor: u64, bound: u64, table: &mut [u8]) -> bool {
    let mut next = 0;
    for &pair in pairs {
        let id = pair % MOST_IDS;
        if id >= n
            || pair >= OPEN
            || pair > bound
            || pair < floor
            || id < next
            || table[id as usize] == SET
        {
            return false;
        }
        table[id as usize] = SET;
        next = id + 1;
    }
    true
}

/// How many of a level's updates are Decreases and Deletes, if all may wait there.
fn waiting_updates(
    updates: &[u64],
    n: u64,
    floor: u64,
    top: bool,
    table: &mut [u8],
) -> Option<u64> {
    let mut waiting = 0;
    for &word in updates {
        let (kind, pair, id) = (word / OPEN, word % OPEN, word % MOST_IDS);
        if id >= n {
            return None;
        }
        let last = &mut table[id as usize];
        match kind {
            1 if pair >= floor => *last = SET,
            2 if pair < MOST_IDS => *last = DELETED,
            3 if pair >= floor && !top && *last != SET => *last = SET,
            _ => return None,
        }
        waiting += u64::from(kind != 3);
    }
    Some(waiting)
}
