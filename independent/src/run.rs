//! The run: least distances from a sheet, by the queue on its image; and the
//! same distances by other ways, to judge it by.

use crate::image::{self, Answer, Taking};
use crate::mistake::{self, Mistake};
use crate::numbers::{id_of, key_of, need, pair, KEY_LIMIT};
use crate::sheet::{accept, Sheet};
use std::cmp::Reverse;
use std::collections::BinaryHeap;

/// The distance of a vertex that no walk reaches.
pub const UNREACHED: u64 = KEY_LIMIT;

/// The number reached, or the refusal number: 11 to 17, then 18, then 2.
/// The image need only be long enough; its old words do not matter.
pub fn distances(sheet: &[u8], distances: &mut [u64], image: &mut [u64]) -> Result<u64, u64> {
    let sheet = accept(sheet)?;
    let short = distances.len() < sheet.n;
    let image_short = image.len() < need(sheet.n as u64);
    match (short, image_short) {
        (true, true) if mistake::on(Mistake::Run2Before18) => return Err(2),
        (true, _) => return Err(18),
        (false, true) => {
            if mistake::on(Mistake::RunRefusedWrites) {
                distances[..sheet.n].fill(UNREACHED);
            }
            return Err(2);
        }
        (false, false) => {}
    }
    if mistake::on(Mistake::RunJudgesImage) && image::delete_min(image) == Answer::Refused(3) {
        return Err(3);
    }
    if mistake::on(Mistake::RunClearsBehind) {
        image.fill(0);
        distances.fill(0);
    }
    image::inner_fresh(image, sheet.n as u64);
    let queue = &mut OnImage {
        image,
        taking: Taking::Either,
    };
    Ok(settle_all(&sheet, &mut distances[..sheet.n], queue))
}

// ---------------------------------------------------------------------------
// The page's way

/// What a queue does. The run needs no Delete.
pub trait Queue {
    fn decrease(&mut self, id: u64, key: u64);
    fn delete(&mut self, id: u64);
    /// Id and key, if the queue holds a pair.
    fn delete_min(&mut self) -> Option<(u64, u64)>;
}

/// The queue on a sound image, by its inner calls.
pub struct OnImage<'a> {
    pub image: &'a mut [u64],
    pub taking: Taking,
}

impl Queue for OnImage<'_> {
    fn decrease(&mut self, id: u64, key: u64) {
        image::inner_decrease(self.image, id, key);
    }

    fn delete(&mut self, id: u64) {
        image::inner_delete(self.image, id);
    }

    fn delete_min(&mut self) -> Option<(u64, u64)> {
        match image::inner_delete_min_by(self.image, self.taking) {
            Answer::Min { id, key, .. } => Some((id, key)),
            _ => None,
        }
    }
}

/// Settles the smallest (tentative distance, id) until the queue is empty,
/// which leaves it fresh. Returns the number reached.
///
/// A distance is pushed only when it is lower than the one held. The distance
/// of a settled vertex is at most that of all settled later, so it never comes
/// again: the distances alone tell what is settled.
pub fn settle_all(sheet: &Sheet, distances: &mut [u64], queue: &mut impl Queue) -> u64 {
    distances.fill(UNREACHED);
    if mistake::on(Mistake::RunUnreachedZero) {
        distances.fill(0);
    }
    if mistake::on(Mistake::RunFirstVertex) {
        distances[0] = 0;
        queue.decrease(0, 0);
    } else {
        distances[sheet.source] = 0;
        queue.decrease(sheet.source as u64, 0);
    }
    let first_comes = mistake::on(Mistake::RunFirstComes);
    let pays_wrong = mistake::on(Mistake::RunOtherRowsWeight) || mistake::on(Mistake::RunZeroIsOne);
    let mut reached = 0;
    while let Some((vertex, distance)) = queue.delete_min() {
        reached += 1;
        for (target, mut weight) in sheet.row(vertex as usize) {
            if pays_wrong {
                weight = wrong_weight(sheet, vertex as usize, target, weight);
            }
            let through_here = distance + weight;
            let held = distances[target];
            if through_here < held && !(first_comes && held != UNREACHED) {
                distances[target] = through_here;
                queue.decrease(target as u64, through_here);
            }
        }
        if mistake::on(Mistake::RunStopsWhenAllReached) && reached == sheet.n as u64 {
            break;
        }
    }
    if mistake::on(Mistake::RunSourceNotCounted) {
        return reached - 1;
    }
    reached
}

/// What a walk pays by mistake. Its sum uses the weight in the row it leaves by.
fn wrong_weight(sheet: &Sheet, vertex: usize, target: usize, weight: u64) -> u64 {
    if mistake::on(Mistake::RunZeroIsOne) {
        return weight.max(1);
    }
    let back = sheet.row(target).find(|&(back, _)| back == vertex);
    back.map_or(weight, |(_, weight)| weight)
}

// ---------------------------------------------------------------------------
// Other ways

/// Small sheets go by rounds, which needs no queue at all.
const FEW_ROWS: usize = 400;

/// The least distances of an accepted sheet.
pub fn least_distances(sheet: &Sheet) -> Vec<u64> {
    if sheet.h <= FEW_ROWS {
        by_rounds(sheet)
    } else {
        by_heap(sheet)
    }
}

/// Shortens along every row, round after round, until a round changes nothing.
pub fn by_rounds(sheet: &Sheet) -> Vec<u64> {
    let mut distances = vec![UNREACHED; sheet.n];
    distances[sheet.source] = 0;
    loop {
        let before = distances.clone();
        for vertex in (0..sheet.n).filter(|&vertex| before[vertex] != UNREACHED) {
            for (target, weight) in sheet.row(vertex) {
                distances[target] = distances[target].min(before[vertex] + weight);
            }
        }
        if distances == before {
            return distances;
        }
    }
}

/// With the standard heap: every lower distance goes in, and what a lower one
/// has overtaken is skipped when it comes out.
pub fn by_heap(sheet: &Sheet) -> Vec<u64> {
    let mut distances = vec![UNREACHED; sheet.n];
    distances[sheet.source] = 0;
    let mut heap = BinaryHeap::from([Reverse((0, sheet.source as u32))]);
    while let Some(Reverse((distance, vertex))) = heap.pop() {
        if distance > distances[vertex as usize] {
            continue;
        }
        for (target, weight) in sheet.row(vertex as usize) {
            let through_here = distance + weight;
            if through_here < distances[target] {
                distances[target] = through_here;
                heap.push(Reverse((through_here, target as u32)));
            }
        }
    }
    distances
}

/// The queue's job by the standard heap: pairs go in, and those that were
/// lowered or deleted since are skipped when they come out.
pub struct OnHeap {
    heap: BinaryHeap<Reverse<u64>>,
    /// The pair each id holds, if it is in the queue.
    held: Vec<u64>,
}

const ABSENT: u64 = u64::MAX;

impl OnHeap {
    pub fn new(n: u64) -> OnHeap {
        OnHeap {
            heap: BinaryHeap::new(),
            held: vec![ABSENT; n as usize],
        }
    }
}

impl Queue for OnHeap {
    fn decrease(&mut self, id: u64, key: u64) {
        let (held, new) = (&mut self.held[id as usize], pair(key, id));
        // ABSENT is above every pair: a Decrease then enters.
        if new < *held {
            *held = new;
            self.heap.push(Reverse(new));
        }
    }

    fn delete(&mut self, id: u64) {
        self.held[id as usize] = ABSENT;
    }

    fn delete_min(&mut self) -> Option<(u64, u64)> {
        while let Some(Reverse(smallest)) = self.heap.pop() {
            let held = &mut self.held[id_of(smallest) as usize];
            if *held == smallest {
                *held = ABSENT;
                return Some((id_of(smallest), key_of(smallest)));
            }
        }
        None
    }
}
