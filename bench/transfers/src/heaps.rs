//! Two binary heaps that do the queue's job: one that knows where each id
//! stands and lowers its pair there, and one that enters the lower pair beside
//! the old one and skips what is stale when it comes out.

use crate::traced::{Area, Memory};
use independent::numbers::{id_of, key_of, pair};
use independent::run::Queue;

/// Pairs, each at most its two children's. The places that pairs move to are
/// told to P.
struct Heap<P> {
    pairs: Memory<u64>,
    count: usize,
    places: P,
}

trait Places {
    fn moved(&mut self, pair: u64, place: usize);
}

/// Nothing is known of places.
struct Unknown;

impl Places for Unknown {
    fn moved(&mut self, _pair: u64, _place: usize) {}
}

impl<P: Places> Heap<P> {
    fn new(most: usize, places: P) -> Heap<P> {
        Heap {
            pairs: Memory::new(most),
            count: 0,
            places,
        }
    }

    fn get(&mut self, place: usize) -> u64 {
        self.pairs.traced()[place]
    }

    fn put(&mut self, pair: u64, place: usize) {
        self.pairs.traced()[place] = pair;
        self.places.moved(pair, place);
    }

    fn push(&mut self, pair: u64) {
        self.count += 1;
        self.raise(pair, self.count - 1);
    }

    /// The pair stands at this place or nearer to the root.
    fn raise(&mut self, pair: u64, mut place: usize) {
        while place > 0 {
            let above = (place - 1) / 2;
            let other = self.get(above);
            if other <= pair {
                break;
            }
            self.put(other, place);
            place = above;
        }
        self.put(pair, place);
    }

    /// The pair stands at this place or farther from the root.
    fn lower(&mut self, pair: u64, mut place: usize) {
        while let Some((child, other)) = self.smaller_child(place) {
            if pair <= other {
                break;
            }
            self.put(other, place);
            place = child;
        }
        self.put(pair, place);
    }

    fn smaller_child(&mut self, place: usize) -> Option<(usize, u64)> {
        let children = 2 * place + 1..self.count.min(2 * place + 3);
        let children = children.map(|child| (child, self.get(child)));
        children.min_by_key(|&(_, pair)| pair)
    }

    /// Takes out what stands at the place; the last pair takes the place over.
    fn take(&mut self, place: usize) -> u64 {
        let taken = self.get(place);
        self.count -= 1;
        if place < self.count {
            let last = self.get(self.count);
            if last < taken {
                self.raise(last, place);
            } else {
                self.lower(last, place);
            }
        }
        taken
    }
}

// ---------------------------------------------------------------------------
// With a place for each id

/// One more than the place of each id's pair; 0 where it has none.
struct ById(Memory<u32>);

impl Places for ById {
    fn moved(&mut self, pair: u64, place: usize) {
        self.0.traced()[id_of(pair) as usize] = place as u32 + 1;
    }
}

impl ById {
    fn place(&mut self, id: u64) -> Option<usize> {
        let next = self.0.traced()[id as usize];
        next.checked_sub(1).map(|place| place as usize)
    }

    fn forget(&mut self, id: u64) {
        self.0.traced()[id as usize] = 0;
    }
}

pub struct Indexed(Heap<ById>);

impl Indexed {
    pub fn new(n: u64) -> Indexed {
        let places = ById(Memory::new(n as usize));
        Indexed(Heap::new(n as usize, places))
    }

    pub fn areas(&self) -> Vec<Area> {
        vec![self.0.pairs.area(), self.0.places.0.area()]
    }
}

impl Queue for Indexed {
    fn decrease(&mut self, id: u64, key: u64) {
        let new = pair(key, id);
        match self.0.places.place(id) {
            None => self.0.push(new),
            Some(place) if new < self.0.get(place) => self.0.raise(new, place),
            Some(_) => {}
        }
    }

    fn delete(&mut self, id: u64) {
        if let Some(place) = self.0.places.place(id) {
            self.0.take(place);
            self.0.places.forget(id);
        }
    }

    fn delete_min(&mut self) -> Option<(u64, u64)> {
        if self.0.count == 0 {
            return None;
        }
        let smallest = self.0.take(0);
        self.0.places.forget(id_of(smallest));
        Some((id_of(smallest), key_of(smallest)))
    }
}

// ---------------------------------------------------------------------------
// With stale pairs

/// No id holds this pair.
const ABSENT: u64 = u64::MAX;

pub struct Stale {
    heap: Heap<Unknown>,
    /// The pair each id holds: a run has its distances for that.
    held: Memory<u64>,
}

impl Stale {
    /// At most so many pairs are ever entered.
    pub fn new(n: u64, most: usize) -> Stale {
        let mut held = Memory::new(n as usize);
        for id in 0..n as usize {
            held.traced()[id] = ABSENT;
        }
        Stale {
            heap: Heap::new(most, Unknown),
            held,
        }
    }

    /// The pairs in the heap; and those held, each by its id.
    pub fn areas(&self) -> [Area; 2] {
        [self.heap.pairs.area(), self.held.area()]
    }
}

impl Queue for Stale {
    fn decrease(&mut self, id: u64, key: u64) {
        let held = self.held.traced();
        let new = pair(key, id);
        // ABSENT is above every pair: a Decrease then enters.
        if new < held[id as usize] {
            held[id as usize] = new;
            self.heap.push(new);
        }
    }

    fn delete(&mut self, id: u64) {
        self.held.traced()[id as usize] = ABSENT;
    }

    fn delete_min(&mut self) -> Option<(u64, u64)> {
        while self.heap.count > 0 {
            let smallest = self.heap.take(0);
            let (id, key) = (id_of(smallest), key_of(smallest));
            let held = self.held.traced();
            if held[id as usize] == smallest {
                held[id as usize] = ABSENT;
                return Some((id, key));
            }
        }
        None
    }
}

#[cfg(test)]
mod tests {
    use super::*;
    use independent::run::OnHeap;
    use independent::workload::{self, play};

    #[test]
    fn both_answer_as_the_standard_heap_does() {
        for list in workload::all(1_024) {
            let answers = play(&list.steps, &mut OnHeap::new(list.n));
            let indexed = play(&list.steps, &mut Indexed::new(list.n));
            assert_eq!(indexed, answers, "indexed, {}", list.name);
            let stale = play(&list.steps, &mut Stale::new(list.n, list.steps.len()));
            assert_eq!(stale, answers, "stale, {}", list.name);
        }
    }
}
