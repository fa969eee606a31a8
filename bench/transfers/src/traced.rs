//! Slices that note every read and write of one of their members, and stores
//! that are told which page it was on.

use crate::store::{Store, Transfers};
use std::cell::RefCell;
use std::marker::PhantomData;
use std::ops::{Index, IndexMut, Range};

/// 4 KB: 512 words.
pub const PAGE_BYTES: usize = 4_096;

/// A slice. What is read or written of it is noted, one member at a time.
#[repr(transparent)]
pub struct Traced<T>([T]);

/// The words of an image.
pub type Words = Traced<u64>;

impl<T> Traced<T> {
    fn of(slice: &[T]) -> &Traced<T> {
        // SAFETY: a transparent wrapper has the layout of what it wraps.
        unsafe { &*(slice as *const [T] as *const Traced<T>) }
    }

    fn of_mut(slice: &mut [T]) -> &mut Traced<T> {
        // SAFETY: as above, and the borrow is handed on.
        unsafe { &mut *(slice as *mut [T] as *mut Traced<T>) }
    }

    pub fn len(&self) -> usize {
        self.0.len()
    }

    pub fn iter(&self) -> Reads<'_, T> {
        Reads(self.0.iter())
    }

    pub fn iter_mut(&mut self) -> impl Iterator<Item = &mut T> + '_ {
        self.0
            .iter_mut()
            .inspect(|member| note::<T>(&**member, true))
    }
}

/// The members in their order, each noted as it is read.
pub struct Reads<'a, T>(std::slice::Iter<'a, T>);

impl<'a, T> Iterator for Reads<'a, T> {
    type Item = &'a T;

    fn next(&mut self) -> Option<&'a T> {
        let member = self.0.next()?;
        note(member, false);
        Some(member)
    }
}

impl<'a, T> IntoIterator for &'a Traced<T> {
    type Item = &'a T;
    type IntoIter = Reads<'a, T>;

    fn into_iter(self) -> Reads<'a, T> {
        self.iter()
    }
}

/// Members moved and stored by the slice's own methods, each noted.
impl<T: Copy> Traced<T> {
    pub fn fill(&mut self, value: T) {
        for at in 0..self.len() {
            self[at] = value;
        }
    }

    pub fn copy_within(&mut self, from: Range<usize>, to: usize) {
        let members = from.len();
        for turn in 0..members {
            let at = if to <= from.start {
                turn
            } else {
                members - 1 - turn
            };
            self[to + at] = self[from.start + at];
        }
    }

    pub fn swap(&mut self, a: usize, b: usize) {
        let first = self[a];
        self[a] = self[b];
        self[b] = first;
    }
}

impl<T> Index<usize> for Traced<T> {
    type Output = T;

    fn index(&self, at: usize) -> &T {
        let member = &self.0[at];
        note(member, false);
        member
    }
}

impl<T> IndexMut<usize> for Traced<T> {
    fn index_mut(&mut self, at: usize) -> &mut T {
        let member = &mut self.0[at];
        note(member, true);
        member
    }
}

/// A part is lent, and nothing is read yet.
impl<T> Index<Range<usize>> for Traced<T> {
    type Output = Traced<T>;

    fn index(&self, part: Range<usize>) -> &Traced<T> {
        Traced::of(&self.0[part])
    }
}

impl<T> IndexMut<Range<usize>> for Traced<T> {
    fn index_mut(&mut self, part: Range<usize>) -> &mut Traced<T> {
        Traced::of_mut(&mut self.0[part])
    }
}

// ---------------------------------------------------------------------------
// Memory that begins with a page

#[derive(Clone)]
#[repr(C, align(4096))]
struct Page([u8; PAGE_BYTES]);

/// Whole pages of zeros for a traced slice.
pub struct Memory<T> {
    pages: Vec<Page>,
    length: usize,
    kind: PhantomData<T>,
}

/// Where some memory lies.
pub type Area = Range<usize>;

/// A number of which any bytes are one.
pub trait Number: Copy {}

impl Number for u64 {}
impl Number for u32 {}

impl<T: Number> Memory<T> {
    pub fn new(length: usize) -> Memory<T> {
        let pages = (length * size_of::<T>()).div_ceil(PAGE_BYTES);
        Memory {
            pages: vec![Page([0; PAGE_BYTES]); pages],
            length,
            kind: PhantomData,
        }
    }

    pub fn traced(&mut self) -> &mut Traced<T> {
        let start = self.pages.as_mut_ptr().cast();
        // SAFETY: the pages have room for the length, are aligned for more
        // than a number, and are borrowed as long as the slice.
        Traced::of_mut(unsafe { std::slice::from_raw_parts_mut(start, self.length) })
    }

    pub fn area(&self) -> Area {
        let start = self.pages.as_ptr() as usize;
        start..start + self.pages.len() * PAGE_BYTES
    }
}

// ---------------------------------------------------------------------------
// Noting

/// The memory that counts, and the stores that are told of it.
struct Counted {
    areas: Vec<Area>,
    stores: Vec<Store>,
    /// The last touch: the same again tells a store nothing.
    last: Option<(usize, bool)>,
}

thread_local! {
    static COUNTED: RefCell<Option<Counted>> = const { RefCell::new(None) };
}

/// Does the work, and counts the transfers of stores with so much room each.
/// Only touches of the areas count; each begins with a page.
pub fn transfers(areas: Vec<Area>, rooms: &[usize], work: impl FnOnce()) -> Vec<Transfers> {
    let pages = areas.iter().map(|area| area.len() / PAGE_BYTES).sum();
    let stores = rooms.iter().map(|&room| Store::new(room, pages));
    let counted = Counted {
        areas,
        stores: stores.collect(),
        last: None,
    };
    COUNTED.set(Some(counted));
    work();
    let stores = COUNTED.take().map_or(Vec::new(), |counted| counted.stores);
    stores.into_iter().map(Store::close).collect()
}

fn note<T>(member: *const T, writes: bool) {
    COUNTED.with_borrow_mut(|counted| {
        if let Some(counted) = counted {
            counted.touch(member as usize, writes);
        }
    });
}

impl Counted {
    fn touch(&mut self, address: usize, writes: bool) {
        let Some(page) = self.page(address) else {
            return;
        };
        let told = |(last, wrote)| last == page && (wrote || !writes);
        if self.last.is_some_and(told) {
            return;
        }
        self.last = Some((page, writes));
        for store in &mut self.stores {
            store.touch(page, writes);
        }
    }

    /// Pages are numbered through all areas.
    fn page(&self, address: usize) -> Option<usize> {
        let mut before = 0;
        for area in &self.areas {
            if area.contains(&address) {
                return Some((before + address - area.start) / PAGE_BYTES);
            }
            before += area.len();
        }
        None
    }
}

#[cfg(test)]
mod tests {
    use super::*;

    fn counts(loaded: u64, written: u64) -> Transfers {
        Transfers { loaded, written }
    }

    #[test]
    fn a_page_is_512_words() {
        let mut memory = Memory::<u64>::new(1_025);
        let areas = vec![memory.area()];
        let words = memory.traced();
        let found = transfers(areas, &[1, 3], || {
            words[0] = 1;
            words[511] += words[512];
            words[1_024] = words[511];
        });
        // Pages 0, 1, 0, 2: the right side is read first.
        assert_eq!(found, [counts(4, 3), counts(3, 2)]);
    }

    #[test]
    fn a_part_is_where_it_was() {
        let mut memory = Memory::<u64>::new(1_024);
        let areas = vec![memory.area()];
        let words = memory.traced();
        let found = transfers(areas, &[2], || {
            let part = &mut words[510..514];
            part[0] = 5;
            part[3] = 6;
        });
        assert_eq!(found, [counts(2, 2)]);
        assert_eq!((words.0[510], words.0[513]), (5, 6));
    }

    #[test]
    fn only_the_areas_count_and_their_pages_differ() {
        let mut memories = [1, 2, 3].map(|_| Memory::<u32>::new(1_024));
        let areas = vec![memories[0].area(), memories[2].area()];
        let [first, second, third] = memories.each_mut().map(Memory::traced);
        let found = transfers(areas, &[1], || {
            for at in 0..1_024 {
                first[at] = 1;
            }
            second[0] = third[0];
            second[1] = first[0];
        });
        assert_eq!(found, [counts(3, 1)]);
    }

    #[test]
    fn a_write_behind_a_read_of_the_page_is_told() {
        let mut memory = Memory::<u64>::new(1);
        let areas = vec![memory.area()];
        let words = memory.traced();
        let found = transfers(areas, &[1], || {
            let word = words[0];
            words[0] = word + 1;
        });
        assert_eq!(found, [counts(1, 1)]);
    }
}
