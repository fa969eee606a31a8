//! A store that has room for some pages. Every other page is elsewhere, and is
//! loaded when it is touched; the page that has gone longest without a touch
//! makes room, and is written back if it was written to.

/// Pages loaded, and pages written back.
#[derive(Clone, Copy, PartialEq, Eq, Debug, Default)]
pub struct Transfers {
    pub loaded: u64,
    pub written: u64,
}

pub struct Store {
    room: usize,
    /// Counts the touches: the clock by which the longest wait is told.
    touches: u64,
    held: Vec<Held>,
    /// The place in `held` of each page that is there.
    place: Vec<Option<usize>>,
    transfers: Transfers,
}

struct Held {
    page: usize,
    touched: u64,
    /// Whether its words differ from those elsewhere.
    changed: bool,
}

impl Store {
    /// Room for so many pages, at least one; pages are numbered below `pages`.
    pub fn new(room: usize, pages: usize) -> Store {
        Store {
            room,
            touches: 0,
            held: Vec::new(),
            place: vec![None; pages],
            transfers: Transfers::default(),
        }
    }

    pub fn touch(&mut self, page: usize, writes: bool) {
        self.touches += 1;
        let place = self.place[page].unwrap_or_else(|| self.load(page));
        let held = &mut self.held[place];
        held.touched = self.touches;
        held.changed |= writes;
    }

    /// Returns the place that the page has got.
    fn load(&mut self, page: usize) -> usize {
        self.transfers.loaded += 1;
        let new = Held {
            page,
            touched: self.touches,
            changed: false,
        };
        let place = if self.held.len() < self.room {
            self.held.push(new);
            self.held.len() - 1
        } else {
            let place = self.longest_waiting();
            let old = std::mem::replace(&mut self.held[place], new);
            self.place[old.page] = None;
            self.transfers.written += u64::from(old.changed);
            place
        };
        self.place[page] = Some(place);
        place
    }

    fn longest_waiting(&self) -> usize {
        let places = 0..self.held.len();
        let longest = places.min_by_key(|&place| self.held[place].touched);
        longest.expect("a store has room for a page")
    }

    /// What is held and was written to goes back at the end.
    pub fn close(self) -> Transfers {
        let changed = self.held.iter().filter(|held| held.changed).count();
        Transfers {
            loaded: self.transfers.loaded,
            written: self.transfers.written + changed as u64,
        }
    }
}

#[cfg(test)]
mod tests {
    use super::*;

    /// Touches in order; a page with a star is written to.
    fn transfers(room: usize, touches: &str) -> (u64, u64) {
        let mut store = Store::new(room, 10);
        for touch in touches.split_whitespace() {
            let page = touch.trim_end_matches('*').parse().expect("a page");
            store.touch(page, touch.ends_with('*'));
        }
        let Transfers { loaded, written } = store.close();
        (loaded, written)
    }

    #[test]
    fn nothing_touched_nothing_moved() {
        assert_eq!(transfers(1, ""), (0, 0));
    }

    #[test]
    fn a_page_that_is_there_is_not_loaded_again() {
        assert_eq!(transfers(1, "3 3 3"), (1, 0));
        assert_eq!(transfers(2, "3 4 3 4 3"), (2, 0));
    }

    #[test]
    fn one_page_too_many_is_loaded_every_time() {
        assert_eq!(transfers(1, "0 1 0 1"), (4, 0));
        // Around and around: the one needed next is always the one that went.
        assert_eq!(transfers(2, "0 1 2 0 1 2"), (6, 0));
        assert_eq!(transfers(3, "0 1 2 0 1 2"), (3, 0));
    }

    #[test]
    fn the_longest_untouched_goes_not_the_first_loaded() {
        // 0 is touched again before 2 comes: 1 goes, and 0 is still there.
        assert_eq!(transfers(2, "0 1 0 2 0"), (3, 0));
        // Then 1 has to come back, for 2: the last touches were 2, 0.
        assert_eq!(transfers(2, "0 1 0 2 0 1 0"), (4, 0));
        assert_eq!(transfers(2, "0 1 0 2 0 1 2"), (5, 0));
    }

    #[test]
    fn a_written_page_goes_back_once_for_each_stay() {
        // At the end.
        assert_eq!(transfers(2, "0*"), (1, 1));
        // Many writes, one stay.
        assert_eq!(transfers(2, "0* 0 0* 1 0*"), (2, 1));
        // 0 goes back when 1 comes; its second stay only reads.
        assert_eq!(transfers(1, "0* 1 0"), (3, 1));
        // Both stays write.
        assert_eq!(transfers(1, "0* 1 0*"), (3, 2));
        // Written before it is read, and read before it is written.
        assert_eq!(transfers(1, "0* 0 1 1*"), (2, 2));
    }

    #[test]
    fn a_page_that_was_only_read_does_not_go_back() {
        // 0, 1 and 2 come; 1, then 0 make room; only 1 was written to.
        assert_eq!(transfers(2, "0 1* 0 2 3"), (4, 1));
    }
}
