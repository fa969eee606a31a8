//! The page's numbers: pairs, bounds, update words.

use std::fmt;

/// "Ids are 0 to n-1, n from 1 to 65,536."
pub const IDS: u64 = 65_536;

/// The open bound, 2^56, above every pair. An update word has its kind from this bit on.
pub const OPEN: u64 = 1 << 56;

/// "A pair is key x 65,536 + id, so whole numbers compare in the right order."
#[derive(Clone, Copy, Debug, PartialEq, Eq, PartialOrd, Ord)]
pub struct Pair(pub u64);

impl Pair {
    pub fn key(self) -> u64 {
        self.0 / IDS
    }

    pub fn id(self) -> u64 {
        self.0 % IDS
    }
}

/// As the page writes it: cost first, then id.
impl fmt::Display for Pair {
    fn fmt(&self, f: &mut fmt::Formatter) -> fmt::Result {
        write!(f, "({},{})", self.key(), self.id())
    }
}

/// A level's upper bound: any number up to the open one, of whatever pair.
#[derive(Clone, Copy, Debug, PartialEq, Eq, PartialOrd, Ord)]
pub struct Bound(pub u64);

impl Bound {
    /// The pair is "at most the bound".
    pub fn admits(self, pair: Pair) -> bool {
        pair.0 <= self.0
    }
}

impl fmt::Display for Bound {
    fn fmt(&self, f: &mut fmt::Formatter) -> fmt::Result {
        match self.0 {
            OPEN => f.write_str("open"),
            below => Pair(below).fmt(f),
        }
    }
}

#[derive(Clone, Copy, Debug, PartialEq, Eq)]
pub enum Kind {
    Decrease,
    Delete,
    Sink,
}

#[derive(Clone, Copy, Debug, PartialEq, Eq)]
pub struct Update {
    pub kind: Kind,
    pub pair: Pair,
}

impl Update {
    /// "An update word is kind x 2^56 + pair; kind 1 Decrease, 2 Delete (key 0), 3 Sink." Nothing
    /// for any other kind.
    pub fn of(word: u64) -> Option<Update> {
        let kind = match word / OPEN {
            1 => Kind::Decrease,
            2 => Kind::Delete,
            3 => Kind::Sink,
            _ => return None,
        };
        Some(Update {
            kind,
            pair: Pair(word % OPEN),
        })
    }
}

impl fmt::Display for Update {
    fn fmt(&self, f: &mut fmt::Formatter) -> fmt::Result {
        match self.kind {
            Kind::Decrease => write!(f, "Decrease {}", self.pair),
            Kind::Delete => write!(f, "Delete {}", self.pair.id()),
            Kind::Sink => write!(f, "Sink {}", self.pair),
        }
    }
}
