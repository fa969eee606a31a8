//! A proved queue in levels, sheets and least distances, behind a safe face.
//!
//! The queue lives in a slice of words that its caller lends, the *image*.
//! [`Queue::fresh`] makes it and [`Queue::open`] tests one that was kept; from
//! then on a [`Queue`] holds the slice exclusively, so that no call need test it
//! again. A *sheet* is a graph in bytes: [`write`] makes one from a list of
//! edges, [`accept`] judges one, and [`distances`] fills in the least distances
//! from its source.
//!
//! ```
//! use level_queue::{need, Min, Queue};
//!
//! let mut image = vec![0; need(4).unwrap()];
//! let mut queue = Queue::fresh(&mut image, 4)?;
//! queue.decrease(2, 7)?;
//! queue.decrease(0, 5)?;
//! assert_eq!(queue.delete_min(), Min::Pair { id: 0, key: 5, reach: 1 });
//! assert_eq!(queue.delete_min(), Min::Pair { id: 2, key: 7, reach: 2 });
//! assert_eq!(queue.delete_min(), Min::Empty { reach: 3 });
//! # Ok::<(), level_queue::Refused>(())
//! ```
//!
//! Every call that can be refused gives a [`Refused`], one case for each number
//! of the library's table, and a refused call has written nothing.

#[cfg(not(target_arch = "x86_64"))]
compile_error!("the proved library is built for x86-64");

mod foreign;
mod queue;
mod refused;
mod sheet;

pub use queue::{need, Min, Queue, KEY_LIMIT, MOST_IDS};
pub use refused::Refused;
pub use sheet::{
    accept, distances, sheet_length, write, Edge, Sheet, MOST_EDGES, NO_CHOICE, UNREACHED,
};
