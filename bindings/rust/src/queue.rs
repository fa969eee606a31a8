//! The queue in a lent image.

use crate::foreign;
use crate::refused::Refused;

/// The most ids that an image can have.
pub const MOST_IDS: u64 = 65_536;

/// Keys are below this number.
pub const KEY_LIMIT: u64 = 1 << 40;

/// The words that an image for n ids takes, or `None` where no image can have
/// so many ids ([`Refused::Size`]).
///
/// ```
/// use level_queue::need;
///
/// assert_eq!(need(1), Some(14));
/// assert_eq!(need(65_536), Some(393_272));
/// assert_eq!(need(0), None);
/// ```
pub const fn need(n: u64) -> Option<usize> {
    if n == 0 || n > MOST_IDS {
        return None;
    }
    // The least number of levels, at least 1, whose last has room for n.
    let levels = n.next_power_of_two().trailing_zeros() as usize + 1;
    Some(5 + 3 * levels + (1 << levels) + 4 * n as usize)
}

/// What a Delete-Min gives.
///
/// The reach is the number of levels that it went down; a measure of its work.
#[derive(Clone, Copy, PartialEq, Eq, Debug)]
pub enum Min {
    /// The pair with the lowest key, among equal keys that with the lowest id.
    /// It is taken out.
    Pair { id: u64, key: u64, reach: u64 },
    /// No id has a key.
    Empty { reach: u64 },
}

/// A queue in a slice of words that is lent to it.
///
/// For each id below n it holds one key or none. The slice is held exclusively
/// as long as the queue lives, so it is tested at most once, when it is opened.
/// Dropping the queue leaves the image as it is, to be opened again.
#[derive(Debug)]
pub struct Queue<'a> {
    /// A sound image for n ids.
    image: &'a mut [u64],
    n: u64,
}

impl<'a> Queue<'a> {
    /// Makes an empty queue for the ids 0 to n-1, whatever the slice held. It
    /// takes the first [`need`]`(n)` words; later ones are never written.
    ///
    /// # Errors
    ///
    /// [`Refused::Size`], then [`Refused::ImageTooShort`].
    pub fn fresh(image: &'a mut [u64], n: u64) -> Result<Queue<'a>, Refused> {
        // SAFETY: pointer and count are those of one slice, borrowed exclusively.
        let number = unsafe { foreign::lq_fresh(image.as_mut_ptr(), image.len(), n) };
        Refused::unless(number)?;
        Ok(Queue { image, n })
    }

    /// Opens an image that was kept, after a test of all its words.
    ///
    /// ```
    /// use level_queue::{need, Min, Queue};
    ///
    /// let mut image = vec![0; need(2).unwrap()];
    /// Queue::fresh(&mut image, 2)?.decrease(1, 30)?;
    /// let mut kept = image.clone();
    /// let mut queue = Queue::open(&mut kept)?;
    /// assert_eq!(queue.delete_min(), Min::Pair { id: 1, key: 30, reach: 1 });
    /// # Ok::<(), level_queue::Refused>(())
    /// ```
    ///
    /// # Errors
    ///
    /// [`Refused::ImageTooShort`], then [`Refused::ImageNotSound`].
    pub fn open(image: &'a mut [u64]) -> Result<Queue<'a>, Refused> {
        // SAFETY: pointer and count are those of one slice, which is only read.
        let number = unsafe { foreign::lq_judge(image.as_ptr(), image.len()) };
        Refused::unless(number)?;
        let n = image[0];
        Ok(Queue { image, n })
    }

    /// The number of ids.
    pub fn n(&self) -> u64 {
        self.n
    }

    /// Gives an id the key, unless it has a lower one or the same.
    ///
    /// # Errors
    ///
    /// [`Refused::Id`], then [`Refused::Key`].
    pub fn decrease(&mut self, id: u64, key: u64) -> Result<(), Refused> {
        self.known(id)?;
        if key >= KEY_LIMIT {
            return Err(Refused::Key);
        }
        let (image, words) = (self.image.as_mut_ptr(), self.image.len());
        // SAFETY: pointer and count are those of one slice, held exclusively. The
        // image is sound, the id below n and the key below its limit.
        unsafe { foreign::lq_inner_decrease(image, words, id, key) };
        Ok(())
    }

    /// Takes an id's key away, if it has one.
    ///
    /// # Errors
    ///
    /// [`Refused::Id`].
    pub fn delete(&mut self, id: u64) -> Result<(), Refused> {
        self.known(id)?;
        let (image, words) = (self.image.as_mut_ptr(), self.image.len());
        // SAFETY: pointer and count are those of one slice, held exclusively. The
        // image is sound and the id below n.
        unsafe { foreign::lq_inner_delete(image, words, id) };
        Ok(())
    }

    /// Takes the smallest pair out and gives it.
    pub fn delete_min(&mut self) -> Min {
        let (image, words) = (self.image.as_mut_ptr(), self.image.len());
        let (mut id, mut key, mut reach) = (0, 0, 0);
        // SAFETY: pointer and count are those of one slice, held exclusively, the
        // other pointers are of locals. The image is sound.
        let number =
            unsafe { foreign::lq_inner_delete_min(image, words, &mut id, &mut key, &mut reach) };
        match number {
            0 => Min::Pair { id, key, reach },
            _ => Min::Empty { reach },
        }
    }

    /// The words of the slice, to be kept or looked at.
    pub fn words(&self) -> &[u64] {
        self.image
    }

    fn known(&self, id: u64) -> Result<(), Refused> {
        if id < self.n {
            return Ok(());
        }
        Err(Refused::Id)
    }
}
