//! Sheets: written, judged, and run over.

use crate::foreign;
use crate::queue::MOST_IDS;
use crate::refused::Refused;
use std::thread;

/// The distance of a vertex that no walk reaches.
pub const UNREACHED: u64 = 1 << 40;

/// The source of a sheet for which none was chosen: it stands for vertex 0.
pub const NO_CHOICE: u64 = 4_294_967_295;

/// The most edges that a sheet is written from.
pub const MOST_EDGES: usize = 262_144;

/// What an accepted sheet says of itself.
#[derive(Clone, Copy, PartialEq, Eq, Debug)]
pub struct Sheet {
    /// The number of vertices.
    pub n: u64,
    /// The number of half-edges, two for each edge.
    pub h: u64,
    /// The vertex from which distances are measured; 0 where none was chosen.
    pub source: u64,
}

/// An edge between two vertices, in either order.
#[derive(Clone, Copy, PartialEq, Eq, Debug)]
#[repr(C)]
pub struct Edge {
    pub one: u64,
    pub other: u64,
    /// At most 65,535.
    pub weight: u64,
}

/// The bytes of a sheet of n vertices and so many edges, or `None` where none
/// can be written ([`Refused::WriterSize`]).
///
/// ```
/// assert_eq!(level_queue::sheet_length(4, 3), Some(88));
/// ```
pub const fn sheet_length(n: u64, edges: usize) -> Option<usize> {
    if n == 0 || n > MOST_IDS || edges > MOST_EDGES {
        return None;
    }
    Some(20 + 4 * (n as usize + 1) + 16 * edges)
}

/// Judges a sheet.
///
/// # Errors
///
/// [`Refused::SheetLength`] under 20 bytes; then [`Refused::SheetSize`],
/// [`Refused::SheetLength`], [`Refused::Source`], [`Refused::RowStarts`],
/// [`Refused::Targets`], [`Refused::Weights`], [`Refused::OneSided`].
pub fn accept(sheet: &[u8]) -> Result<Sheet, Refused> {
    let (mut n, mut h, mut source) = (0, 0, 0);
    // SAFETY: pointer and count are those of one slice, which is only read; the
    // other pointers are of locals.
    let number =
        unsafe { foreign::lq_accept(sheet.as_ptr(), sheet.len(), &mut n, &mut h, &mut source) };
    Refused::unless(number)?;
    Ok(Sheet { n, h, source })
}

/// The stack that the writer is given: its local array alone is 4 MiB.
const WRITER_STACK: usize = 8 << 20;

/// Writes the sheet of the edges, in any order, to the start of the target, and
/// gives its length. Bytes beyond it are left as they are. The source is stored
/// as it is given; [`NO_CHOICE`] makes none.
///
/// The call runs on a thread of its own with 8 MiB of stack, which costs about a
/// millisecond: the threads that Rust starts have 2 MiB, the writer takes over 4.
///
/// ```
/// use level_queue::{accept, sheet_length, write, Edge};
///
/// let edges = [Edge { one: 0, other: 1, weight: 2 }];
/// let mut target = vec![0; sheet_length(2, 1).unwrap()];
/// assert_eq!(write(&mut target, 2, 1, &edges)?, 48);
/// assert_eq!(accept(&target)?.source, 1);
/// # Ok::<(), level_queue::Refused>(())
/// ```
///
/// # Errors
///
/// [`Refused::WriterSize`], [`Refused::Ends`], [`Refused::Weight`],
/// [`Refused::Twice`], [`Refused::Source`], [`Refused::TargetTooShort`], in this
/// order.
///
/// # Panics
///
/// Where the system gives no thread.
pub fn write(target: &mut [u8], n: u64, source: u64, edges: &[Edge]) -> Result<u64, Refused> {
    let call = || {
        let mut length = 0;
        // SAFETY: each pointer and its count are those of one slice, the target's
        // borrowed exclusively; the last pointer is of a local. `Edge` is laid out
        // as the library's records are.
        let number = unsafe {
            foreign::lq_write_edges(
                target.as_mut_ptr(),
                target.len(),
                n,
                source,
                edges.as_ptr(),
                edges.len(),
                &mut length,
            )
        };
        Refused::unless(number).map(|()| length)
    };
    thread::scope(|scope| {
        let writer = thread::Builder::new().stack_size(WRITER_STACK);
        let writer = writer.spawn_scoped(scope, call);
        let writer = writer.expect("a thread for the writer");
        writer.join().expect("the writer does not panic")
    })
}

/// Fills in the least distance from the sheet's source to each of its n
/// vertices, [`UNREACHED`] where there is no walk, and gives the number of those
/// reached, the source among them. Words past n are left as they are.
///
/// The image slice is lent to work in: it must have the words that n ids
/// [`need`](crate::need), its old words do not matter, and a fresh image for n is
/// left in it.
///
/// ```
/// use level_queue::{distances, need, sheet_length, write, Edge, UNREACHED};
///
/// let edges = [Edge { one: 0, other: 1, weight: 2 }];
/// let mut sheet = vec![0; sheet_length(3, 1).unwrap()];
/// write(&mut sheet, 3, 0, &edges)?;
/// let mut image = vec![0; need(3).unwrap()];
/// let mut least = [0; 3];
/// assert_eq!(distances(&sheet, &mut least, &mut image)?, 2);
/// assert_eq!(least, [0, 2, UNREACHED]);
/// # Ok::<(), level_queue::Refused>(())
/// ```
///
/// # Errors
///
/// Those of [`accept`]; then [`Refused::DistancesTooShort`], then
/// [`Refused::ImageTooShort`].
pub fn distances(sheet: &[u8], distances: &mut [u64], image: &mut [u64]) -> Result<u64, Refused> {
    let mut reached = 0;
    // SAFETY: each pointer and its count are those of one slice, those that are
    // written borrowed exclusively; the last pointer is of a local.
    let number = unsafe {
        foreign::lq_distances(
            sheet.as_ptr(),
            sheet.len(),
            distances.as_mut_ptr(),
            distances.len(),
            image.as_mut_ptr(),
            image.len(),
            &mut reached,
        )
    };
    Refused::unless(number)?;
    Ok(reached)
}
