//! The proved library, through its C functions.

use crate::harness::Judged;
#[cfg(feature = "proved_sheet")]
use crate::harness::Reading;
#[cfg(feature = "proved_writer")]
use crate::harness::GUARD;
use crate::image::Answer;
#[cfg(feature = "proved_inner")]
use crate::run::Queue;
#[cfg(feature = "proved_writer")]
use crate::writer::{Record, MOST_RECORDS};
#[cfg(feature = "proved_writer")]
use std::thread;

extern "C" {
    fn lq_fresh(image: *mut u64, words: usize, n: u64) -> u64;
    fn lq_decrease(image: *mut u64, words: usize, id: u64, key: u64) -> u64;
    fn lq_delete(image: *mut u64, words: usize, id: u64) -> u64;
    fn lq_judge(image: *const u64, words: usize) -> u64;
    #[cfg(feature = "proved_min")]
    fn lq_delete_min(
        image: *mut u64,
        words: usize,
        id: *mut u64,
        key: *mut u64,
        reach: *mut u64,
    ) -> u64;
    #[cfg(feature = "proved_inner")]
    fn lq_inner_decrease(image: *mut u64, words: usize, id: u64, key: u64);
    #[cfg(feature = "proved_inner")]
    fn lq_inner_delete(image: *mut u64, words: usize, id: u64);
    #[cfg(feature = "proved_inner")]
    fn lq_inner_delete_min(
        image: *mut u64,
        words: usize,
        id: *mut u64,
        key: *mut u64,
        reach: *mut u64,
    ) -> u64;
    #[cfg(feature = "proved_sheet")]
    fn lq_accept(
        bytes: *const u8,
        length: usize,
        n: *mut u64,
        h: *mut u64,
        source: *mut u64,
    ) -> u64;
    #[cfg(feature = "proved_writer")]
    fn lq_write(
        target: *mut u8,
        length: usize,
        n: u64,
        source: u64,
        ones: *const u64,
        one_count: usize,
        others: *const u64,
        other_count: usize,
        weights: *const u64,
        weight_count: usize,
        written: *mut u64,
    ) -> u64;
    #[cfg(feature = "proved_writer")]
    fn lq_write_edges(
        target: *mut u8,
        length: usize,
        n: u64,
        source: u64,
        edges: *const Edge,
        count: usize,
        written: *mut u64,
    ) -> u64;
    #[cfg(feature = "proved_run")]
    fn lq_distances(
        sheet: *const u8,
        length: usize,
        distances: *mut u64,
        distance_words: usize,
        image: *mut u64,
        image_words: usize,
        reached: *mut u64,
    ) -> u64;
}

/// The proved side of the comparison.
pub struct Proved;

fn taken_or_refused(number: u64) -> Answer {
    match number {
        0 => Answer::Taken,
        _ => Answer::Refused(number),
    }
}

// SAFETY, for every call below: the pointer and the count come from one slice
// that lives through the call, and nothing else refers to it meanwhile.
impl Judged for Proved {
    fn fresh(&self, image: &mut [u64], n: u64) -> Answer {
        taken_or_refused(unsafe { lq_fresh(image.as_mut_ptr(), image.len(), n) })
    }

    fn decrease(&self, image: &mut [u64], id: u64, key: u64) -> Answer {
        taken_or_refused(unsafe { lq_decrease(image.as_mut_ptr(), image.len(), id, key) })
    }

    fn delete(&self, image: &mut [u64], id: u64) -> Answer {
        taken_or_refused(unsafe { lq_delete(image.as_mut_ptr(), image.len(), id) })
    }

    fn judge(&self, image: &[u64]) -> u64 {
        unsafe { lq_judge(image.as_ptr(), image.len()) }
    }

    #[cfg(not(feature = "proved_min"))]
    fn delete_min(&self, _image: &mut [u64]) -> Option<Answer> {
        None
    }

    #[cfg(feature = "proved_min")]
    fn delete_min(&self, image: &mut [u64]) -> Option<Answer> {
        let (mut id, mut key, mut reach) = (0, 0, 0);
        let number = unsafe {
            lq_delete_min(
                image.as_mut_ptr(),
                image.len(),
                &mut id,
                &mut key,
                &mut reach,
            )
        };
        Some(match number {
            0 => Answer::Min { id, key, reach },
            1 => Answer::Empty { reach },
            _ => Answer::Refused(number),
        })
    }

    #[cfg(feature = "proved_sheet")]
    fn accept(&self, sheet: &[u8]) -> Result<Reading, u64> {
        let (mut n, mut h, mut source) = (0, 0, 0);
        let number = unsafe { lq_accept(sheet.as_ptr(), sheet.len(), &mut n, &mut h, &mut source) };
        taken_or(number, [n, h, source])
    }

    /// The records go in by both calls, which must answer the same and leave
    /// the same bytes.
    #[cfg(feature = "proved_writer")]
    fn write(
        &self,
        target: &mut [u8],
        n: u64,
        source: u64,
        records: &[Record],
    ) -> Result<u64, u64> {
        let mut again = guarded(target);
        let inside = GUARD..GUARD + target.len();
        let written = on_usual_stack(records, || write_slices(target, n, source, records));
        let by_edges = on_usual_stack(records, || {
            write_edges(&mut again[inside], n, source, records)
        });
        assert_eq!(
            by_edges, written,
            "lq_write_edges does not answer as lq_write"
        );
        assert!(
            again == guarded(target),
            "lq_write_edges does not leave the bytes that lq_write does"
        );
        written
    }

    #[cfg(feature = "proved_run")]
    fn distances(
        &self,
        sheet: &[u8],
        distances: &mut [u64],
        image: &mut [u64],
    ) -> Result<u64, u64> {
        let mut reached = 0;
        let number = unsafe {
            lq_distances(
                sheet.as_ptr(),
                sheet.len(),
                distances.as_mut_ptr(),
                distances.len(),
                image.as_mut_ptr(),
                image.len(),
                &mut reached,
            )
        };
        taken_or(number, reached)
    }
}

#[cfg(any(
    feature = "proved_sheet",
    feature = "proved_writer",
    feature = "proved_run"
))]
fn taken_or<T>(number: u64, answer: T) -> Result<T, u64> {
    match number {
        0 => Ok(answer),
        _ => Err(number),
    }
}

/// A record as the library lays it out.
#[cfg(feature = "proved_writer")]
#[repr(C)]
#[derive(Clone, PartialEq, Debug)]
struct Edge {
    one: u64,
    other: u64,
    weight: u64,
}

/// The bytes with guards around them.
#[cfg(feature = "proved_writer")]
fn guarded(bytes: &[u8]) -> Vec<u8> {
    let guard = [0x67; GUARD];
    [&guard, bytes, &guard].concat()
}

/// The longest list that is taken must do with the usual 8 MiB of stack; it gets
/// just that, on a thread of its own.
#[cfg(feature = "proved_writer")]
fn on_usual_stack<T: Send>(records: &[Record], call: impl FnOnce() -> T + Send) -> T {
    if records.len() != MOST_RECORDS {
        return call();
    }
    let thread = thread::Builder::new().stack_size(8 << 20);
    thread::scope(|scope| thread.spawn_scoped(scope, call).unwrap().join().unwrap())
}

/// By three slices, which must come back unchanged.
#[cfg(feature = "proved_writer")]
fn write_slices(target: &mut [u8], n: u64, source: u64, records: &[Record]) -> Result<u64, u64> {
    let parts = |part: fn(&Record) -> u64| records.iter().map(part).collect::<Vec<u64>>();
    let slices = || {
        [
            parts(|record| record.one),
            parts(|record| record.other),
            parts(|record| record.weight),
        ]
    };
    let [ones, others, weights] = &mut slices();
    let mut written = 0;
    let number = unsafe {
        lq_write(
            target.as_mut_ptr(),
            target.len(),
            n,
            source,
            ones.as_mut_ptr(),
            ones.len(),
            others.as_mut_ptr(),
            others.len(),
            weights.as_mut_ptr(),
            weights.len(),
            &mut written,
        )
    };
    assert_eq!(
        [ones, others, weights],
        slices().each_mut(),
        "lq_write changed a lent slice"
    );
    taken_or(number, written)
}

/// By one slice of records, which must come back unchanged.
#[cfg(feature = "proved_writer")]
fn write_edges(target: &mut [u8], n: u64, source: u64, records: &[Record]) -> Result<u64, u64> {
    let edge = |record: &Record| Edge {
        one: record.one,
        other: record.other,
        weight: record.weight,
    };
    let mut edges: Vec<Edge> = records.iter().map(edge).collect();
    let before = edges.clone();
    let mut written = 0;
    let number = unsafe {
        lq_write_edges(
            target.as_mut_ptr(),
            target.len(),
            n,
            source,
            edges.as_mut_ptr(),
            edges.len(),
            &mut written,
        )
    };
    assert_eq!(edges, before, "lq_write_edges changed the lent records");
    taken_or(number, written)
}

/// The proved inner calls on a sound image, for the bench.
#[cfg(feature = "proved_inner")]
pub struct Inner<'a>(pub &'a mut [u64]);

#[cfg(feature = "proved_inner")]
impl Queue for Inner<'_> {
    fn decrease(&mut self, id: u64, key: u64) {
        unsafe { lq_inner_decrease(self.0.as_mut_ptr(), self.0.len(), id, key) }
    }

    fn delete(&mut self, id: u64) {
        unsafe { lq_inner_delete(self.0.as_mut_ptr(), self.0.len(), id) }
    }

    fn delete_min(&mut self) -> Option<(u64, u64)> {
        let (mut id, mut key, mut reach) = (0, 0, 0);
        let (image, words) = (self.0.as_mut_ptr(), self.0.len());
        let number = unsafe { lq_inner_delete_min(image, words, &mut id, &mut key, &mut reach) };
        (number == 0).then_some((id, key))
    }
}
