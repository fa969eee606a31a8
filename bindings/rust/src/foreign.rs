//! The C functions of the proved library, as `include/level_queue.h` has them.
//! A slice is a pointer and a count; 0 is no refusal.

use crate::sheet::Edge;

extern "C" {
    pub fn lq_fresh(image: *mut u64, words: usize, n: u64) -> u64;
    pub fn lq_judge(image: *const u64, words: usize) -> u64;
    pub fn lq_inner_decrease(image: *mut u64, words: usize, id: u64, key: u64);
    pub fn lq_inner_delete(image: *mut u64, words: usize, id: u64);
    pub fn lq_inner_delete_min(
        image: *mut u64,
        words: usize,
        id: *mut u64,
        key: *mut u64,
        reach: *mut u64,
    ) -> u64;
    pub fn lq_accept(
        sheet: *const u8,
        bytes: usize,
        n: *mut u64,
        h: *mut u64,
        source: *mut u64,
    ) -> u64;
    pub fn lq_write_edges(
        target: *mut u8,
        bytes: usize,
        n: u64,
        source: u64,
        edges: *const Edge,
        count: usize,
        length: *mut u64,
    ) -> u64;
    pub fn lq_distances(
        sheet: *const u8,
        bytes: usize,
        distances: *mut u64,
        distance_words: usize,
        image: *mut u64,
        image_words: usize,
        reached: *mut u64,
    ) -> u64;
}
