//! The functions of `libbtreap.a` as `include/btreap.h` declares them.

/// The reply of an insert or a delete.
#[repr(C)]
#[derive(Clone, Copy, Debug, PartialEq, Eq)]
pub struct RankedReply {
    pub refusal: u64,
    pub rank: u64,
}

/// The reply of a lookup.
#[repr(C)]
#[derive(Clone, Copy, Debug, PartialEq, Eq)]
pub struct FoundReply {
    pub refusal: u64,
    pub held: u64,
    pub rank: u64,
    pub count: u64,
    pub leader: u64,
    pub blocks: u64,
    pub length: u64,
    pub correction: i64,
}

/// The reply of a batch, a range, a writing, a listing or pages.
#[repr(C)]
#[derive(Clone, Copy, Debug, PartialEq, Eq)]
pub struct SizedReply {
    pub refusal: u64,
    pub size: u64,
}

/// The reply of a step and the place after it.
#[repr(C)]
#[derive(Clone, Copy, Debug, PartialEq, Eq)]
pub struct SteppedReply {
    pub refusal: u64,
    pub found: u64,
    pub key: u64,
    pub next: u64,
    pub high: u64,
    pub done: u64,
}

/// The reply of `btreap_points`.
#[repr(C)]
#[derive(Clone, Copy, Debug, PartialEq, Eq)]
pub struct PointedReply {
    pub refusal: u64,
    pub measured: u64,
    pub half_points: u64,
    pub rest: i64,
}

/// A line of a batch: the key to look up, and the places for what is said of it.
#[repr(C)]
#[derive(Clone, Copy, Debug, PartialEq, Eq)]
pub struct Question {
    pub key: u64,
    /// 1 for a held key, 0 for an absent one.
    pub held: u64,
    /// The rank of a held key, 0 for an absent one.
    pub rank: u64,
}

extern "C" {
    pub fn btreap_set_up(table: *mut u64, words: usize, order: u64, salt: u64) -> u64;
    pub fn btreap_build(
        table: *mut u64,
        words: usize,
        order: u64,
        salt: u64,
        keys: *const u64,
        n: usize,
        lengths: *const u64,
        lengths_n: usize,
        corrections: *const i32,
        corrections_n: usize,
    ) -> u64;
    pub fn btreap_load(table: *mut u64, words: usize, order: u64, seed: u64, count: u16) -> u64;
    pub fn btreap_insert(table: *mut u64, words: usize, key: u64, length: u64, correction: i32) -> RankedReply;
    pub fn btreap_delete(table: *mut u64, words: usize, key: u64) -> RankedReply;
    pub fn btreap_lookup(table: *const u64, words: usize, key: u64) -> FoundReply;
    pub fn btreap_lookup_batch(table: *const u64, words: usize, questions: *mut Question, n: usize) -> SizedReply;
    pub fn btreap_range(table: *const u64, words: usize, low: u64, high: u64, out: *mut u64, out_words: usize) -> SizedReply;
    pub fn btreap_step(table: *const u64, words: usize, next: u64, high: u64, done: u64) -> SteppedReply;
    pub fn btreap_write(table: *const u64, words: usize, out: *mut u8, out_bytes: usize) -> SizedReply;
    pub fn btreap_read(table: *mut u64, words: usize, image: *const u8, bytes: usize) -> u64;
    pub fn btreap_list(image: *const u8, bytes: usize, out: *mut u8, out_bytes: usize) -> SizedReply;
    pub fn btreap_pages(table: *const u64, words: usize, out: *mut u8, out_bytes: usize) -> SizedReply;
    pub fn btreap_points(length: u64, correction: i32) -> PointedReply;
}
