//! The C library, as `bump.h` and `bump_cache.h` declare it, but what the latter makes itself of other calls. Its enums
//! are numbers of 32 bits.
use std::ffi::c_void;

#[repr(C)]
#[derive(Clone, Copy)]
pub struct Handle {
    pub p: *mut c_void,
}
pub const EMPTY: Handle = Handle { p: std::ptr::null_mut() };

#[repr(C)]
pub struct Config {
    pub store: u64,
    pub workers: u32,
    pub capacity: u32,
    pub refs_limit: u32,
    pub first_generation: u32,
    pub holds: u32,
    pub words: u32,
}
#[repr(C)]
pub struct Touched {
    pub answer: u32,
    pub number: u64,
}
#[repr(C)]
pub struct Labelled {
    pub answer: u32,
    pub label: u64,
}
#[repr(C)]
pub struct Marks {
    pub answer: u32,
    pub refs: u32,
    pub segment: u32,
    pub linked: bool,
    pub fetched: bool,
    pub active: bool,
}
#[repr(C)]
pub struct Timed {
    pub answer: u32,
    pub time: u64,
}
#[repr(C)]
pub struct Words {
    pub answer: u32,
    pub count: u32,
    pub words: [u64; super::MOST_WORDS],
}
#[repr(C)]
pub struct WholeHit {
    pub got: u32,
    pub touch: u32,
    pub label: u64,
}
#[repr(C)]
pub struct Linked {
    pub answer: u32,
    pub chunk: u32,
    pub generation: u32,
}
#[repr(C)]
pub struct Unlinked {
    pub answer: u32,
    pub label: u64,
}
#[repr(C)]
pub struct Freed {
    pub count: u32,
    pub chunks: [u32; super::MOST_CHUNKS],
}
#[repr(C)]
pub struct Pulled {
    pub answer: u32,
    pub chunk: u32,
    pub generation: u32,
    pub label: u64,
}
#[repr(C)]
pub struct Limits {
    pub hot: u32,
    pub warm: u32,
}
#[repr(C)]
pub struct Seen {
    pub answer: u32,
    pub chunk: u32,
    pub generation: u32,
    pub refs: u32,
    pub segment: u32,
    pub time: u64,
    pub label: u64,
    pub linked: bool,
    pub fetched: bool,
    pub active: bool,
}
#[repr(C)]
pub struct Walked {
    pub answer: u32,
    pub count: u32,
    pub next: u32,
    pub chunks: [u32; super::MOST_CHUNKS],
}
#[repr(C)]
pub struct Ran {
    pub answer: u32,
    pub applied: u32,
}
#[repr(C)]
pub struct RanTold {
    pub answer: u32,
    pub applied: u32,
    pub freed: u32,
    pub chunks: [u32; super::MOST_CHUNKS],
}
#[repr(C)]
pub struct Rested {
    pub answer: u32,
    pub left: u64,
    pub counts: super::Counts,
    pub applied: u64,
}
#[repr(C)]
pub struct CacheConfig {
    pub seed_first: u64,
    pub seed_second: u64,
    pub temporary: u64,
    pub key_bytes: u32,
    pub value_bytes: u32,
    pub items: u32,
    pub spare: u32,
    pub hot: u32,
    pub warm: u32,
    pub hot_age: u32,
    pub warm_age: u32,
    pub parts: u32,
    pub readers: u32,
    pub ring: u32,
    pub looks: u32,
    pub holds: u32,
}
#[repr(C)]
pub struct CacheGot {
    pub answer: u32,
    pub flags: u32,
    pub length: u64,
}
#[repr(C)]
pub struct CacheWords {
    pub words: [u64; super::MOST_WORDS],
}
#[repr(C)]
pub struct CacheGotWords {
    pub got: CacheGot,
    pub words: [u64; super::MOST_WORDS],
}
#[repr(C)]
pub struct CachePut {
    pub answer: u32,
    pub evicted: bool,
}
#[repr(C)]
pub struct CacheLooked {
    pub answer: u32,
    pub flags: u32,
    pub length: u64,
    pub expires: u64,
}
#[repr(C)]
pub struct CacheEntry {
    pub found: bool,
    pub flags: u32,
    pub key_length: u64,
    pub value_length: u64,
    pub expires: u64,
}

extern "C" {
    pub fn bump_version() -> u32;
    pub fn bump_open(out: *mut Handle, config: *const Config, classes: *const super::ClassConfig, n: usize) -> u32;
    pub fn bump_take_worker(store: *mut Handle, worker: u32, part: *mut Handle) -> bool;
    pub fn bump_take_book(store: *mut Handle, number: u32, part: *mut Handle) -> bool;
    pub fn bump_take_lane(store: *mut Handle, worker: u32, part: *mut Handle) -> bool;
    pub fn bump_get(worker: *mut Handle, hold: u32, chunk: u32, generation: u32) -> u32;
    pub fn bump_touch(worker: *mut Handle, hold: u32, now: u64) -> Touched;
    pub fn bump_label(worker: *mut Handle, hold: u32) -> Labelled;
    pub fn bump_marks(worker: *mut Handle, hold: u32) -> Marks;
    pub fn bump_marked(worker: *mut Handle, hold: u32) -> bool;
    pub fn bump_time(worker: *mut Handle, hold: u32) -> Timed;
    pub fn bump_words(worker: *mut Handle, hold: u32, first: u32) -> Words;
    pub fn bump_release(worker: *mut Handle, hold: u32) -> bool;
    pub fn bump_hit(worker: *mut Handle, chunk: u32, generation: u32, now: u64) -> WholeHit;
    pub fn bump_worker_counts(worker: *mut Handle) -> super::Counts;
    pub fn bump_worker_close(lane: *mut Handle, worker: Handle, back: *mut Handle) -> u32;
    pub fn bump_link(book: *mut Handle, label: u64, now: u64) -> Linked;
    pub fn bump_link_temp(book: *mut Handle, label: u64, now: u64) -> Linked;
    pub fn bump_link_words(book: *mut Handle, label: u64, words: *const u64, count: usize, now: u64) -> Linked;
    pub fn bump_link_temp_words(book: *mut Handle, label: u64, words: *const u64, count: usize, now: u64)
        -> Linked;
    pub fn bump_unlink(book: *mut Handle, chunk: u32, generation: u32) -> Unlinked;
    pub fn bump_pull(book: *mut Handle, tail: u32, limit: u32) -> Pulled;
    pub fn bump_sweep(book: *mut Handle) -> u32;
    pub fn bump_sweep_told(book: *mut Handle) -> Freed;
    pub fn bump_size(book: *mut Handle, place: u32) -> u32;
    pub fn bump_see(book: *mut Handle, chunk: u32) -> Seen;
    pub fn bump_look(book: *mut Handle, place: u32, behind: u32) -> Seen;
    pub fn bump_walk(book: *mut Handle, place: u32, from: u32) -> Walked;
    pub fn bump_moves(book: *mut Handle, worker: u32) -> u64;
    pub fn bump_limits(book: *mut Handle) -> Limits;
    pub fn bump_lane_class(lane: *mut Handle) -> u32;
    pub fn bump_apply_run(book: *mut Handle, lane: *mut Handle, now: u64, limit: u32) -> Ran;
    pub fn bump_apply_run_told(book: *mut Handle, lane: *mut Handle, now: u64, limit: u32) -> RanTold;
    pub fn bump_rest(lane: *mut Handle) -> Rested;
    pub fn bump_close(store: Handle);
    pub fn bump_worker_free(worker: Handle);
    pub fn bump_book_free(book: Handle);
    pub fn bump_lane_free(lane: Handle);
}

/// A call that takes a part out, or a reader.
pub type CacheTakes = unsafe extern "C" fn(*mut Handle, u32, *mut Handle) -> bool;
/// A call that tells words of what was found.
pub type CacheTells = unsafe extern "C" fn(*mut Handle, u32) -> CacheWords;
/// A call that puts.
pub type CachePuts = unsafe extern "C" fn(*mut Handle, *const u8, usize, *const u8, usize, u32, u64, u64) -> CachePut;

extern "C" {
    pub fn bump_cache_defaults(items: u32, readers: u32, key_bytes: u32, value_bytes: u32) -> CacheConfig;
    pub fn bump_cache_open(out: *mut Handle, config: *const CacheConfig) -> u32;
    pub fn bump_cache_take_part(cache: *mut Handle, number: u32, part: *mut Handle) -> bool;
    pub fn bump_cache_take_reader(cache: *mut Handle, number: u32, part: *mut Handle) -> bool;
    pub fn bump_cache_bytes_taken(config: *const CacheConfig) -> u64;
    pub fn bump_cache_part_of(config: *const CacheConfig, key: *const u8, key_length: usize) -> u32;
    pub fn bump_cache_get_words(reader: *mut Handle, key: *const u8, key_length: usize, now: u64) -> CacheGotWords;
    pub fn bump_cache_hold(reader: *mut Handle, hold: u32, key: *const u8, key_length: usize, now: u64) -> CacheGot;
    pub fn bump_cache_read_words(reader: *mut Handle, hold: u32, from: u32) -> CacheWords;
    pub fn bump_cache_release(reader: *mut Handle, hold: u32) -> bool;
    pub fn bump_cache_reader_counts(reader: *mut Handle) -> super::cache::Counts;
    pub fn bump_cache_put(
        part: *mut Handle,
        key: *const u8,
        key_length: usize,
        value: *const u8,
        value_length: usize,
        flags: u32,
        expires: u64,
        now: u64,
    ) -> CachePut;
    pub fn bump_cache_add(
        part: *mut Handle,
        key: *const u8,
        key_length: usize,
        value: *const u8,
        value_length: usize,
        flags: u32,
        expires: u64,
        now: u64,
    ) -> CachePut;
    pub fn bump_cache_replace(
        part: *mut Handle,
        key: *const u8,
        key_length: usize,
        value: *const u8,
        value_length: usize,
        flags: u32,
        expires: u64,
        now: u64,
    ) -> CachePut;
    pub fn bump_cache_update(
        part: *mut Handle,
        key: *const u8,
        key_length: usize,
        value: *const u8,
        value_length: usize,
        now: u64,
    ) -> CachePut;
    pub fn bump_cache_touch(part: *mut Handle, key: *const u8, key_length: usize, expires: u64, now: u64) -> CachePut;
    pub fn bump_cache_find(part: *mut Handle, key: *const u8, key_length: usize, now: u64) -> CacheLooked;
    pub fn bump_cache_found_words(part: *mut Handle, from: u32) -> CacheWords;
    pub fn bump_cache_remove(part: *mut Handle, key: *const u8, key_length: usize, now: u64) -> bool;
    pub fn bump_cache_tend(part: *mut Handle, now: u64);
    pub fn bump_cache_clear(part: *mut Handle);
    pub fn bump_cache_chunks(part: *mut Handle) -> u32;
    pub fn bump_cache_entry(part: *mut Handle, number: u32, now: u64) -> CacheEntry;
    pub fn bump_cache_entry_key(part: *mut Handle, from: u32) -> CacheWords;
    pub fn bump_cache_entry_value(part: *mut Handle, from: u32) -> CacheWords;
    pub fn bump_cache_stats(part: *mut Handle) -> super::cache::Stats;
    pub fn bump_cache_close(cache: Handle);
    pub fn bump_cache_part_free(part: Handle);
    pub fn bump_cache_reader_free(reader: Handle);
}
