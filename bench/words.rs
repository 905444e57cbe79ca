//! The words of a chunk, and items. A module of reads.rs and of changes.rs. The fields of a head word stand where those of bump_word do.

use std::sync::atomic::AtomicU64;

const REFS_BITS: u32 = 20;
const SEGMENT_AT: u32 = REFS_BITS + 3;
pub const REFS: u64 = (1 << REFS_BITS) - 1;
pub const LINKED: u64 = 1 << REFS_BITS;
pub const FETCHED: u64 = LINKED << 1;
pub const ACTIVE: u64 = LINKED << 2;
pub const SEGMENT: u64 = 3 << SEGMENT_AT;
pub const WARM: u64 = 1 << SEGMENT_AT;
pub const COLD: u64 = 2 << SEGMENT_AT;

#[derive(Clone, Copy)]
pub struct ItemId {
    pub chunk: u32,
    pub generation: u32,
}

/// How many further words the chunks have where they have some: two, which are linked and read.
pub const FURTHER: usize = 2;

/// A chunk with so many further words.
pub struct Chunk<const WORDS: usize = 0> {
    pub head: AtomicU64,
    pub time: AtomicU64,
    pub label: AtomicU64,
    pub further: [AtomicU64; WORDS],
}

impl<const WORDS: usize> Chunk<WORDS> {
    /// Its words but the head are this number, or 0.
    pub fn new(head: u64, number: u64) -> Self {
        Chunk {
            head: AtomicU64::new(head),
            time: AtomicU64::new(0),
            label: AtomicU64::new(number),
            further: [(); WORDS].map(|_| AtomicU64::new(number)),
        }
    }
}

pub fn generation_of(word: u64) -> u32 {
    (word >> 32) as u32
}

/// The first lives of so many chunks from this one on, in an order that jumps.
pub fn lives(first: u32, items: u32) -> Vec<ItemId> {
    (0..items as u64)
        .map(|number| {
            let chunk = first + (number * 2_654_435_761 % items as u64) as u32;
            ItemId { chunk, generation: 1 }
        })
        .collect()
}
