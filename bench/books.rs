//! The calls of a `Book` of `bump_class`: index lists in safe Rust, over plain atomics. A module of changes.rs and of reads.rs, each of which makes some
//! of the calls. As in `bump_class`, whoever has the Book has the class's lock: none is taken here.

use crate::lists::Lists;
use crate::places::{Ended, Place, Tail};
use crate::words::{ACTIVE, COLD, Chunk, ItemId, LINKED, REFS, SEGMENT, WARM, generation_of};
use std::sync::Arc;
use std::sync::atomic::Ordering::SeqCst;

#[derive(Clone, Copy)]
enum Segment {
    Hot,
    Warm,
    Cold,
}

impl Segment {
    fn bits(self) -> u64 {
        match self {
            Segment::Hot => 0,
            Segment::Warm => WARM,
            Segment::Cold => COLD,
        }
    }

    fn place(self) -> Place {
        match self {
            Segment::Hot => Place::Hot,
            Segment::Warm => Place::Warm,
            Segment::Cold => Place::Cold,
        }
    }
}

/// What a pull did, and with which item. The loop that is timed doesn't look at the item.
#[allow(dead_code)]
#[derive(Clone, Copy)]
pub enum Pulled {
    Empty,
    Stay(ItemId),
    Warm(ItemId),
    Again(ItemId),
    Cold(ItemId),
    Freed(ItemId),
    Deferred(ItemId),
}

/// What applying a bump did to its item. The loop that is timed doesn't look at what became of the chunk.
#[allow(dead_code)]
#[derive(Clone, Copy)]
pub enum Applied {
    Moved,
    TimeOnly,
    Gone(Ended),
}

pub struct NoFreeChunk;

pub enum UnlinkRefusal {
    NoSuchChunk,
    NotLinked,
}

#[derive(Clone, Copy)]
pub struct Class {
    pub chunks: u32,
    pub hot: u32,
    pub warm: u32,
}

/// The lists of a class, and the words that it shares with the readers. Its chunks are numbered from `first` on.
pub struct Book<const WORDS: usize = 0> {
    chunks: Arc<[Chunk<WORDS>]>,
    lists: Lists<6>,
    first: u32,
    count: u32,
    hot_limit: u32,
    warm_limit: u32,
}

impl<const WORDS: usize> Book<WORDS> {
    pub fn new(chunks: Arc<[Chunk<WORDS>]>, first: u32, class: Class) -> Self {
        let Class { chunks: count, hot, warm } = class;
        Book { chunks, lists: Lists::new(count, Place::Unused), first, count, hot_limit: hot, warm_limit: warm }
    }

    pub fn chunk(&self, node: u32) -> &Chunk<WORDS> {
        &self.chunks[(self.first + node) as usize]
    }

    fn item(&self, node: u32, word: u64) -> ItemId {
        ItemId { chunk: self.first + node, generation: generation_of(word) }
    }

    pub fn link(&mut self, label: u64, now: u64) -> Result<ItemId, NoFreeChunk> {
        self.link_in(label, &[], now)
    }

    /// The same, and its further words are stored, which are at most as many as a chunk has.
    pub fn link_words(&mut self, label: u64, words: &[u64], now: u64) -> Result<ItemId, NoFreeChunk> {
        self.link_in(label, words, now)
    }

    #[inline(always)]
    fn link_in(&mut self, label: u64, words: &[u64], now: u64) -> Result<ItemId, NoFreeChunk> {
        let Some(node) = self.lists.front(Place::Unused) else {
            return Err(NoFreeChunk);
        };
        let chunk = self.chunk(node);
        for (place, &word) in chunk.further.iter().zip(words) {
            place.store(word, SeqCst);
        }
        chunk.label.store(label, SeqCst);
        chunk.time.store(now, SeqCst);
        let generation = generation_of(chunk.head.load(SeqCst)) + 1;
        chunk.head.store((generation as u64) << 32 | LINKED | 1, SeqCst);
        self.lists.to_front(node, Place::Hot);
        Ok(ItemId { chunk: self.first + node, generation })
    }

    pub fn unlink(&mut self, item: ItemId) -> Result<Ended, UnlinkRefusal> {
        let Some(node) = item.chunk.checked_sub(self.first).filter(|&node| node < self.count) else {
            return Err(UnlinkRefusal::NoSuchChunk);
        };
        let word = self.chunk(node).head.load(SeqCst);
        if word & LINKED == 0 || generation_of(word) != item.generation {
            return Err(UnlinkRefusal::NotLinked);
        }
        Ok(self.end_life(node).1)
    }

    /// Answers the last word of the life, and what its end came to.
    fn end_life(&mut self, node: u32) -> (u64, Ended) {
        let last = self.chunk(node).head.fetch_sub(LINKED + 1, SeqCst);
        self.lists.to_front(node, Place::Dying);
        let ended = if self.free_unheld(node) { Ended::Freed } else { Ended::Deferred };
        (last, ended)
    }

    /// Frees a chunk of DYING where nobody holds it, and answers whether it did.
    fn free_unheld(&mut self, node: u32) -> bool {
        let word = self.chunk(node).head.load(SeqCst);
        if word & REFS != 0 {
            return false;
        }
        let place = if generation_of(word) == u32::MAX { Place::Retired } else { Place::Unused };
        self.lists.to_front(node, place);
        true
    }

    /// Looks at each chunk of DYING once, and answers how many it freed.
    pub fn sweep(&mut self) -> u32 {
        let mut freed = 0;
        let mut next = self.lists.front(Place::Dying);
        for _ in 0..self.lists.len(Place::Dying) {
            let Some(node) = next else { break };
            next = self.lists.after(node);
            if self.free_unheld(node) {
                freed += 1;
            }
        }
        freed
    }

    pub fn has(&self, chunk: u32) -> bool {
        chunk.checked_sub(self.first).is_some_and(|node| node < self.count)
    }

    pub fn size(&self, place: Place) -> u32 {
        self.lists.len(place)
    }

    /// Applies a bump of this class: its item goes to the front of WARM where it stands in COLD and is ACTIVE. The bump's reference is given back last.
    pub fn apply(&mut self, life: ItemId, now: u64) -> Applied {
        let node = life.chunk - self.first;
        let chunk = self.chunk(node);
        let word = chunk.head.load(SeqCst);
        if word & LINKED == 0 {
            chunk.head.fetch_sub(1, SeqCst);
            return Applied::Gone(if self.free_unheld(node) { Ended::Freed } else { Ended::Deferred });
        }
        chunk.time.store(now, SeqCst);
        let moves = word & SEGMENT == COLD && chunk.head.fetch_and(!ACTIVE, SeqCst) & ACTIVE != 0;
        if moves {
            self.shift(node, Segment::Cold, Segment::Warm);
        }
        self.chunk(node).head.fetch_sub(1, SeqCst);
        if moves { Applied::Moved } else { Applied::TimeOnly }
    }

    fn shift(&mut self, node: u32, from: Segment, to: Segment) {
        self.chunk(node).head.fetch_xor(from.bits() ^ to.bits(), SeqCst);
        self.lists.to_front(node, to.place());
    }

    fn evict(&mut self, node: u32) -> Pulled {
        let (last, ended) = self.end_life(node);
        let item = self.item(node, last);
        match ended {
            Ended::Freed => Pulled::Freed(item),
            Ended::Deferred => Pulled::Deferred(item),
        }
    }

    pub fn pull(&mut self, tail: Tail) -> Pulled {
        let segment = match tail {
            Tail::Hot => Segment::Hot,
            Tail::Warm => Segment::Warm,
            Tail::Cold | Tail::Evict => Segment::Cold,
        };
        let Some(node) = self.lists.back(segment.place()) else {
            return Pulled::Empty;
        };
        if let Tail::Evict = tail {
            return self.evict(node);
        }
        let over = match tail {
            Tail::Hot => self.lists.len(Place::Hot) > self.hot_limit,
            Tail::Warm => self.lists.len(Place::Warm) > self.warm_limit,
            Tail::Cold | Tail::Evict => false,
        };
        let found = self.chunk(node).head.fetch_and(!ACTIVE, SeqCst);
        let item = self.item(node, found);
        let active = found & ACTIVE != 0;
        match tail {
            Tail::Hot | Tail::Cold if active => {
                self.shift(node, segment, Segment::Warm);
                Pulled::Warm(item)
            }
            Tail::Warm if active => {
                self.shift(node, segment, Segment::Warm);
                Pulled::Again(item)
            }
            Tail::Hot | Tail::Warm if over => {
                self.shift(node, segment, Segment::Cold);
                Pulled::Cold(item)
            }
            _ => Pulled::Stay(item),
        }
    }
}
