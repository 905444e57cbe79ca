//! A store as its workers use it: they get, touch and release items, and queue bumps into rings. A module of reads.rs.

use crate::rings::{Receiver, Sender, ring};
use crate::words::{ACTIVE, COLD, Chunk, FETCHED, ItemId, LINKED, REFS, SEGMENT, generation_of};
use std::sync::atomic::Ordering::SeqCst;

const EXCHANGES: u32 = 8;
const MOST_ATTEMPTS: u64 = 4_611_686_018_427_387_903;

#[derive(Clone, Copy)]
pub enum GetRefusal {
    NoSuchChunk,
    Stale,
    RefsFull,
    Busy,
}

#[derive(Clone, Copy)]
pub enum Dropped {
    Full,
    Busy,
    RefsFull,
}

/// What a touch came to. The loop that is timed looks neither at a bump's number nor at why it was dropped.
#[allow(dead_code)]
#[derive(Clone, Copy)]
pub enum Touch {
    First,
    Already,
    Marked,
    Queued(u64),
    Dropped(Dropped),
    Exhausted,
}

#[derive(Clone, Copy, Default)]
pub struct Accounts {
    pub attempted: u64,
    pub accepted: u64,
    pub full: u64,
    pub busy: u64,
    pub refs: u64,
}

pub struct Store<const WORDS: usize = 0> {
    chunks: Box<[Chunk<WORDS>]>,
    refs_limit: u64,
}

pub struct Worker {
    sender: Sender,
    accounts: Accounts,
}

/// A reference to an item, to be released.
#[must_use]
pub struct Hold {
    life: ItemId,
}

/// A look at an item without a reference. Its last load tells whether the words between were the item's.
pub struct Glance {
    life: ItemId,
}

impl<const WORDS: usize> Store<WORDS> {
    /// A store all of whose chunks are linked, in HOT or in COLD, with a worker for each thread and the other ends of their rings.
    pub fn new(chunks: u32, cold: bool, workers: u32, capacity: u32) -> (Self, Vec<Worker>, Vec<Receiver>) {
        let head = 1 << 32 | if cold { COLD } else { 0 } | LINKED | 1;
        let chunks = (0..chunks).map(|chunk| Chunk::new(head, chunk as u64)).collect();
        let (workers, receivers) = (0..workers)
            .map(|_| {
                let (sender, receiver) = ring(capacity);
                (Worker { sender, accounts: Accounts::default() }, receiver)
            })
            .unzip();
        (Store { chunks, refs_limit: REFS }, workers, receivers)
    }

    fn chunk(&self, life: ItemId) -> &Chunk<WORDS> {
        &self.chunks[life.chunk as usize]
    }

    /// What is left of an item's head after its bump was applied and it was pulled back to COLD.
    pub fn apply_and_pull(&self, life: ItemId) {
        let head = &self.chunk(life).head;
        head.fetch_and(!ACTIVE, SeqCst);
        head.fetch_sub(1, SeqCst);
    }

    /// The bump's reference, which someone takes who holds the item.
    fn ride(&self, life: ItemId) -> Result<(), Dropped> {
        let head = &self.chunk(life).head;
        let mut word = head.load(SeqCst);
        for _ in 0..EXCHANGES {
            if word & REFS >= self.refs_limit {
                return Err(Dropped::RefsFull);
            }
            match head.compare_exchange(word, word + 1, SeqCst, SeqCst) {
                Ok(_) => return Ok(()),
                Err(found) => word = found,
            }
        }
        Err(Dropped::Busy)
    }
}

impl Worker {
    #[inline]
    pub fn get<const WORDS: usize>(&mut self, store: &Store<WORDS>, id: ItemId) -> Result<Hold, GetRefusal> {
        let Some(chunk) = store.chunks.get(id.chunk as usize) else {
            return Err(GetRefusal::NoSuchChunk);
        };
        let mut word = chunk.head.load(SeqCst);
        for _ in 0..EXCHANGES {
            if word & LINKED == 0 || generation_of(word) != id.generation {
                return Err(GetRefusal::Stale);
            }
            if word & REFS >= store.refs_limit {
                return Err(GetRefusal::RefsFull);
            }
            match chunk.head.compare_exchange(word, word + 1, SeqCst, SeqCst) {
                Ok(_) => return Ok(Hold { life: id }),
                Err(found) => word = found,
            }
        }
        Err(GetRefusal::Busy)
    }

    /// A hold of whatever item is linked in the chunk, and the head word by which it was taken.
    #[inline]
    pub fn get_any<const WORDS: usize>(&mut self, store: &Store<WORDS>, number: u32) -> Result<(Hold, u64), GetRefusal> {
        let Some(chunk) = store.chunks.get(number as usize) else {
            return Err(GetRefusal::NoSuchChunk);
        };
        let mut word = chunk.head.load(SeqCst);
        for _ in 0..EXCHANGES {
            if word & LINKED == 0 {
                return Err(GetRefusal::Stale);
            }
            if word & REFS >= store.refs_limit {
                return Err(GetRefusal::RefsFull);
            }
            match chunk.head.compare_exchange(word, word + 1, SeqCst, SeqCst) {
                Ok(_) => return Ok((Hold { life: ItemId { chunk: number, generation: generation_of(word) } }, word)),
                Err(found) => word = found,
            }
        }
        Err(GetRefusal::Busy)
    }

    /// A glance at whatever item is linked in the chunk, and the head word that it found.
    #[inline]
    pub fn glance<const WORDS: usize>(&mut self, store: &Store<WORDS>, number: u32) -> Option<(Glance, u64)> {
        let word = store.chunks.get(number as usize)?.head.load(SeqCst);
        if word & LINKED == 0 {
            return None;
        }
        Some((Glance { life: ItemId { chunk: number, generation: generation_of(word) } }, word))
    }

    #[inline]
    pub fn touch<const WORDS: usize>(&mut self, store: &Store<WORDS>, hold: &mut Hold, now: u64) -> Touch {
        if self.accounts.attempted >= MOST_ATTEMPTS {
            return Touch::Exhausted;
        }
        let chunk = store.chunk(hold.life);
        let found = chunk.head.fetch_or(FETCHED, SeqCst);
        if found & FETCHED == 0 {
            return Touch::First;
        }
        if found & ACTIVE != 0 {
            return Touch::Already;
        }
        let found = chunk.head.fetch_or(ACTIVE, SeqCst);
        if found & ACTIVE != 0 {
            return Touch::Already;
        }
        if found & SEGMENT != COLD {
            chunk.time.store(now, SeqCst);
            return Touch::Marked;
        }
        self.attempt(store, hold.life)
    }

    fn attempt<const WORDS: usize>(&mut self, store: &Store<WORDS>, life: ItemId) -> Touch {
        self.accounts.attempted += 1;
        match self.queue(store, life) {
            Ok(number) => {
                self.accounts.accepted += 1;
                Touch::Queued(number)
            }
            Err(dropped) => {
                store.chunk(life).head.fetch_and(!ACTIVE, SeqCst);
                match dropped {
                    Dropped::Full => self.accounts.full += 1,
                    Dropped::Busy => self.accounts.busy += 1,
                    Dropped::RefsFull => self.accounts.refs += 1,
                }
                Touch::Dropped(dropped)
            }
        }
    }

    fn queue<const WORDS: usize>(&mut self, store: &Store<WORDS>, life: ItemId) -> Result<u64, Dropped> {
        store.ride(life)?;
        self.sender.offer(life).ok_or_else(|| {
            store.chunk(life).head.fetch_sub(1, SeqCst);
            Dropped::Full
        })
    }

    pub fn counts(&self) -> Accounts {
        self.accounts
    }
}

impl Glance {
    #[inline]
    pub fn label<const WORDS: usize>(&self, store: &Store<WORDS>) -> u64 {
        store.chunk(self.life).label.load(SeqCst)
    }

    #[inline]
    pub fn word<const WORDS: usize>(&self, store: &Store<WORDS>, index: usize) -> u64 {
        store.chunk(self.life).further[index].load(SeqCst)
    }

    /// Whether its item is still the one that is linked, by one load.
    #[inline]
    pub fn end<const WORDS: usize>(self, store: &Store<WORDS>) -> bool {
        let word = store.chunk(self.life).head.load(SeqCst);
        word & LINKED != 0 && generation_of(word) == self.life.generation
    }
}

impl Hold {
    /// Whether the item has both marks, by one load.
    #[inline]
    pub fn is_marked<const WORDS: usize>(&mut self, store: &Store<WORDS>) -> bool {
        let word = store.chunk(self.life).head.load(SeqCst);
        word & (FETCHED | ACTIVE) == FETCHED | ACTIVE
    }

    #[inline]
    pub fn label<const WORDS: usize>(&mut self, store: &Store<WORDS>) -> u64 {
        store.chunk(self.life).label.load(SeqCst)
    }

    #[inline]
    pub fn word<const WORDS: usize>(&mut self, store: &Store<WORDS>, index: usize) -> u64 {
        store.chunk(self.life).further[index].load(SeqCst)
    }

    #[inline]
    pub fn release<const WORDS: usize>(self, store: &Store<WORDS>) {
        store.chunk(self.life).head.fetch_sub(1, SeqCst);
    }
}
