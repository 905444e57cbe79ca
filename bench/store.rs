//! The store that a trace is run on: chunks, the lists of the classes, the workers' rings. A module of model.rs.

use crate::lists::Lists;
use crate::places::{Ended, Place, Tail};
use std::collections::VecDeque;

#[derive(Clone, Copy, PartialEq, Eq)]
pub struct ItemId {
    pub chunk: u32,
    pub generation: u32,
}

/// A chunk's words.
#[derive(Clone, Copy)]
pub struct Chunk {
    pub generation: u32,
    pub refs: u32,
    linked: bool,
    pub fetched: bool,
    pub active: bool,

    /// HOT, WARM or COLD: the last one, where it isn't linked any more.
    segment: Place,
    class: u8,
    pub time: u64,
    pub label: u64,
}

impl Chunk {
    fn is_life(&self, id: ItemId) -> bool {
        self.linked && self.generation == id.generation
    }
}

pub struct Class {
    pub first: u32,
    pub lists: Lists<6>,
    hot_limit: u32,
    warm_limit: u32,
}

#[derive(Default)]
pub struct Accounts {
    pub attempted: u64,
    pub accepted: u64,
    pub full: u64,
    pub refs: u64,
    pub applied: u64,
}

pub struct Worker {
    ring: VecDeque<ItemId>,
    pub accounts: Accounts,
}

pub enum Take {
    Held,
    Miss,
    Refs,
}

pub enum Touch {
    First,
    Already,
    Marked,
    Queued(u64),
    DroppedFull,
    DroppedRefs,
}

pub enum Pulled {
    Empty,
    Stay(ItemId),
    Warm(ItemId),
    Again(ItemId),
    Cold(ItemId),
    Ended(ItemId, Ended),
}

pub enum Applied {
    Moved,
    TimeOnly,
    Gone(Ended),
}

pub struct Store {
    pub chunks: Vec<Chunk>,
    pub classes: Vec<Class>,
    pub workers: Vec<Worker>,
    capacity: usize,
    refs_limit: u32,
    generation: u32,
}

impl Store {
    /// It has no class yet.
    pub fn new(workers: u32, capacity: u32, refs_limit: u32, generation: u32) -> Option<Store> {
        let fits = (1..=64).contains(&workers) && (1..=65_536).contains(&capacity) && (2..=1_048_575).contains(&refs_limit) && generation > 0;
        let worker = |_| Worker { ring: VecDeque::new(), accounts: Accounts::default() };
        fits.then(|| Store {
            chunks: Vec::new(),
            classes: Vec::new(),
            workers: (0..workers).map(worker).collect(),
            capacity: capacity as usize,
            refs_limit,
            generation: generation - 1,
        })
    }

    pub fn add_class(&mut self, chunks: u32, hot_limit: u32, warm_limit: u32) -> Option<()> {
        let (first, class) = (self.chunks.len() as u32, self.classes.len() as u8);
        if class >= 16 || chunks == 0 || chunks > 1_000_000 - first {
            return None;
        }
        let fresh = Chunk {
            generation: self.generation,
            refs: 0,
            linked: false,
            fetched: false,
            active: false,
            segment: Place::Hot,
            class,
            time: 0,
            label: 0,
        };
        self.chunks.resize((first + chunks) as usize, fresh);
        self.classes.push(Class { first, lists: Lists::new(chunks, Place::Unused), hot_limit, warm_limit });
        Some(())
    }

    pub fn id(&self, chunk: u32) -> ItemId {
        ItemId { chunk, generation: self.chunks[chunk as usize].generation }
    }

    fn to_front(&mut self, chunk: u32, place: Place) {
        let class = &mut self.classes[self.chunks[chunk as usize].class as usize];
        class.lists.to_front(chunk - class.first, place);
    }

    fn to_segment(&mut self, chunk: u32, segment: Place) {
        self.chunks[chunk as usize].segment = segment;
        self.to_front(chunk, segment);
    }

    pub fn link(&mut self, class: usize, label: u64, now: u64) -> Option<ItemId> {
        let class = &self.classes[class];
        let chunk = class.first + class.lists.front(Place::Unused)?;
        let words = &mut self.chunks[chunk as usize];
        *words = Chunk { generation: words.generation + 1, refs: 1, linked: true, fetched: false, active: false, time: now, label, ..*words };
        self.to_segment(chunk, Place::Hot);
        Some(self.id(chunk))
    }

    pub fn take(&mut self, id: ItemId) -> Take {
        let words = &mut self.chunks[id.chunk as usize];
        if !words.is_life(id) {
            return Take::Miss;
        }
        if words.refs >= self.refs_limit {
            return Take::Refs;
        }
        words.refs += 1;
        Take::Held
    }

    pub fn give_back(&mut self, id: ItemId) {
        self.chunks[id.chunk as usize].refs -= 1;
    }

    /// A hit of a held item.
    pub fn touch(&mut self, worker: usize, id: ItemId, now: u64) -> Touch {
        let words = &mut self.chunks[id.chunk as usize];
        if !words.fetched {
            words.fetched = true;
            return Touch::First;
        }
        if words.active {
            return Touch::Already;
        }
        words.active = true;
        if words.segment != Place::Cold {
            words.time = now;
            return Touch::Marked;
        }
        self.attempt(worker, id)
    }

    fn attempt(&mut self, worker: usize, id: ItemId) -> Touch {
        let words = &mut self.chunks[id.chunk as usize];
        let Worker { ring, accounts } = &mut self.workers[worker];
        accounts.attempted += 1;
        if words.refs >= self.refs_limit {
            accounts.refs += 1;
            words.active = false;
            return Touch::DroppedRefs;
        }
        if ring.len() >= self.capacity {
            accounts.full += 1;
            words.active = false;
            return Touch::DroppedFull;
        }
        words.refs += 1;
        ring.push_back(id);
        accounts.accepted += 1;
        Touch::Queued(accounts.accepted - 1)
    }

    pub fn unlink(&mut self, id: ItemId) -> Option<Ended> {
        self.chunks[id.chunk as usize].is_life(id).then(|| self.end(id.chunk))
    }

    fn end(&mut self, chunk: u32) -> Ended {
        let words = &mut self.chunks[chunk as usize];
        words.linked = false;
        words.refs -= 1;
        self.to_front(chunk, Place::Dying);
        self.free_unheld(chunk)
    }

    fn free_unheld(&mut self, chunk: u32) -> Ended {
        let words = &self.chunks[chunk as usize];
        if words.refs > 0 {
            return Ended::Deferred;
        }
        let place = if words.generation == u32::MAX { Place::Retired } else { Place::Unused };
        self.to_front(chunk, place);
        Ended::Freed
    }

    pub fn sweep(&mut self, class: usize) -> u32 {
        let mut freed = 0;
        let mut next = self.classes[class].lists.front(Place::Dying);
        while let Some(node) = next {
            let Class { first, lists, .. } = &self.classes[class];
            next = lists.after(node);
            if let Ended::Freed = self.free_unheld(first + node) {
                freed += 1;
            }
        }
        freed
    }

    pub fn pull(&mut self, class: usize, tail: Tail) -> Pulled {
        let Class { first, lists, hot_limit, warm_limit } = &self.classes[class];
        let (from, over) = match tail {
            Tail::Hot => (Place::Hot, lists.len(Place::Hot) > *hot_limit),
            Tail::Warm => (Place::Warm, lists.len(Place::Warm) > *warm_limit),
            Tail::Cold | Tail::Evict => (Place::Cold, false),
        };
        let Some(node) = lists.back(from) else {
            return Pulled::Empty;
        };
        let chunk = first + node;
        let id = self.id(chunk);
        if let Tail::Evict = tail {
            return Pulled::Ended(id, self.end(chunk));
        }
        if std::mem::take(&mut self.chunks[chunk as usize].active) {
            self.to_segment(chunk, Place::Warm);
            return if from == Place::Warm { Pulled::Again(id) } else { Pulled::Warm(id) };
        }
        if over {
            self.to_segment(chunk, Place::Cold);
            return Pulled::Cold(id);
        }
        Pulled::Stay(id)
    }

    /// The next bump of a worker's ring: its number, its item, and what it came to.
    pub fn apply_next(&mut self, worker: usize, now: u64) -> Option<(u64, ItemId, Applied)> {
        let Worker { ring, accounts } = &mut self.workers[worker];
        let id = ring.pop_front()?;
        let number = accounts.applied;
        accounts.applied += 1;
        Some((number, id, self.apply(id, now)))
    }

    fn apply(&mut self, id: ItemId, now: u64) -> Applied {
        let words = &mut self.chunks[id.chunk as usize];
        words.refs -= 1;
        if !words.linked {
            return Applied::Gone(self.free_unheld(id.chunk));
        }
        words.time = now;
        if words.segment == Place::Cold && std::mem::take(&mut words.active) {
            self.to_segment(id.chunk, Place::Warm);
            return Applied::Moved;
        }
        Applied::TimeOnly
    }
}
