//! What is asked for, and what is answered: plain values.
use crate::{MOST_CHUNKS, MOST_WORDS, Worker};

/// An item: a chunk and a generation.
#[derive(Clone, Copy, Debug, PartialEq, Eq, Hash)]
pub struct ItemId {
    pub chunk: u32,
    pub generation: u32,
}

/// What a store is made from: the ranges are those of `bump_config`. A worker has up to 64 holds at a time.
#[derive(Clone, Copy, Debug)]
pub struct Config {
    pub workers: u32,
    pub capacity: u32,
    pub refs_limit: u32,
    pub first_generation: u32,
    /// Of each item, beside its label.
    pub words: u32,
}

/// What a class is made from.
#[repr(C)]
#[derive(Clone, Copy, Debug)]
pub struct ClassConfig {
    pub chunks: u32,
    pub hot: u32,
    pub warm: u32,
}

/// A worker's counts of bumps.
#[repr(C)]
#[derive(Clone, Copy, Debug, PartialEq, Eq)]
pub struct Counts {
    pub attempted: u64,
    pub accepted: u64,
    pub full: u64,
    pub busy: u64,
    pub refs: u64,
}

/// Why no store was opened.
#[derive(Clone, Copy, Debug, PartialEq, Eq)]
pub enum OpenFault {
    Workers,
    Capacity,
    RefsLimit,
    Generation,
    Classes,
    Chunks,
    NoMemory,
}

/// Why there is no hold.
#[derive(Clone, Copy, Debug, PartialEq, Eq)]
pub enum GetRefusal {
    NoSuchChunk,
    Stale,
    RefsFull,
    Busy,
    /// The worker has 64 holds at a time already.
    NoPlace,
}

/// Why a bump was dropped.
#[derive(Clone, Copy, Debug, PartialEq, Eq)]
pub enum Dropped {
    Full,
    Busy,
    RefsFull,
}

/// What a hit did.
#[derive(Clone, Copy, Debug, PartialEq, Eq)]
pub enum Touch {
    First,
    Already,
    Marked,
    Queued,
    Dropped(Dropped),
    Exhausted,
}

/// The list whose last item a pull looks at.
#[derive(Clone, Copy, Debug, PartialEq, Eq)]
pub enum Tail {
    Hot,
    Warm,
    Cold,
    Evict,
}

/// An item with its label.
#[derive(Clone, Copy, Debug, PartialEq, Eq)]
pub struct Labelled {
    pub item: ItemId,
    pub label: u64,
}

/// What a pull did with the last item of its list.
#[derive(Clone, Copy, Debug, PartialEq, Eq)]
pub enum Pulled {
    Empty,
    Stay(Labelled),
    Warm(Labelled),
    Again(Labelled),
    Cold(Labelled),
    Freed(Labelled),
    Deferred(Labelled),
}

/// Whether an ended item's chunk is free; and its label.
#[derive(Clone, Copy, Debug, PartialEq, Eq)]
pub enum Ended {
    Freed(u64),
    Deferred(u64),
}

/// Why nothing was ended.
#[derive(Clone, Copy, Debug, PartialEq, Eq)]
pub enum UnlinkRefusal {
    NoSuchChunk,
    NotLinked,
}

/// Why nothing was linked.
#[derive(Clone, Copy, Debug, PartialEq, Eq)]
pub enum LinkRefusal {
    NoFreeChunk,
    TooManyWords,
}

/// Why no bump was applied.
#[derive(Clone, Copy, Debug, PartialEq, Eq)]
pub enum RunRefusal {
    /// The book and the lane are of two stores.
    OtherStore,
    /// The lane's next bump is of another class than the book.
    OtherClass,
}

/// The chunk isn't in the list.
#[derive(Clone, Copy, Debug, PartialEq, Eq)]
pub struct NotThere;

/// One of a class's lists.
#[derive(Clone, Copy, Debug, PartialEq, Eq)]
pub enum Place {
    Hot,
    Warm,
    Cold,
    Temp,
    Dying,
    Unused,
    Retired,
}

/// What one load found of an item. `segment` is where it is, or was last.
#[derive(Clone, Copy, Debug, PartialEq, Eq)]
pub struct Marks {
    pub refs: u32,
    pub segment: Place,
    pub linked: bool,
    pub fetched: bool,
    pub active: bool,
}

/// What three loads found of a chunk.
#[derive(Clone, Copy, Debug, PartialEq, Eq)]
pub struct Seen {
    pub item: ItemId,
    pub marks: Marks,
    pub time: u64,
    pub label: u64,
}

/// Chunks that a call told, as a slice: at most `MOST_CHUNKS`.
#[derive(Clone, Copy, PartialEq, Eq)]
pub struct Chunks {
    pub(crate) count: usize,
    pub(crate) all: [u32; MOST_CHUNKS],
}

/// Words that a call told, as a slice: at most `MOST_WORDS`.
#[derive(Clone, Copy, PartialEq, Eq)]
pub struct Words {
    pub(crate) count: usize,
    pub(crate) all: [u64; MOST_WORDS],
}

/// How far a walk came: the chunks that it told, and the one behind them.
#[derive(Clone, Copy, Debug, PartialEq, Eq)]
pub struct Walked {
    pub chunks: Chunks,
    pub next: Option<u32>,
}

/// How many bumps a run applied, and the chunks that came free by it.
#[derive(Clone, Copy, Debug, PartialEq, Eq)]
pub struct Ran {
    pub applied: u32,
    pub freed: Chunks,
}

/// What is left of a worker's bumps. `Unseen`: the ring can't show its end now. `Gone`: the worker was dropped, and
/// not closed: what it accepted can be applied, and is never settled.
#[derive(Clone, Copy, Debug, PartialEq, Eq)]
pub enum Rest {
    Settled { counts: Counts, applied: u64 },
    Open,
    Left(u64),
    Unseen,
    Gone,
}

/// Why a worker wasn't closed. It comes back.
pub enum Unclosed {
    OtherStore(Worker),
    OtherWorker(Worker),
    /// A hold was forgotten, and not dropped.
    HoldsOut(Worker),
    Twice(Worker),
}
