//! bump for Rust, over the C library: its types make the promises of `bump.h` hold. A store's parts are values; a
//! `Worker` may go to another thread and is never shared (`!Sync`); a `Hold` borrows its worker and gives itself back;
//! a `Book` is lent by the caller's own `Mutex<Book>`. `std` alone, and no `unsafe` for whoever uses it. The module
//! `cache` has a whole cache, as `bump_cache.h`.
//!
//! ```
//! let config = bump::Config { workers: 1, capacity: 16, refs_limit: 8, first_generation: 1, words: 0 };
//! let class = bump::ClassConfig { chunks: 10, hot: 2, warm: 4 };
//! let mut store = bump::open(&config, &[class]).unwrap();
//! let (worker, mut book) = (store.take_worker(0).unwrap(), store.take_book(0).unwrap());
//! let item = book.link(7, 1).unwrap();
//! assert_eq!(worker.get(item).unwrap().label(), 7);
//! ```
use std::cell::Cell;
use std::fmt;
use std::marker::PhantomData;
use std::ops::Deref;
use std::sync::atomic::{AtomicU64, Ordering};

mod answers;
pub mod cache;
#[cfg(test)]
mod cache_tests;
mod raw;
#[cfg(test)]
mod tests;

pub use answers::*;

/// The version of `bump.h` that this wrapper is written for, as `version` tells the library's.
pub const VERSION: u32 = 100;

/// The most chunks, and the most words, that one call tells.
pub const MOST_CHUNKS: usize = 32;
pub const MOST_WORDS: usize = 8;

/// The version of the library: 10000 x major + 100 x minor + patch.
pub fn version() -> u32 {
    // SAFETY: it has no argument.
    unsafe { raw::bump_version() }
}

/// The parts of a store, by number.
pub struct Parts {
    pub workers: Vec<Worker>,
    pub books: Vec<Book>,
    pub lanes: Vec<Lane>,
}

const HOLDS: u32 = 64;

/// A number for each store of the process, by which the library tells them apart. Stores that C opens in the same
/// process have smaller ones.
static STORES: AtomicU64 = AtomicU64::new(1 << 63);

fn no_such_answer(call: &str, answer: u32) -> ! {
    unreachable!("{call} answered {answer}: bump.rs and the library differ")
}

/// Opens a store.
pub fn open(config: &Config, classes: &[ClassConfig]) -> Result<Store, OpenFault> {
    let numbers = raw::Config {
        store: STORES.fetch_add(1, Ordering::Relaxed),
        workers: config.workers,
        capacity: config.capacity,
        refs_limit: config.refs_limit,
        first_generation: config.first_generation,
        holds: HOLDS,
        words: config.words,
    };
    let mut store = raw::EMPTY;
    // SAFETY: the slot is empty; an empty slice's pointer isn't null.
    match unsafe { raw::bump_open(&mut store, &numbers, classes.as_ptr(), classes.len()) } {
        0 => Ok(Store { raw: store, workers: config.workers, classes: classes.len() as u32 }),
        1 => Err(OpenFault::Workers),
        2 => Err(OpenFault::Capacity),
        3 => Err(OpenFault::RefsLimit),
        4 => Err(OpenFault::Generation),
        5 => Err(OpenFault::Classes),
        6 => Err(OpenFault::Chunks),
        7 => Err(OpenFault::NoMemory),
        other => no_such_answer("bump_open", other),
    }
}

/// What is still to be taken out of a store. What isn't taken is given back with it.
pub struct Store {
    raw: raw::Handle,
    workers: u32,
    classes: u32,
}

// SAFETY: the library's handles may go to another thread; each call takes the store by `&mut`.
unsafe impl Send for Store {}

impl Store {
    /// The worker with this number; None: there is none, or it is taken already.
    pub fn take_worker(&mut self, number: u32) -> Option<Worker> {
        let mut raw = raw::EMPTY;
        // SAFETY: the handle is this value's alone, and the slot is empty; so in the calls below.
        let is_taken = unsafe { raw::bump_take_worker(&mut self.raw, number, &mut raw) };
        is_taken.then(|| Worker { raw: Cell::new(raw), free: Cell::new(u64::MAX), not_shared: PhantomData })
    }

    /// The book of the class with this number; None: there is none, or it is taken already.
    pub fn take_book(&mut self, number: u32) -> Option<Book> {
        let mut raw = raw::EMPTY;
        let is_taken = unsafe { raw::bump_take_book(&mut self.raw, number, &mut raw) };
        is_taken.then(|| Book { raw })
    }

    /// The lane of the worker with this number; None: there is none, or it is taken already.
    pub fn take_lane(&mut self, number: u32) -> Option<Lane> {
        let mut raw = raw::EMPTY;
        let is_taken = unsafe { raw::bump_take_lane(&mut self.raw, number, &mut raw) };
        is_taken.then(|| Lane { raw })
    }

    /// All parts by number, but those that were taken before.
    pub fn parts(mut self) -> Parts {
        let (workers, classes) = (0..self.workers, 0..self.classes);
        Parts {
            workers: workers.clone().filter_map(|number| self.take_worker(number)).collect(),
            books: classes.filter_map(|number| self.take_book(number)).collect(),
            lanes: workers.filter_map(|number| self.take_lane(number)).collect(),
        }
    }
}

impl Drop for Store {
    fn drop(&mut self) {
        // SAFETY: the handle is this value's, and gone behind it.
        unsafe { raw::bump_close(self.raw) }
    }
}

fn touch_of(answer: u32) -> Touch {
    match answer {
        0 => Touch::First,
        1 => Touch::Already,
        2 => Touch::Marked,
        3 => Touch::Queued,
        4 => Touch::Dropped(Dropped::Full),
        5 => Touch::Dropped(Dropped::Busy),
        6 => Touch::Dropped(Dropped::RefsFull),
        7 => Touch::Exhausted,
        other => no_such_answer("bump_touch", other),
    }
}

fn segment_of(number: u32) -> Place {
    match number {
        0 => Place::Hot,
        1 => Place::Warm,
        2 => Place::Cold,
        3 => Place::Temp,
        other => no_such_answer("segment", other),
    }
}

fn refusal_of(answer: u32) -> GetRefusal {
    match answer {
        1 => GetRefusal::NoPlace,
        2 => GetRefusal::NoSuchChunk,
        3 => GetRefusal::Stale,
        4 => GetRefusal::RefsFull,
        5 => GetRefusal::Busy,
        other => no_such_answer("bump_get", other),
    }
}

/// The number of a chunk, or of none; no list has a chunk of that number.
fn number_of(chunk: Option<u32>) -> Result<u32, NotThere> {
    match chunk {
        Some(u32::MAX) => Err(NotThere),
        Some(chunk) => Ok(chunk),
        None => Ok(u32::MAX),
    }
}

fn linked(said: raw::Linked) -> Result<ItemId, LinkRefusal> {
    match said.answer {
        0 => Ok(ItemId { chunk: said.chunk, generation: said.generation }),
        1 => Err(LinkRefusal::NoFreeChunk),
        2 => Err(LinkRefusal::TooManyWords),
        other => no_such_answer("bump_link", other),
    }
}

fn pulled(said: raw::Pulled) -> Pulled {
    let last = Labelled { item: ItemId { chunk: said.chunk, generation: said.generation }, label: said.label };
    match said.answer {
        0 => Pulled::Empty,
        1 => Pulled::Stay(last),
        2 => Pulled::Warm(last),
        3 => Pulled::Again(last),
        4 => Pulled::Cold(last),
        5 => Pulled::Freed(last),
        6 => Pulled::Deferred(last),
        other => no_such_answer("bump_pull", other),
    }
}

fn seen(said: raw::Seen) -> Seen {
    Seen {
        item: ItemId { chunk: said.chunk, generation: said.generation },
        marks: Marks {
            refs: said.refs,
            segment: segment_of(said.segment),
            linked: said.linked,
            fetched: said.fetched,
            active: said.active,
        },
        time: said.time,
        label: said.label,
    }
}

fn chunks_of(count: u32, all: [u32; MOST_CHUNKS]) -> Chunks {
    Chunks { count: count as usize, all }
}

fn done(answer: u32) -> Result<(), RunRefusal> {
    match answer {
        0 => Ok(()),
        1 => Err(RunRefusal::OtherStore),
        2 => Err(RunRefusal::OtherClass),
        other => no_such_answer("bump_apply_run", other),
    }
}

impl Deref for Chunks {
    type Target = [u32];

    fn deref(&self) -> &[u32] {
        &self.all[..self.count]
    }
}

impl Deref for Words {
    type Target = [u64];

    fn deref(&self) -> &[u64] {
        &self.all[..self.count]
    }
}

impl fmt::Debug for Chunks {
    fn fmt(&self, f: &mut fmt::Formatter) -> fmt::Result {
        self[..].fmt(f)
    }
}

impl fmt::Debug for Words {
    fn fmt(&self, f: &mut fmt::Formatter) -> fmt::Result {
        self[..].fmt(f)
    }
}

/// A reader. It may go to another thread, and is never shared: each reading thread has one of its own. Close it by its
/// lane: dropped it gives back what it holds, but its lane is never settled (`Rest::Gone`).
pub struct Worker {
    raw: Cell<raw::Handle>,
    // a bit for each hold that holds nothing
    free: Cell<u64>,
    not_shared: PhantomData<Cell<()>>,
}

// SAFETY: the library's handles may go to another thread; a worker that is moved has no hold that borrows it.
unsafe impl Send for Worker {}

impl Worker {
    /// Takes a hold of an item. While there is one the item's chunk isn't used for another item.
    pub fn get(&self, item: ItemId) -> Result<Hold<'_>, GetRefusal> {
        let free = self.free.get();
        if free == 0 {
            return Err(GetRefusal::NoPlace);
        }
        let number = free.trailing_zeros();
        // SAFETY: the worker isn't shared, so this thread alone is in a call with it.
        match unsafe { raw::bump_get(self.raw.as_ptr(), number, item.chunk, item.generation) } {
            0 => {
                self.free.set(free & !(1 << number));
                Ok(Hold { worker: self, number })
            }
            refused => Err(refusal_of(refused)),
        }
    }

    /// A whole hit in one call: what it did, and the item's label.
    pub fn hit(&self, item: ItemId, now: u64) -> Result<(Touch, u64), GetRefusal> {
        // SAFETY: as in `get`.
        let hit = unsafe { raw::bump_hit(self.raw.as_ptr(), item.chunk, item.generation, now) };
        match hit.got {
            0 => Ok((touch_of(hit.touch), hit.label)),
            refused => Err(refusal_of(refused)),
        }
    }

    /// Its counts of bumps.
    pub fn counts(&self) -> Counts {
        // SAFETY: as in `get`.
        unsafe { raw::bump_worker_counts(self.raw.as_ptr()) }
    }
}

impl Drop for Worker {
    fn drop(&mut self) {
        let raw = self.raw.get();
        if !raw.p.is_null() {
            // SAFETY: the handle is this value's, and gone behind it.
            unsafe { raw::bump_worker_free(raw) }
        }
    }
}

/// A reference to an item, which is given back when it is dropped.
pub struct Hold<'w> {
    worker: &'w Worker,
    number: u32,
}

impl Hold<'_> {
    /// A hit of the item.
    pub fn touch(&self, now: u64) -> Touch {
        // SAFETY: a hold stays on its worker's thread, since it borrows what isn't shared.
        touch_of(unsafe { raw::bump_touch(self.worker.raw.as_ptr(), self.number, now) }.answer)
    }

    /// The item's label.
    pub fn label(&self) -> u64 {
        // SAFETY: as in `touch`; so in the calls below.
        unsafe { raw::bump_label(self.worker.raw.as_ptr(), self.number) }.label
    }

    /// The item's marks, its list and its references, which other threads may change behind it.
    pub fn marks(&self) -> Marks {
        let found = unsafe { raw::bump_marks(self.worker.raw.as_ptr(), self.number) };
        Marks {
            refs: found.refs,
            segment: segment_of(found.segment),
            linked: found.linked,
            fetched: found.fetched,
            active: found.active,
        }
    }

    /// Whether the item has both marks. A touch of it would change nothing.
    pub fn is_marked(&self) -> bool {
        unsafe { raw::bump_marked(self.worker.raw.as_ptr(), self.number) }
    }

    /// The item's time.
    pub fn time(&self) -> u64 {
        unsafe { raw::bump_time(self.worker.raw.as_ptr(), self.number) }.time
    }

    /// The item's words, from the one with the number `first` on. Where they are `MOST_WORDS`, there may be more.
    pub fn words(&self, first: u32) -> Words {
        let told = unsafe { raw::bump_words(self.worker.raw.as_ptr(), self.number, first) };
        let left = told.count.saturating_sub(first) as usize;
        Words { count: left.min(MOST_WORDS), all: told.words }
    }
}

impl Drop for Hold<'_> {
    fn drop(&mut self) {
        // SAFETY: as in `touch`.
        unsafe { raw::bump_release(self.worker.raw.as_ptr(), self.number) };
        self.worker.free.set(self.worker.free.get() | 1 << self.number);
    }
}

/// A class. Whoever has it has it alone: put it into a `Mutex`.
pub struct Book {
    raw: raw::Handle,
}

// SAFETY: the library's handles may go to another thread; each call takes the book by `&mut`.
unsafe impl Send for Book {}

impl Book {
    /// Links an item at the front of HOT.
    pub fn link(&mut self, label: u64, now: u64) -> Result<ItemId, LinkRefusal> {
        // SAFETY: the handle is this value's alone; so in the calls below.
        linked(unsafe { raw::bump_link(&mut self.raw, label, now) })
    }

    /// Links an item at the front of TEMP.
    pub fn link_temp(&mut self, label: u64, now: u64) -> Result<ItemId, LinkRefusal> {
        linked(unsafe { raw::bump_link_temp(&mut self.raw, label, now) })
    }

    /// Links an item with words at the front of HOT.
    pub fn link_words(&mut self, label: u64, words: &[u64], now: u64) -> Result<ItemId, LinkRefusal> {
        linked(unsafe { raw::bump_link_words(&mut self.raw, label, words.as_ptr(), words.len(), now) })
    }

    /// Links an item with words at the front of TEMP.
    pub fn link_temp_words(&mut self, label: u64, words: &[u64], now: u64) -> Result<ItemId, LinkRefusal> {
        linked(unsafe { raw::bump_link_temp_words(&mut self.raw, label, words.as_ptr(), words.len(), now) })
    }

    /// Ends an item.
    pub fn unlink(&mut self, item: ItemId) -> Result<Ended, UnlinkRefusal> {
        let said = unsafe { raw::bump_unlink(&mut self.raw, item.chunk, item.generation) };
        match said.answer {
            0 => Ok(Ended::Freed(said.label)),
            1 => Ok(Ended::Deferred(said.label)),
            2 => Err(UnlinkRefusal::NoSuchChunk),
            3 => Err(UnlinkRefusal::NotLinked),
            other => no_such_answer("bump_unlink", other),
        }
    }

    /// Looks at the last item of a list, and moves or ends it, by the class's limits.
    pub fn pull(&mut self, tail: Tail) -> Pulled {
        pulled(unsafe { raw::bump_pull(&mut self.raw, tail as u32, u32::MAX) })
    }

    /// The same by this limit: HOT's or WARM's item goes to COLD where the list has more.
    pub fn pull_past(&mut self, tail: Tail, limit: u32) -> Pulled {
        // No list has as many, and the greatest number would be the class's limit.
        pulled(unsafe { raw::bump_pull(&mut self.raw, tail as u32, limit.min(u32::MAX - 1)) })
    }

    /// Frees the chunks of DYING that nobody holds any more: how many.
    pub fn sweep(&mut self) -> u32 {
        unsafe { raw::bump_sweep(&mut self.raw) }
    }

    /// The same, and tells which: at most `MOST_CHUNKS`, and it stops there. Where they are as many, sweep again.
    pub fn sweep_told(&mut self) -> Chunks {
        let freed = unsafe { raw::bump_sweep_told(&mut self.raw) };
        chunks_of(freed.count, freed.chunks)
    }

    /// How many chunks a list has.
    pub fn size(&mut self, place: Place) -> u32 {
        unsafe { raw::bump_size(&mut self.raw, place as u32) }
    }

    /// What a chunk's word says, its time and its label; None: the class has no such chunk.
    pub fn see(&mut self, chunk: u32) -> Option<Seen> {
        let said = unsafe { raw::bump_see(&mut self.raw, chunk) };
        (said.answer == 0).then(|| seen(said))
    }

    /// The same of a list's last chunk, or of the one before the chunk `behind`; Ok(None): there is none.
    pub fn look(&mut self, place: Place, behind: Option<u32>) -> Result<Option<Seen>, NotThere> {
        let behind = number_of(behind)?;
        let said = unsafe { raw::bump_look(&mut self.raw, place as u32, behind) };
        match said.answer {
            0 => Ok(Some(seen(said))),
            1 => Err(NotThere),
            2 => Ok(None),
            other => no_such_answer("bump_look", other),
        }
    }

    /// Tells the chunks of a list, front first, from the front on or from the chunk `from` on: at most `MOST_CHUNKS`.
    /// To go on, call it with `next`.
    pub fn walk(&mut self, place: Place, from: Option<u32>) -> Result<Walked, NotThere> {
        let from = number_of(from)?;
        let said = unsafe { raw::bump_walk(&mut self.raw, place as u32, from) };
        let next = Some(said.next).filter(|next| *next != u32::MAX);
        match said.answer {
            0 => Ok(Walked { chunks: chunks_of(said.count, said.chunks), next }),
            1 => Err(NotThere),
            other => no_such_answer("bump_walk", other),
        }
    }

    /// All chunks of a list, front first.
    pub fn chunks(&mut self, place: Place) -> Vec<u32> {
        let mut chunks = Vec::with_capacity(self.size(place) as usize);
        let mut from = None;
        loop {
            let walked = self.walk(place, from).expect("a list stays, while nobody else has its book");
            chunks.extend_from_slice(&walked.chunks);
            if walked.next.is_none() {
                return chunks;
            }
            from = walked.next;
        }
    }

    /// How many items a worker's bumps brought to WARM; None: there is no such worker.
    pub fn moves(&mut self, worker: u32) -> Option<u64> {
        Some(unsafe { raw::bump_moves(&mut self.raw, worker) }).filter(|moves| *moves != u64::MAX)
    }

    /// The limits of HOT and of WARM.
    pub fn limits(&mut self) -> (u32, u32) {
        let limits = unsafe { raw::bump_limits(&mut self.raw) };
        (limits.hot, limits.warm)
    }

    /// Applies a lane's next bumps as long as they are of this class, at most `limit`: how many.
    pub fn apply_run(&mut self, lane: &mut Lane, now: u64, limit: u32) -> Result<u32, RunRefusal> {
        let said = unsafe { raw::bump_apply_run(&mut self.raw, &mut lane.raw, now, limit) };
        done(said.answer).map(|()| said.applied)
    }

    /// The same, and tells which chunks came free by it: at most `MOST_CHUNKS`, and it stops there.
    pub fn apply_run_told(&mut self, lane: &mut Lane, now: u64, limit: u32) -> Result<Ran, RunRefusal> {
        let said = unsafe { raw::bump_apply_run_told(&mut self.raw, &mut lane.raw, now, limit) };
        done(said.answer).map(|()| Ran { applied: said.applied, freed: chunks_of(said.freed, said.chunks) })
    }
}

impl Drop for Book {
    fn drop(&mut self) {
        // SAFETY: the handle is this value's, and gone behind it.
        unsafe { raw::bump_book_free(self.raw) }
    }
}

/// What applies the bumps of one worker. Apply them all before it is dropped: the chunks of those that are left stay in
/// DYING for good, once their items end.
pub struct Lane {
    raw: raw::Handle,
}

// SAFETY: as of a book.
unsafe impl Send for Lane {}

impl Lane {
    /// The class of the next bump; None where none is known.
    pub fn class(&mut self) -> Option<u32> {
        // SAFETY: the handle is this value's alone; so in the calls below.
        Some(unsafe { raw::bump_lane_class(&mut self.raw) }).filter(|class| *class != u32::MAX)
    }

    /// Closes its worker's ring, which accepts nothing more.
    pub fn close(&mut self, worker: Worker) -> Result<(), Unclosed> {
        let mut back = raw::EMPTY;
        let raw = worker.raw.replace(raw::EMPTY);
        let answer = unsafe { raw::bump_worker_close(&mut self.raw, raw, &mut back) };
        worker.raw.set(back);
        match answer {
            0 => Ok(()),
            1 => Err(Unclosed::OtherStore(worker)),
            2 => Err(Unclosed::OtherWorker(worker)),
            3 => Err(Unclosed::HoldsOut(worker)),
            4 => Err(Unclosed::Twice(worker)),
            other => no_such_answer("bump_worker_close", other),
        }
    }

    /// What is left of its worker's bumps.
    pub fn rest(&mut self) -> Rest {
        let rest = unsafe { raw::bump_rest(&mut self.raw) };
        match rest.answer {
            0 => Rest::Settled { counts: rest.counts, applied: rest.applied },
            1 => Rest::Open,
            2 => Rest::Left(rest.left),
            3 => Rest::Unseen,
            4 => Rest::Gone,
            other => no_such_answer("bump_rest", other),
        }
    }
}

impl Drop for Lane {
    fn drop(&mut self) {
        // SAFETY: the handle is this value's, and gone behind it.
        unsafe { raw::bump_lane_free(self.raw) }
    }
}

/// The first compiles. The others don't: a worker isn't shared, a hold doesn't outlive its worker, and only whoever has
/// the book alone makes its calls.
///
/// ```no_run
/// fn moved<T: Send>(_: T) {}
/// fn f(worker: bump::Worker, lane: &mut bump::Lane, item: bump::ItemId) {
///     drop(worker.get(item));
///     lane.close(worker).ok();
/// }
/// fn g(worker: bump::Worker, mut book: bump::Book) { book.sweep(); moved(worker); moved(book) }
/// ```
/// ```compile_fail,E0277
/// fn shared<T: Sync>(_: &T) {}
/// fn f(worker: &bump::Worker) { shared(worker) }
/// ```
/// ```compile_fail,E0505
/// fn f(worker: bump::Worker, lane: &mut bump::Lane, item: bump::ItemId) {
///     let hold = worker.get(item);
///     lane.close(worker).ok();
///     drop(hold);
/// }
/// ```
/// ```compile_fail,E0596
/// fn f(book: &bump::Book) { book.sweep(); }
/// ```
#[allow(dead_code)]
struct Promises;
