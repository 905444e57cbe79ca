//! A cache of keys and values, both of bytes, whose gets take no lock: `bump_cache.h` by types that make its promises
//! hold. A `Reader` may go to another thread and is never shared (`!Sync`); a `Guard` borrows its reader and gives its
//! item back; a `Cache` is shared, and has a mutex for each part, which its calls take. Times are the caller's ticks,
//! which all calls count alike, and what expires at 0 never does.
//!
//! ```
//! let config = bump::cache::Config { parts: 2, ..bump::cache::Config::new(100, 1, 16, 64) };
//! let bump::cache::Opened { cache, readers } = bump::cache::open(&config).unwrap();
//! cache.put(b"key", b"value", 7, 0, 1).unwrap();
//! let found = readers[0].get(b"key", 1).unwrap();
//! assert_eq!((found.to_vec(), found.flags()), (b"value".to_vec(), 7));
//! ```
use crate::{MOST_WORDS, no_such_answer, raw};
use std::cell::Cell;
use std::marker::PhantomData;
use std::ops::AddAssign;
use std::sync::{Mutex, MutexGuard, PoisonError};

/// A cache that was opened, and its readers by number.
pub struct Opened {
    pub cache: Cache,
    pub readers: Vec<Reader>,
}

/// What a cache is made from: the ranges are those of `bump_cache_config`. A reader has up to 63 guards at a time.
#[derive(Clone, Copy, Debug)]
pub struct Config {
    /// Of the keys' hashes: random numbers where others choose the keys.
    pub seed: (u64, u64),
    /// What expires within so many ticks of its put goes to TEMP; 0: nothing does.
    pub temporary: u64,
    pub key_bytes: u32,
    pub value_bytes: u32,
    pub items: u32,
    /// `1 + readers`, as `new` has it, was enough in tests where a reader has one guard at a time; with more guards add those.
    pub spare: u32,
    pub hot: u32,
    pub warm: u32,
    /// None: ages don't count.
    pub hot_age: Option<u32>,
    pub warm_age: Option<u32>,
    pub parts: u32,
    pub readers: u32,
    pub ring: u32,
    pub looks: u32,
}

/// A reader's counts.
#[repr(C)]
#[derive(Clone, Copy, Debug, PartialEq, Eq)]
pub struct Counts {
    pub hits: u64,
    pub misses: u64,
    /// Bumps of its hits.
    pub dropped: u64,
}

macro_rules! stats {
    ($($size:ident)*; $($count:ident)*) => {
        /// Statistics of a part, or the sums of several, by memcached's names.
        #[repr(C)]
        #[derive(Clone, Copy, Debug, Default, PartialEq, Eq)]
        pub struct Stats {
            $(pub $size: u32,)*
            $(pub $count: u64,)*
        }

        /// Each count is at most 2^64 - 1.
        impl AddAssign for Stats {
            fn add_assign(&mut self, other: Stats) {
                $(self.$size += other.$size;)*
                $(self.$count = self.$count.saturating_add(other.$count);)*
            }
        }
    };
}

stats! {
    number_hot number_warm number_cold number_temp;
    moves_to_cold moves_to_warm moves_within_lru
    evicted evicted_unfetched evicted_active direct_reclaims reclaimed expired_unfetched crawler_reclaimed
}

/// Why no cache was opened.
#[derive(Clone, Copy, Debug, PartialEq, Eq)]
pub enum OpenFault {
    KeyBytes,
    ValueBytes,
    Items,
    Spare,
    Shares,
    Parts,
    Readers,
    Ring,
    NoMemory,
}

/// A value was put.
#[derive(Clone, Copy, Debug, PartialEq, Eq)]
pub struct Put {
    /// Another item was evicted.
    pub evicted: bool,
}

/// Why nothing was put.
#[derive(Clone, Copy, Debug, PartialEq, Eq)]
pub enum PutRefusal {
    /// `add`: the key has something.
    Has,
    /// `replace`, `update`, `touch`: it has nothing, or what has expired.
    Nothing,
    /// Each chunk without an item is held; another item may have been evicted.
    NoRoom {
        evicted: bool,
    },
    KeyBytes,
    ValueBytes,
    /// The key is of another part.
    OtherPart,
}

/// What was read of a value: its flags, and its length, also where there was less room.
#[derive(Clone, Copy, Debug, PartialEq, Eq)]
pub struct Got {
    pub flags: u32,
    pub length: usize,
}

/// What a key has.
#[derive(Clone, Debug, PartialEq, Eq)]
pub struct Looked {
    pub value: Vec<u8>,
    pub flags: u32,
    pub expires: u64,
}

/// An item of a part.
#[derive(Clone, Debug, PartialEq, Eq)]
pub struct Entry {
    pub key: Vec<u8>,
    pub value: Vec<u8>,
    pub flags: u32,
    pub expires: u64,
}

/// A reader's holds are numbered from 1 to this, and hold 0 is `get_into`'s: each has a bit of a `u64`.
const HOLDS: u32 = 63;

/// The most bytes that one call of the library tells.
const MOST_BYTES: usize = 8 * MOST_WORDS;

impl Config {
    /// That of a cache as memcached has it (`bump_cache_defaults`).
    pub fn new(items: u32, readers: u32, key_bytes: u32, value_bytes: u32) -> Config {
        // SAFETY: it has no pointers.
        let raw = unsafe { raw::bump_cache_defaults(items, readers, key_bytes, value_bytes) };
        let percent = |age| Some(age).filter(|age| *age != u32::MAX);
        Config {
            seed: (raw.seed_first, raw.seed_second),
            temporary: raw.temporary,
            key_bytes: raw.key_bytes,
            value_bytes: raw.value_bytes,
            items: raw.items,
            spare: raw.spare,
            hot: raw.hot,
            warm: raw.warm,
            hot_age: percent(raw.hot_age),
            warm_age: percent(raw.warm_age),
            parts: raw.parts,
            readers: raw.readers,
            ring: raw.ring,
            looks: raw.looks,
        }
    }

    fn raw(&self) -> raw::CacheConfig {
        // The greatest number would be none at all.
        let percent = |age: Option<u32>| age.map_or(u32::MAX, |age| age.min(u32::MAX - 1));
        raw::CacheConfig {
            seed_first: self.seed.0,
            seed_second: self.seed.1,
            temporary: self.temporary,
            key_bytes: self.key_bytes,
            value_bytes: self.value_bytes,
            items: self.items,
            spare: self.spare,
            hot: self.hot,
            warm: self.warm,
            hot_age: percent(self.hot_age),
            warm_age: percent(self.warm_age),
            parts: self.parts,
            readers: self.readers,
            ring: self.ring,
            looks: self.looks,
            holds: HOLDS,
        }
    }

    /// How many bytes a cache of this asks for when it is opened, and keeps; what its readers' holds take comes to them.
    /// None: no cache is made from this.
    pub fn bytes_taken(&self) -> Option<u64> {
        // SAFETY: it is there for the call.
        let bytes = unsafe { raw::bump_cache_bytes_taken(&self.raw()) };
        Some(bytes).filter(|bytes| *bytes > 0)
    }

    /// The number of the part that a key is of; None: the key is too long, or no cache is made from this.
    pub fn part_of(&self, key: &[u8]) -> Option<u32> {
        // SAFETY: both are there for the call.
        let part = unsafe { raw::bump_cache_part_of(&self.raw(), key.as_ptr(), key.len()) };
        Some(part).filter(|part| *part != u32::MAX)
    }
}

/// Opens a cache.
pub fn open(config: &Config) -> Result<Opened, OpenFault> {
    let (mut raw, numbers) = (raw::EMPTY, config.raw());
    // SAFETY: the slot is empty.
    match unsafe { raw::bump_cache_open(&mut raw, &numbers) } {
        0 => Ok(taken(Whole { raw }, config)),
        1 => Err(OpenFault::KeyBytes),
        2 => Err(OpenFault::ValueBytes),
        3 => Err(OpenFault::Items),
        4 => Err(OpenFault::Spare),
        5 => Err(OpenFault::Shares),
        6 => Err(OpenFault::Parts),
        7 => Err(OpenFault::Readers),
        8 => Err(OpenFault::Ring),
        9 => Err(OpenFault::NoMemory),
        other => no_such_answer("bump_cache_open", other),
    }
}

/// What parts and readers are taken out of.
struct Whole {
    raw: raw::Handle,
}

impl Drop for Whole {
    fn drop(&mut self) {
        // SAFETY: the handle is this value's, and gone behind it.
        unsafe { raw::bump_cache_close(self.raw) }
    }
}

/// All parts and readers, each of which is taken once.
fn taken(mut whole: Whole, config: &Config) -> Opened {
    let mut take = |call: raw::CacheTakes, number| {
        let mut raw = raw::EMPTY;
        // SAFETY: the handle is this value's alone, and the slot is empty.
        let is_taken = unsafe { call(&mut whole.raw, number, &mut raw) };
        assert!(is_taken, "cache.rs and the library differ");
        raw
    };
    let parts = (0..config.parts).map(|number| Part { raw: take(raw::bump_cache_take_part, number) });
    let parts = parts.map(Mutex::new).collect();
    let readers = (0..config.readers).map(|number| take(raw::bump_cache_take_reader, number));
    let reader = |raw| Reader { raw: Cell::new(raw), free: Cell::new(u64::MAX), not_shared: PhantomData };
    Opened { cache: Cache { config: *config, parts }, readers: readers.map(reader).collect() }
}

/// All parts, each in a mutex of its own: a call with a key takes that of the key's part, and one of all parts takes one
/// after the other. So a thread waits only for threads that change the same part, and for none that reads.
pub struct Cache {
    config: Config,
    parts: Vec<Mutex<Part>>,
}

/// Takes a part's mutex, also where a thread panicked while it had that: each call leaves its part whole.
fn lock(part: &Mutex<Part>) -> MutexGuard<'_, Part> {
    part.lock().unwrap_or_else(PoisonError::into_inner)
}

impl Cache {
    /// Takes the mutex of a key's part, for several calls as one: a look, and a put of what is made from it. None: the
    /// key is too long.
    pub fn part(&self, key: &[u8]) -> Option<MutexGuard<'_, Part>> {
        self.config.part_of(key).map(|number| lock(&self.parts[number as usize]))
    }

    /// Takes the mutex of each part, by number, one after the other.
    pub fn parts(&self) -> impl Iterator<Item = MutexGuard<'_, Part>> {
        self.parts.iter().map(lock)
    }

    /// The parts by number, for a program that guards them in another way.
    pub fn into_parts(self) -> Vec<Part> {
        self.parts.into_iter().map(|part| part.into_inner().unwrap_or_else(PoisonError::into_inner)).collect()
    }

    fn put_by(&self, key: &[u8], call: impl FnOnce(&mut Part) -> Result<Put, PutRefusal>) -> Result<Put, PutRefusal> {
        self.part(key).map_or(Err(PutRefusal::KeyBytes), |mut part| call(&mut part))
    }

    /// `Part::put` in the key's part; so are the calls below.
    pub fn put(&self, key: &[u8], value: &[u8], flags: u32, expires: u64, now: u64) -> Result<Put, PutRefusal> {
        self.put_by(key, |part| part.put(key, value, flags, expires, now))
    }

    pub fn add(&self, key: &[u8], value: &[u8], flags: u32, expires: u64, now: u64) -> Result<Put, PutRefusal> {
        self.put_by(key, |part| part.add(key, value, flags, expires, now))
    }

    pub fn replace(&self, key: &[u8], value: &[u8], flags: u32, expires: u64, now: u64) -> Result<Put, PutRefusal> {
        self.put_by(key, |part| part.replace(key, value, flags, expires, now))
    }

    pub fn update(&self, key: &[u8], value: &[u8], now: u64) -> Result<Put, PutRefusal> {
        self.put_by(key, |part| part.update(key, value, now))
    }

    pub fn touch(&self, key: &[u8], expires: u64, now: u64) -> Result<Put, PutRefusal> {
        self.put_by(key, |part| part.touch(key, expires, now))
    }

    pub fn look(&self, key: &[u8], now: u64) -> Option<Looked> {
        self.part(key)?.look(key, now)
    }

    pub fn remove(&self, key: &[u8], now: u64) -> bool {
        self.part(key).is_some_and(|mut part| part.remove(key, now))
    }

    /// Tends each part.
    pub fn tend(&self, now: u64) {
        self.parts().for_each(|mut part| part.tend(now));
    }

    /// Ends each item of each part. What others put meanwhile into a part that was cleared stays.
    pub fn clear(&self) {
        self.parts().for_each(|mut part| part.clear());
    }

    /// The sums of all parts' statistics, each part's of a moment of its own.
    pub fn stats(&self) -> Stats {
        let mut sum = Stats::default();
        self.parts().for_each(|mut part| sum += part.stats());
        sum
    }
}

/// Copies the first bytes that words have.
fn copy(bytes: &mut [u8], words: &[u64; MOST_WORDS]) {
    for (piece, word) in bytes.chunks_mut(8).zip(words) {
        piece.copy_from_slice(&word.to_le_bytes()[..piece.len()]);
    }
}

/// Copies bytes from the word with the number `from` on: `told` tells eight words from the one with a number on.
fn copy_all(bytes: &mut [u8], from: u32, mut told: impl FnMut(u32) -> raw::CacheWords) {
    for (piece, number) in bytes.chunks_mut(MOST_BYTES).zip((from..).step_by(MOST_WORDS)) {
        copy(piece, &told(number).words);
    }
}

fn got(said: raw::CacheGot) -> Option<Got> {
    match said.answer {
        0 => Some(Got { flags: said.flags, length: said.length as usize }),
        1 | 2 => None,
        other => no_such_answer("bump_cache_get", other),
    }
}

fn put(said: raw::CachePut) -> Result<Put, PutRefusal> {
    match said.answer {
        0 => Ok(Put { evicted: said.evicted }),
        1 => Err(PutRefusal::Has),
        2 => Err(PutRefusal::Nothing),
        3 => Err(PutRefusal::NoRoom { evicted: said.evicted }),
        4 => Err(PutRefusal::KeyBytes),
        5 => Err(PutRefusal::ValueBytes),
        6 => Err(PutRefusal::OtherPart),
        other => no_such_answer("bump_cache_put", other),
    }
}

/// What gets from all parts. It may go to another thread, and is never shared: each reading thread has one of its own.
/// A key that is too long has nothing.
pub struct Reader {
    raw: Cell<raw::Handle>,
    // a bit for each hold that holds nothing
    free: Cell<u64>,
    not_shared: PhantomData<Cell<()>>,
}

// SAFETY: the library's handles may go to another thread; a reader that is moved has no guard that borrows it.
unsafe impl Send for Reader {}

impl Reader {
    /// Hits the item of a key, and holds it: while there is the guard its value stays, whatever is put, removed or
    /// evicted. It counts as a hit or as a miss. It panics where the reader has 63 guards at a time already.
    pub fn get(&self, key: &[u8], now: u64) -> Option<Guard<'_>> {
        let free = self.free.get() & !1;
        assert!(free != 0, "a reader has {HOLDS} guards at a time");
        self.hold(free.trailing_zeros(), key, now)
    }

    /// By the hold of this number, which holds nothing.
    fn hold(&self, number: u32, key: &[u8], now: u64) -> Option<Guard<'_>> {
        // SAFETY: the reader isn't shared, so this thread alone is in a call with it.
        let said = unsafe { raw::bump_cache_hold(self.raw.as_ptr(), number, key.as_ptr(), key.len(), now) };
        let Got { flags, length } = got(said)?;
        self.free.set(self.free.get() & !(1 << number));
        Some(Guard { reader: self, number, flags, length })
    }

    /// The same hit, which reads the first bytes of the value: as many as there are, or as there is room for. With room
    /// for at most 64 it is one call of the library.
    pub fn get_into(&self, key: &[u8], value: &mut [u8], now: u64) -> Option<Got> {
        if value.len() > MOST_BYTES {
            let found = self.hold(0, key, now)?;
            found.read(value);
            return Some(Got { flags: found.flags, length: found.length });
        }
        // SAFETY: as in `hold`; so in the call below.
        let told = unsafe { raw::bump_cache_get_words(self.raw.as_ptr(), key.as_ptr(), key.len(), now) };
        let found = got(told.got)?;
        let count = found.length.min(value.len());
        copy(&mut value[..count], &told.words);
        Some(found)
    }

    /// What it found, and didn't.
    pub fn counts(&self) -> Counts {
        unsafe { raw::bump_cache_reader_counts(self.raw.as_ptr()) }
    }
}

impl Drop for Reader {
    fn drop(&mut self) {
        // SAFETY: the handle is this value's, and gone behind it.
        unsafe { raw::bump_cache_reader_free(self.raw.get()) }
    }
}

/// An item that is held, and given back when this is dropped.
pub struct Guard<'r> {
    reader: &'r Reader,
    number: u32,
    flags: u32,
    length: usize,
}

impl Guard<'_> {
    /// The flags that the value was put with.
    pub fn flags(&self) -> u32 {
        self.flags
    }

    /// The value's length, in bytes.
    pub fn len(&self) -> usize {
        self.length
    }

    /// Whether the value has no bytes.
    pub fn is_empty(&self) -> bool {
        self.length == 0
    }

    /// Reads the first bytes of the value, as many as there are, or as there is room for: how many.
    pub fn read(&self, bytes: &mut [u8]) -> usize {
        self.read_from(0, bytes)
    }

    /// The same from the value's byte 8 x `from` on.
    pub fn read_from(&self, from: u32, bytes: &mut [u8]) -> usize {
        let count = self.length.saturating_sub(8 * from as usize).min(bytes.len());
        let raw = self.reader.raw.as_ptr();
        // SAFETY: a guard stays on its reader's thread, since it borrows what isn't shared; so in `drop`.
        copy_all(&mut bytes[..count], from, |from| unsafe { raw::bump_cache_read_words(raw, self.number, from) });
        count
    }

    /// The whole value.
    pub fn to_vec(&self) -> Vec<u8> {
        let mut value = vec![0; self.length];
        self.read(&mut value);
        value
    }
}

impl Drop for Guard<'_> {
    fn drop(&mut self) {
        unsafe { raw::bump_cache_release(self.reader.raw.as_ptr(), self.number) };
        self.reader.free.set(self.reader.free.get() | 1 << self.number);
    }
}

/// A part. Whoever has it has it alone. Keys of other parts are refused: `Config::part_of` tells which part a key is of.
pub struct Part {
    raw: raw::Handle,
}

// SAFETY: the library's handles may go to another thread; each call takes the part by `&mut`.
unsafe impl Send for Part {}

impl Part {
    fn put_by(
        &mut self,
        call: raw::CachePuts,
        key: &[u8],
        value: &[u8],
        flags: u32,
        expires: u64,
        now: u64,
    ) -> Result<Put, PutRefusal> {
        // SAFETY: the handle is this value's alone, and the slices are there for the call; so in the calls below.
        put(unsafe { call(&mut self.raw, key.as_ptr(), key.len(), value.as_ptr(), value.len(), flags, expires, now) })
    }

    /// Puts a value under a key.
    pub fn put(&mut self, key: &[u8], value: &[u8], flags: u32, expires: u64, now: u64) -> Result<Put, PutRefusal> {
        self.put_by(raw::bump_cache_put, key, value, flags, expires, now)
    }

    /// The same where the key has nothing, or what has expired.
    pub fn add(&mut self, key: &[u8], value: &[u8], flags: u32, expires: u64, now: u64) -> Result<Put, PutRefusal> {
        self.put_by(raw::bump_cache_add, key, value, flags, expires, now)
    }

    /// The same where the key has something that hasn't expired.
    pub fn replace(&mut self, key: &[u8], value: &[u8], flags: u32, expires: u64, now: u64) -> Result<Put, PutRefusal> {
        self.put_by(raw::bump_cache_replace, key, value, flags, expires, now)
    }

    /// The same, but flags and expiry stay what they are.
    pub fn update(&mut self, key: &[u8], value: &[u8], now: u64) -> Result<Put, PutRefusal> {
        put(unsafe { raw::bump_cache_update(&mut self.raw, key.as_ptr(), key.len(), value.as_ptr(), value.len(), now) })
    }

    /// The value and its flags stay, and it expires anew.
    pub fn touch(&mut self, key: &[u8], expires: u64, now: u64) -> Result<Put, PutRefusal> {
        put(unsafe { raw::bump_cache_touch(&mut self.raw, key.as_ptr(), key.len(), expires, now) })
    }

    /// So many bytes of what a call found, which this call tells.
    fn told(&mut self, call: raw::CacheTells, length: u64) -> Vec<u8> {
        let mut bytes = vec![0; length as usize];
        copy_all(&mut bytes, 0, |from| unsafe { call(&mut self.raw, from) });
        bytes
    }

    /// What a key has, which isn't hit; a key that is too long, or of another part, has nothing.
    pub fn look(&mut self, key: &[u8], now: u64) -> Option<Looked> {
        let said = unsafe { raw::bump_cache_find(&mut self.raw, key.as_ptr(), key.len(), now) };
        match said.answer {
            0 => {
                let value = self.told(raw::bump_cache_found_words, said.length);
                Some(Looked { value, flags: said.flags, expires: said.expires })
            }
            1 | 2 => None,
            other => no_such_answer("bump_cache_find", other),
        }
    }

    /// Ends what a key has: whether it had something that hadn't expired.
    pub fn remove(&mut self, key: &[u8], now: u64) -> bool {
        unsafe { raw::bump_cache_remove(&mut self.raw, key.as_ptr(), key.len(), now) }
    }

    /// Applies bumps, ends what has expired, frees chunks, and balances the lists: call it each second or so.
    pub fn tend(&mut self, now: u64) {
        unsafe { raw::bump_cache_tend(&mut self.raw, now) }
    }

    /// Ends each item.
    pub fn clear(&mut self) {
        unsafe { raw::bump_cache_clear(&mut self.raw) }
    }

    /// How many chunks the part has.
    pub fn chunks(&mut self) -> u32 {
        unsafe { raw::bump_cache_chunks(&mut self.raw) }
    }

    /// The item of the chunk with this number, from 0 on; None: it has none, or what has expired, or there is no such
    /// chunk. The item isn't hit.
    pub fn each(&mut self, number: u32, now: u64) -> Option<Entry> {
        let said = unsafe { raw::bump_cache_entry(&mut self.raw, number, now) };
        said.found.then(|| Entry {
            key: self.told(raw::bump_cache_entry_key, said.key_length),
            value: self.told(raw::bump_cache_entry_value, said.value_length),
            flags: said.flags,
            expires: said.expires,
        })
    }

    /// Its statistics.
    pub fn stats(&mut self) -> Stats {
        unsafe { raw::bump_cache_stats(&mut self.raw) }
    }
}

impl Drop for Part {
    fn drop(&mut self) {
        // SAFETY: the handle is this value's, and gone behind it.
        unsafe { raw::bump_cache_part_free(self.raw) }
    }
}

/// The first compiles. The others don't: a reader isn't shared, a guard doesn't outlive its reader, nor leave its
/// thread, and only whoever has the part alone makes its calls. A cache is shared.
///
/// ```no_run
/// fn moved<T: Send>(_: T) {}
/// fn shared<T: Sync>(_: &T) {}
/// fn f(reader: bump::cache::Reader, cache: bump::cache::Cache) {
///     drop(reader.get(b"key", 1));
///     shared(&cache);
///     moved(reader);
///     cache.into_parts().into_iter().for_each(moved)
/// }
/// ```
/// ```compile_fail,E0277
/// fn shared<T: Sync>(_: &T) {}
/// fn f(reader: &bump::cache::Reader) { shared(reader) }
/// ```
/// ```compile_fail,E0277
/// fn moved<T: Send>(_: T) {}
/// fn f(reader: &bump::cache::Reader) { moved(reader.get(b"key", 1)) }
/// ```
/// ```compile_fail,E0505
/// fn f(reader: bump::cache::Reader) {
///     let found = reader.get(b"key", 1);
///     drop(reader);
///     drop(found);
/// }
/// ```
/// ```compile_fail,E0596
/// fn f(part: &bump::cache::Part) { part.tend(1); }
/// ```
#[allow(dead_code)]
struct Promises;
