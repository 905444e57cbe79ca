//! The cache of `cache.c` in safe Rust, over `c/rust/bump.rs`: four readers, who take no lock of a list, and one thread
//! that stores, ages and drains.
//!
//!     cache [READS]      how often each reader asks: 200,000 times unless it is said
use bump::{Book, ClassConfig, Config, GetRefusal, ItemId, Lane, Parts, Place, Rest, Seen, Tail, Worker};
use std::collections::HashMap;
use std::process::ExitCode;
use std::sync::atomic::{AtomicU64, AtomicUsize, Ordering};
use std::sync::{Mutex, RwLock};
use std::thread;

const READERS: usize = 4;
const KEYS: u32 = 6000;

/// How often a reader looks again, and how many items are evicted for one that is stored.
const TRIES: usize = 8;

/// Keys that are even have small values, odd ones large values: a class for each size.
const CLASSES: [ClassConfig; 2] =
    [ClassConfig { chunks: 1500, hot: 300, warm: 600 }, ClassConfig { chunks: 1000, hot: 200, warm: 400 }];

/// Words of a value.
const WORDS: [usize; 2] = [8, 64];

struct Cache {
    books: Vec<Mutex<Book>>,

    // Which item each key has. A real cache has many maps here, by the key's hash, each under its own lock.
    index: RwLock<HashMap<u32, ItemId>>,

    // The words of each chunk's value. They are written before the index names the item, and the chunk gets no other
    // one while a reader holds it: so relaxed words are read whole.
    values: Vec<Vec<AtomicU64>>,
    readers_left: AtomicUsize,
}

#[derive(Default)]
struct Tally {
    hits: u64,
    wrong: u64,
}

fn class_of(key: u32) -> usize {
    (key % 2) as usize
}

/// A random key: those with small numbers more often.
fn some_key(state: &mut u64) -> u32 {
    *state = state.wrapping_mul(6364136223846793005).wrapping_add(1442695040888963407);
    let a = (*state >> 33) % u64::from(KEYS);
    (a * a / u64::from(KEYS)) as u32
}

impl Cache {
    /// The item that a key has now. It may end at once: then `get` answers Stale (see `ask`).
    fn look_up(&self, key: u32) -> Option<ItemId> {
        self.index.read().unwrap().get(&key).copied()
    }

    /// Asks for a key: whether it was there, and its value right. Stale isn't a miss: the item ended after the index
    /// was asked. Mostly the key was stored anew, and the index names the new item: so it asks again. It does so a few
    /// times only, since a thread may be storing this key all the time.
    fn ask(&self, worker: &Worker, key: u32, now: u64) -> Option<bool> {
        for _ in 0..TRIES {
            let item = self.look_up(key)?;
            let hold = match worker.get(item) {
                Err(GetRefusal::Stale | GetRefusal::Busy) => continue,
                other => other.ok()?,
            };
            // While there is the hold, the chunk isn't used for another item: so here the value is read.
            let value = &self.values[item.chunk as usize];
            let right = hold.label() == u64::from(key)
                && value.iter().all(|word| word.load(Ordering::Relaxed) == u64::from(key));
            hold.touch(now);
            return Some(right); // the hold ends here, and is given back
        }
        None
    }

    fn read_all(&self, worker: &Worker, seed: u64, reads: u64) -> Tally {
        let mut tally = Tally::default();
        let mut state = seed;
        for now in 1..=reads {
            if let Some(right) = self.ask(worker, some_key(&mut state), now) {
                tally.hits += 1;
                tally.wrong += u64::from(!right);
            }
        }
        self.readers_left.fetch_sub(1, Ordering::SeqCst);
        tally
    }

    /// The last item of COLD, or of WARM or HOT where COLD is empty. It looks past a few that a reader holds, or a bump
    /// that waits: their chunks would come free later, by a sweep.
    fn last_of(book: &mut Book) -> Option<Seen> {
        [Place::Cold, Place::Warm, Place::Hot].into_iter().find_map(|place| {
            let mut last = book.look(place, None).ok()??;
            for _ in 0..TRIES {
                if last.marks.refs == 1 {
                    break;
                }
                last = book.look(place, Some(last.item.chunk)).ok()??;
            }
            Some(last)
        })
    }

    /// Ages a class a little, and evicts while no chunk is free: a key, which is the label, leaves the index.
    fn make_room(&self, book: &mut Book) {
        book.sweep();
        for _ in 0..TRIES {
            book.pull(Tail::Hot);
            book.pull(Tail::Warm);
            book.pull(Tail::Cold);
            if book.size(Place::Unused) > 0 {
                return;
            }
            if let Some(last) = Self::last_of(book) {
                self.index.write().unwrap().remove(&(last.label as u32));
                book.unlink(last.item).ok();
            }
        }
    }

    /// Stores a key in place of the item that it had. Once the class's lock is let go, another thread may evict the
    /// new item and use its chunk again: so before that its value is written, and then the index names it. The old item
    /// ends last: so the key is never without a value. Where no chunk is free, it answers false and forgets the key,
    /// whose value is out of date.
    fn store(&self, key: u32, now: u64) -> bool {
        let mut book = self.books[class_of(key)].lock().unwrap();
        self.make_room(&mut book);
        let linked = book.link(u64::from(key), now);
        if let Ok(item) = linked {
            for word in &self.values[item.chunk as usize] {
                word.store(u64::from(key), Ordering::Relaxed);
            }
        }
        let old = match linked {
            Ok(item) => self.index.write().unwrap().insert(key, item),
            Err(_) => self.index.write().unwrap().remove(&key),
        };
        if let Some(old) = old {
            book.unlink(old).ok();
        }
        linked.is_ok()
    }

    /// Applies what waits in a reader's ring, each run of bumps under the lock of its class.
    fn drain(&self, lane: &mut Lane, now: u64) {
        while let Some(class) = lane.class() {
            self.books[class as usize].lock().unwrap().apply_run(lane, now, 64).ok();
        }
    }

    /// Stores keys, and drains after each sixteenth, until the readers are done. Answers how many found no chunk free.
    fn keep(&self, lanes: &mut [Lane]) -> u64 {
        let mut state = 5;
        let (mut now, mut refused) = (0, 0);
        while self.readers_left.load(Ordering::SeqCst) > 0 {
            now += 1;
            refused += u64::from(!self.store(some_key(&mut state), now));
            if now % 16 == 0 {
                lanes.iter_mut().for_each(|lane| self.drain(lane, now));
            }
        }
        refused
    }

    /// Closes a worker, applies what is left in its ring, and tells whether all that was accepted is applied.
    fn settle(&self, lane: &mut Lane, worker: Worker) -> bool {
        if lane.close(worker).is_err() {
            return false;
        }
        self.drain(lane, u64::MAX);
        matches!(lane.rest(), Rest::Settled { counts, applied } if applied == counts.accepted)
    }
}

fn main() -> ExitCode {
    let reads = std::env::args().nth(1).map_or(200_000, |word| word.parse().expect("a number of reads"));
    let config = Config { workers: READERS as u32, capacity: 256, refs_limit: 64, first_generation: 1, words: 0 };
    let Parts { mut workers, books, mut lanes } = bump::open(&config, &CLASSES).expect("a store").parts();
    let words = |class: usize| (0..WORDS[class]).map(|_| AtomicU64::new(0)).collect::<Vec<_>>();
    let cache = Cache {
        books: books.into_iter().map(Mutex::new).collect(),
        index: RwLock::new(HashMap::new()),
        values: (0..2).flat_map(|class| (0..CLASSES[class].chunks).map(move |_| words(class))).collect(),
        readers_left: AtomicUsize::new(READERS),
    };
    for key in 0..KEYS {
        cache.store(key, 0);
    }
    let mut refused = 0;
    let tallies: Vec<Tally> = thread::scope(|scope| {
        let threads: Vec<_> = workers
            .iter_mut()
            .enumerate()
            .map(|(number, worker)| {
                let cache = &cache;
                scope.spawn(move || cache.read_all(worker, 17 + number as u64, reads))
            })
            .collect();
        refused = cache.keep(&mut lanes);
        threads.into_iter().map(|thread| thread.join().unwrap()).collect()
    });
    let settled: Vec<bool> = lanes.iter_mut().zip(workers).map(|(lane, worker)| cache.settle(lane, worker)).collect();
    let mut dying = 0;
    for book in &cache.books {
        let mut book = book.lock().unwrap();
        book.sweep();
        dying += book.size(Place::Dying);
    }
    let sum = |of: fn(&Tally) -> u64| tallies.iter().map(of).sum::<u64>();
    let (wrong, settled) = (sum(|tally| tally.wrong), settled.iter().all(|all| *all));
    println!("{READERS} readers read {wrong} wrong values");
    println!("each bump that was accepted is applied: {}", if settled { "yes" } else { "no" });
    println!("{dying} chunks wait for a sweep");
    eprintln!("{} of {READERS} x {reads} reads hit, {refused} stores found no chunk", sum(|tally| tally.hits));
    ExitCode::from(u8::from(wrong > 0 || !settled || dying > 0))
}
