//! A worker's calls of a store in plain Rust, and the workloads of `bump_bench` that make them. `bench/run` builds and runs both programs.
//! rustc --edition 2024 -C opt-level=3 -C codegen-units=1 -C panic=abort bench/reads.rs -o reads && ./reads all

mod apart;
// Their other calls are made by changes.rs.
#[allow(dead_code)]
mod books;
mod lanes;
#[allow(dead_code)]
mod lists;
mod measure;
#[allow(dead_code)]
mod places;
mod rings;
mod runs;
mod words;
mod workers;

use apart::{Start, work_apart};
use books::Applied;
use lanes::{Classes, Lane};
use measure::{Measured, Tally, measure_named, one_more};
use rings::Receiver;
use std::time::Instant;
use words::{ACTIVE, FETCHED, FURTHER, ItemId, lives};
use workers::{Dropped, Store, Touch, Worker};

/// What each hit of a pass comes to: an answer of its touch; that it asks first, and finds both marks; that it takes whatever item is there, and finds them by that; or that it glances at it, and finds them so.
#[derive(Clone, Copy)]
enum Answer {
    First,
    Already,
    Marked,
    Queued,
    Full,
    Asked,
    Any,
    Glance,
}

/// One of the answers: the loop that wants it is compiled for it alone, as each caller of a touch has code of its own.
trait Wanted {
    fn is(touch: Touch) -> bool;
}

struct First;

impl Wanted for First {
    fn is(touch: Touch) -> bool {
        matches!(touch, Touch::First)
    }
}

struct Already;

impl Wanted for Already {
    fn is(touch: Touch) -> bool {
        matches!(touch, Touch::Already)
    }
}

struct Marked;

impl Wanted for Marked {
    fn is(touch: Touch) -> bool {
        matches!(touch, Touch::Marked)
    }
}

struct Queued;

impl Wanted for Queued {
    fn is(touch: Touch) -> bool {
        matches!(touch, Touch::Queued(_))
    }
}

struct Full;

impl Wanted for Full {
    fn is(touch: Touch) -> bool {
        matches!(touch, Touch::Dropped(Dropped::Full))
    }
}

fn gets<const WORDS: usize>(store: &Store<WORDS>, worker: &mut Worker, items: &[ItemId], rounds: u32) -> Tally {
    let mut refused: u64 = 0;
    for _ in 0..rounds {
        for &item in items {
            match worker.get(store, item) {
                Ok(hold) => hold.release(store),
                Err(_) => refused = one_more(refused),
            }
        }
    }
    Tally { refused, right: 0, labels: 0 }
}

fn hits<W: Wanted, const WORDS: usize>(store: &Store<WORDS>, worker: &mut Worker, items: &[ItemId], rounds: u32) -> Tally {
    let mut refused: u64 = 0;
    let mut right: u64 = 0;
    let mut labels: u64 = 0;
    for _ in 0..rounds {
        for &item in items {
            match worker.get(store, item) {
                Ok(mut hold) => {
                    let touch = worker.touch(store, &mut hold, 5);
                    let label = hold.label(store);
                    hold.release(store);
                    if W::is(touch) {
                        right = right.wrapping_add(1);
                    }
                    labels = labels.wrapping_add(label);
                }
                Err(_) => refused = one_more(refused),
            }
        }
    }
    Tally { refused, right, labels }
}

/// Each hit asks first whether the item has both marks, and touches it only where it hasn't. An item that has them is wanted.
#[inline(never)]
fn asked_hits<const WORDS: usize>(store: &Store<WORDS>, worker: &mut Worker, items: &[ItemId], rounds: u32) -> Tally {
    let mut refused: u64 = 0;
    let mut right: u64 = 0;
    let mut labels: u64 = 0;
    for _ in 0..rounds {
        for &item in items {
            match worker.get(store, item) {
                Ok(mut hold) => {
                    if hold.is_marked(store) {
                        right = right.wrapping_add(1);
                    } else {
                        worker.touch(store, &mut hold, 5);
                    }
                    let label = hold.label(store);
                    hold.release(store);
                    labels = labels.wrapping_add(label);
                }
                Err(_) => refused = one_more(refused),
            }
        }
    }
    Tally { refused, right, labels }
}

/// Takes whatever item is linked in each chunk, reads its label and two further words, and releases it. By the head by which it was taken it is touched only where it hasn't both marks: ACTIVE alone is asked, as in bump_bench. An item that has them is wanted. There is none where chunks haven't so many words.
#[inline(never)]
fn any_hits<const WORDS: usize>(store: &Store<WORDS>, worker: &mut Worker, items: &[ItemId], rounds: u32) -> Tally {
    let mut refused: u64 = 0;
    let mut right: u64 = 0;
    let mut labels: u64 = 0;
    if WORDS < FURTHER {
        return Tally { refused, right, labels };
    }
    for _ in 0..rounds {
        for item in items {
            match worker.get_any(store, item.chunk) {
                Ok((mut hold, found)) => {
                    if found & ACTIVE != 0 {
                        right = right.wrapping_add(1);
                    } else {
                        worker.touch(store, &mut hold, 5);
                    }
                    let label = hold.label(store);
                    let first = hold.word(store, 0);
                    let second = hold.word(store, 1);
                    hold.release(store);
                    labels = labels.wrapping_add(label).wrapping_add(first).wrapping_add(second);
                }
                Err(_) => refused = one_more(refused),
            }
        }
    }
    Tally { refused, right, labels }
}

/// The sum of the label and two further words of the item that is linked in the chunk, by a glance. None where it hasn't both marks, or ended meanwhile.
#[inline]
fn glance_sum<const WORDS: usize>(store: &Store<WORDS>, worker: &mut Worker, number: u32) -> Option<u64> {
    let (glance, found) = worker.glance(store, number)?;
    if found & FETCHED == 0 || found & ACTIVE == 0 {
        return None;
    }
    let label = glance.label(store);
    let first = glance.word(store, 0);
    let second = glance.word(store, 1);
    glance.end(store).then(|| label.wrapping_add(first).wrapping_add(second))
}

/// Reads as much of the item in each chunk by glances, which write nothing. One that has both marks, and is the same behind its words, is wanted. There is none where chunks haven't so many words.
#[inline(never)]
fn glance_hits<const WORDS: usize>(store: &Store<WORDS>, worker: &mut Worker, items: &[ItemId], rounds: u32) -> Tally {
    let mut refused: u64 = 0;
    let mut right: u64 = 0;
    let mut labels: u64 = 0;
    if WORDS < FURTHER {
        return Tally { refused, right, labels };
    }
    for _ in 0..rounds {
        for item in items {
            match glance_sum(store, worker, item.chunk) {
                Some(sum) => {
                    right = right.wrapping_add(1);
                    labels = labels.wrapping_add(sum);
                }
                None => refused = one_more(refused),
            }
        }
    }
    Tally { refused, right, labels }
}

/// Its name is what callgrind is told to count.
#[inline(never)]
fn timed_pass<const WORDS: usize>(store: &Store<WORDS>, worker: &mut Worker, items: &[ItemId], rounds: u32, wanted: Option<Answer>) -> Tally {
    match wanted {
        Some(Answer::First) => hits::<First, WORDS>(store, worker, items, rounds),
        Some(Answer::Already) => hits::<Already, WORDS>(store, worker, items, rounds),
        Some(Answer::Marked) => hits::<Marked, WORDS>(store, worker, items, rounds),
        Some(Answer::Queued) => hits::<Queued, WORDS>(store, worker, items, rounds),
        Some(Answer::Full) => hits::<Full, WORDS>(store, worker, items, rounds),
        Some(Answer::Asked) => asked_hits(store, worker, items, rounds),
        Some(Answer::Any) => any_hits(store, worker, items, rounds),
        Some(Answer::Glance) => glance_hits(store, worker, items, rounds),
        None => gets(store, worker, items, rounds),
    }
}

/// Applies bumps until none is left in the ring. Its name is what callgrind is told to count.
#[inline(never)]
fn timed_drain(classes: &Classes, lane: &mut Lane) -> Tally {
    let mut right: u64 = 0;
    let mut labels: u64 = 0;
    while let Some(entry) = lane.next(classes, 5) {
        if let Applied::Moved = entry.applied {
            right = right.wrapping_add(1);
        }
        labels = labels.wrapping_add(entry.number);
    }
    Tally { refused: 0, right, labels }
}

/// How many chunks that nobody hits are on each side of items that all threads share: so their cache lines have nothing else that is used meanwhile.
const MARGIN: u32 = 16;

#[derive(Clone, Copy)]
struct Workload {
    name: &'static str,
    threads: u32,
    items: u32,
    cold: bool,
    /// Whether all threads have the same items, in place of items of their own.
    shared: bool,
    capacity: u32,
    /// How many further words each chunk has: none, or two.
    further: usize,
    touches: u32,
    /// Whether each ring is filled with the bumps of the items and drained before the pass.
    warm: bool,
    wanted: Option<Answer>,
    rounds: u32,
    /// Whether the bumps that wait in the ring are applied, in place of hits.
    drained: bool,
}

const GET: Workload = Workload {
    name: "store_get",
    threads: 1,
    items: 1_024,
    cold: false,
    shared: false,
    capacity: 1,
    further: 0,
    touches: 0,
    warm: false,
    wanted: None,
    rounds: 64,
    drained: false,
};

const HIT: Workload = Workload { name: "store_hit", touches: 2, wanted: Some(Answer::Already), ..GET };

/// Each of these hits asks first, and leaves out its touch.
const HIT_ASKED: Workload = Workload { name: "store_hit_asked", wanted: Some(Answer::Asked), ..HIT };

/// Each of these hits takes whatever item its chunk has, and reads two further words too.
const HIT_ANY: Workload = Workload { name: "store_hit_any", further: FURTHER, wanted: Some(Answer::Any), ..HIT };

/// Each of these hits reads the same by a glance.
const GLANCE: Workload = Workload { name: "store_glance", wanted: Some(Answer::Glance), ..HIT_ANY };

/// One item, which all threads hit.
const HOT: Workload = Workload { name: "store_hot", items: 1, shared: true, rounds: 65_536, ..HIT };

const HOT_ASKED: Workload = Workload { name: "store_hot_asked", wanted: Some(Answer::Asked), ..HOT };

const FIRST: Workload = Workload { name: "store_first", items: 8_192, wanted: Some(Answer::First), rounds: 1, ..GET };

const MARKED: Workload = Workload { name: "store_marked", touches: 1, wanted: Some(Answer::Marked), ..FIRST };

const QUEUED: Workload = Workload {
    name: "store_queued",
    cold: true,
    capacity: 8_192,
    warm: true,
    wanted: Some(Answer::Queued),
    ..FIRST
};

const FULL: Workload =
    Workload { name: "store_full", capacity: 1, touches: 1, warm: false, wanted: Some(Answer::Full), ..QUEUED };

/// The second hit of each item has queued its bump.
const DRAINED: Workload = Workload { name: "store_drained", touches: 2, warm: false, drained: true, ..QUEUED };

impl Workload {
    /// How many chunks the store has.
    fn chunks(self) -> u32 {
        if self.shared { self.items + 2 * MARGIN } else { self.items * self.threads }
    }

    /// The items of a thread.
    fn items_of(self, thread: u32) -> Vec<ItemId> {
        lives(if self.shared { MARGIN } else { thread * self.items }, self.items)
    }
}

/// Each on 1, 2 and 4 threads, bumps that are applied, and hits in stores of two sizes.
fn workloads() -> Vec<Workload> {
    let mut all = Vec::new();
    for workload in [GET, HIT, HIT_ASKED, HIT_ANY, GLANCE, HOT, HOT_ASKED, FIRST, MARKED, QUEUED, FULL] {
        for threads in [1, 2, 4] {
            all.push(Workload { threads, ..workload });
        }
    }
    all.push(DRAINED);
    all.push(Workload { name: "store_hit_1000", items: 1_000, rounds: 1_000, ..HIT });
    all.push(Workload { name: "store_hit_1000000", items: 1_000_000, rounds: 1, ..HIT });
    all
}

/// Fills the ring and drains it, so that its memory was in use before. Answers how many bumps that took.
fn warm_ring<const WORDS: usize>(store: &Store<WORDS>, worker: &mut Worker, receiver: &mut Receiver, items: &[ItemId]) -> u64 {
    hits::<First, WORDS>(store, worker, items, 2);
    let mut bumps = 0;
    while let Some((number, life)) = receiver.take() {
        assert_eq!(number, bumps);
        bumps += 1;
        store.apply_and_pull(life);
    }
    gets(store, worker, items, 1);
    bumps
}

/// What one worker's thread does. It ends with the worker's ring.
fn work<const WORDS: usize>(store: &Store<WORDS>, mut worker: Worker, mut receiver: Receiver, items: Vec<ItemId>, workload: Workload, start: &Start) -> (u64, Tally) {
    if workload.touches > 0 {
        hits::<First, WORDS>(store, &mut worker, &items, workload.touches);
    }
    let mut bumps = if workload.warm { warm_ring(store, &mut worker, &mut receiver, &items) } else { 0 };
    start.meet();
    let start = Instant::now();
    let mut tally = timed_pass(store, &mut worker, &items, workload.rounds, workload.wanted);
    let nanos = start.elapsed().as_nanos() as u64;
    let counts = worker.counts();
    assert_eq!(counts.attempted, counts.accepted + counts.full + counts.busy + counts.refs);
    while let Some((number, _)) = receiver.take() {
        assert_eq!(number, bumps);
        bumps += 1;
    }
    assert_eq!(counts.accepted, bumps);
    tally.labels = tally.labels.wrapping_add(bumps);
    (nanos, tally)
}

fn drained(workload: Workload) -> (u64, Tally) {
    let (classes, mut lane) = Classes::queued(workload.items, workload.capacity);
    let start = Instant::now();
    let tally = timed_drain(&classes, &mut lane);
    let nanos = start.elapsed().as_nanos() as u64;
    assert_eq!(lane.applied(), workload.items as u64);
    (nanos, tally)
}

fn pass(workload: Workload) -> (u64, Tally) {
    match workload.further {
        _ if workload.drained => drained(workload),
        0 => pass_of::<0>(workload),
        _ => pass_of::<FURTHER>(workload),
    }
}

fn pass_of<const WORDS: usize>(workload: Workload) -> (u64, Tally) {
    let Workload { threads, cold, capacity, .. } = workload;
    let (store, workers, receivers) = Store::<WORDS>::new(workload.chunks(), cold, threads, capacity);
    let ends = workers.into_iter().zip(receivers).zip(0..threads).collect();
    work_apart(ends, |((worker, receiver), number), start| {
        work(&store, worker, receiver, workload.items_of(number), workload, start)
    })
}

fn main() {
    let calls = workloads().into_iter().map(|workload| Measured {
        name: workload.name,
        threads: workload.threads,
        operations: workload.items as u64 * workload.rounds as u64,
        pass: Box::new(move || pass(workload)),
    });
    let drains = runs::ALL.into_iter().map(|runs| Measured {
        name: runs.name,
        threads: runs.drainers,
        operations: runs.operations(),
        pass: Box::new(move || runs.pass()),
    });
    measure_named(calls.chain(drains).collect());
}
