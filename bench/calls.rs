//! The workloads of `bump_bench` that call a `Book`. A module of changes.rs.

use crate::books::{Book, Class, Pulled};
use crate::places::{Ended, Place, Tail};
use crate::measure::{Tally, one_more};
use crate::words::{ACTIVE, COLD, Chunk, FETCHED, FURTHER, ItemId, SEGMENT, lives};
use std::sync::atomic::Ordering::SeqCst;
use std::time::Instant;

#[derive(Clone, Copy)]
enum Call {
    LinkUnlink,
    LinkUnlinkWords,
    Pull(Tail),
    Sweep,
}

#[derive(Clone, Copy)]
enum Before {
    Hit,
    Ride,
    Pull(Tail),
    End,
}

#[derive(Clone, Copy)]
pub struct Calls {
    pub name: &'static str,
    class: Class,
    items: u32,
    before: &'static [Before],
    call: Call,
    pub times: u32,
    behind: Place,
}

const NO_ROOM: Class = Class { chunks: 8_192, hot: 0, warm: 0 };

const ROOM: Class = Class { chunks: 8_192, hot: 8_192, warm: 8_192 };

const LINKS: Calls = Calls {
    name: "link_unlink",
    class: Class { chunks: 65_536, ..NO_ROOM },
    items: 32_768,
    before: &[],
    call: Call::LinkUnlink,
    times: 32_768,
    behind: Place::Hot,
};

const PULL: Calls = Calls {
    name: "pull_hot_cold",
    class: NO_ROOM,
    items: 8_192,
    before: &[],
    call: Call::Pull(Tail::Hot),
    times: 8_192,
    behind: Place::Cold,
};

const SWEEP: Calls =
    Calls { name: "sweep_freed", before: &[Before::End], call: Call::Sweep, behind: Place::Unused, ..PULL };

pub const CALLS: [Calls; 18] = [
    LINKS,
    Calls { name: "link_unlink_words", call: Call::LinkUnlinkWords, ..LINKS },
    Calls { name: "link_unlink_1000", class: Class { chunks: 1_000, ..NO_ROOM }, items: 500, ..LINKS },
    Calls { name: "link_unlink_1000000", class: Class { chunks: 1_000_000, ..NO_ROOM }, items: 500_000, ..LINKS },
    Calls { name: "pull_hot_active", before: &[Before::Hit, Before::Hit], behind: Place::Warm, ..PULL },
    PULL,
    Calls { name: "pull_hot_stay", class: ROOM, behind: Place::Hot, ..PULL },
    Calls {
        name: "pull_warm_active",
        before: &[Before::Hit, Before::Hit, Before::Pull(Tail::Hot), Before::Hit],
        call: Call::Pull(Tail::Warm),
        behind: Place::Warm,
        ..PULL
    },
    Calls {
        name: "pull_warm_cold",
        before: &[Before::Hit, Before::Hit, Before::Pull(Tail::Hot)],
        call: Call::Pull(Tail::Warm),
        ..PULL
    },
    Calls {
        name: "pull_warm_stay",
        class: ROOM,
        before: &[Before::Hit, Before::Hit, Before::Pull(Tail::Hot)],
        call: Call::Pull(Tail::Warm),
        behind: Place::Warm,
        ..PULL
    },
    Calls {
        name: "pull_cold_active",
        before: &[Before::Hit, Before::Pull(Tail::Hot), Before::Ride],
        call: Call::Pull(Tail::Cold),
        behind: Place::Warm,
        ..PULL
    },
    Calls { name: "pull_cold_stay", before: &[Before::Pull(Tail::Hot)], call: Call::Pull(Tail::Cold), ..PULL },
    Calls {
        name: "pull_evict",
        before: &[Before::Pull(Tail::Hot)],
        call: Call::Pull(Tail::Evict),
        behind: Place::Unused,
        ..PULL
    },
    Calls {
        name: "pull_evict_held",
        before: &[Before::Hit, Before::Pull(Tail::Hot), Before::Ride],
        call: Call::Pull(Tail::Evict),
        behind: Place::Dying,
        ..PULL
    },
    Calls {
        name: "pull_hot_cold_1000000",
        class: Class { chunks: 1_000_000, ..NO_ROOM },
        items: 1_000_000,
        times: 1_000_000,
        ..PULL
    },
    SWEEP,
    Calls {
        name: "sweep_held",
        before: &[Before::Hit, Before::Pull(Tail::Hot), Before::Ride, Before::Pull(Tail::Evict)],
        behind: Place::Dying,
        ..SWEEP
    },
    Calls {
        name: "sweep_freed_1000000",
        class: Class { chunks: 1_000_000, ..NO_ROOM },
        items: 1_000_000,
        times: 1_000_000,
        ..SWEEP
    },
];

/// What the hits of all items leave, or a pull of each.
fn prepare<const WORDS: usize>(book: &mut Book<WORDS>, items: &[ItemId], before: Before) {
    for &item in items {
        let node = item.chunk;
        match before {
            Before::Hit => {
                let found = book.chunk(node).head.fetch_or(FETCHED, SeqCst);
                if found & FETCHED != 0 {
                    book.chunk(node).head.fetch_or(ACTIVE, SeqCst);
                }
            }
            Before::Ride => {
                let found = book.chunk(node).head.fetch_or(FETCHED | ACTIVE, SeqCst);
                assert!(found & SEGMENT == COLD);
                book.chunk(node).head.fetch_add(1, SeqCst);
            }
            Before::Pull(tail) => {
                book.pull(tail);
            }
            Before::End => {
                book.chunk(node).head.fetch_add(1, SeqCst);
                let _ended = book.unlink(item);
                book.chunk(node).head.fetch_sub(1, SeqCst);
            }
        }
    }
}

/// Links an item and unlinks it, so often. Right is an item that is freed.
fn links<const WORDS: usize>(book: &mut Book<WORDS>, times: u32) -> Tally {
    let mut refused: u64 = 0;
    let mut right: u64 = 0;
    for number in 0..times {
        match book.link(number as u64, 5) {
            Ok(item) => match book.unlink(item) {
                Ok(Ended::Freed) => right = right.wrapping_add(1),
                Ok(Ended::Deferred) | Err(_) => refused = one_more(refused),
            },
            Err(_) => refused = one_more(refused),
        }
    }
    Tally { refused, right, labels: 0 }
}

/// The same of items with two further words.
fn wide_links<const WORDS: usize>(book: &mut Book<WORDS>, times: u32) -> Tally {
    let mut refused: u64 = 0;
    let mut right: u64 = 0;
    for number in 0..times {
        let label = number as u64;
        match book.link_words(label, &[label, label], 5) {
            Ok(item) => match book.unlink(item) {
                Ok(Ended::Freed) => right = right.wrapping_add(1),
                Ok(Ended::Deferred) | Err(_) => refused = one_more(refused),
            },
            Err(_) => refused = one_more(refused),
        }
    }
    Tally { refused, right, labels: 0 }
}

/// Pulls the last item of a list, so often. Right is a pull that found one.
fn pulls<const WORDS: usize>(book: &mut Book<WORDS>, tail: Tail, times: u32) -> Tally {
    let mut refused: u64 = 0;
    let mut right: u64 = 0;
    for _ in 0..times {
        if matches!(book.pull(tail), Pulled::Empty) {
            refused = one_more(refused);
        } else {
            right = right.wrapping_add(1);
        }
    }
    Tally { refused, right, labels: 0 }
}

/// Sweeps once. Right is a chunk that is freed.
fn sweeps<const WORDS: usize>(book: &mut Book<WORDS>) -> Tally {
    Tally { refused: 0, right: book.sweep() as u64, labels: 0 }
}

/// Its name is what callgrind is told to count.
#[inline(never)]
fn timed_calls<const WORDS: usize>(book: &mut Book<WORDS>, call: Call, times: u32) -> Tally {
    match call {
        Call::LinkUnlink => links(book, times),
        Call::LinkUnlinkWords => wide_links(book, times),
        Call::Pull(tail) => pulls(book, tail, times),
        Call::Sweep => sweeps(book),
    }
}

pub fn pass(calls: Calls) -> (u64, Tally) {
    match calls.call {
        Call::LinkUnlinkWords => pass_of::<FURTHER>(calls),
        _ => pass_of::<0>(calls),
    }
}

fn pass_of<const WORDS: usize>(calls: Calls) -> (u64, Tally) {
    let chunks = (0..calls.class.chunks).map(|_| Chunk::<WORDS>::new(0, 0)).collect();
    let mut book = Book::new(chunks, 0, calls.class);
    for number in 0..calls.items as u64 {
        let _linked = book.link_words(number, &[number; WORDS], 0);
    }
    let items = lives(0, calls.items);
    for &before in calls.before {
        prepare(&mut book, &items, before);
    }
    let start = Instant::now();
    let mut tally = timed_calls(&mut book, calls.call, calls.times);
    let nanos = start.elapsed().as_nanos() as u64;
    tally.labels = tally.labels.wrapping_add(book.size(calls.behind) as u64);
    (nanos, tally)
}
