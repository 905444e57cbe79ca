//! The locks of a store's classes, and a lane, which applies the bumps of a worker's ring under them. A module of reads.rs.

use crate::books::{Applied, Book, Class};
use crate::places::Tail;
use crate::rings::{Receiver, ring};
use crate::words::{ACTIVE, Chunk, FETCHED, ItemId, lives};
use std::sync::atomic::Ordering::SeqCst;
use std::sync::{Arc, Mutex, MutexGuard};

/// The lists of each class under its lock, and the first chunk of each.
pub struct Classes {
    books: Vec<Mutex<Book>>,
    starts: Vec<u32>,
}

/// A bump that was applied. The loop that is timed doesn't look at its item.
#[allow(dead_code)]
pub struct Entry {
    pub number: u64,
    pub life: ItemId,
    pub applied: Applied,
}

/// Applies the bumps of one worker's ring.
pub struct Lane {
    receiver: Receiver,
    capacity: u32,
    applied: u64,
}

impl Classes {
    /// One class, whose items all stand in COLD and were hit, and the lane of the ring in which their bumps wait.
    pub fn queued(items: u32, capacity: u32) -> (Classes, Lane) {
        let (classes, mut lanes) = Classes::with_bumps(1, items, capacity, &[lives(0, items)]);
        (classes, lanes.remove(0))
    }

    /// Classes of so many chunks each, whose items all stand in COLD and were hit, and the lanes of the rings in which these bumps wait.
    pub fn with_bumps(classes: u32, items: u32, capacity: u32, bumps: &[Vec<ItemId>]) -> (Classes, Vec<Lane>) {
        let words: Arc<[Chunk]> = (0..classes * items)
            .map(|_| Chunk::new(0, 0))
            .collect();
        let starts: Vec<u32> = (0..classes).map(|class| class * items).collect();
        let books = starts.iter().map(|&first| {
            let mut book = Book::new(words.clone(), first, Class { chunks: items, hot: 0, warm: 0 });
            for number in 0..items {
                assert!(book.link(number as u64, 0).is_ok());
                book.pull(Tail::Hot);
            }
            Mutex::new(book)
        });
        let books = books.collect();
        let lanes = bumps.iter().map(|lives| {
            let (mut sender, receiver) = ring(capacity);
            for &life in lives {
                let head = &words[life.chunk as usize].head;
                head.fetch_or(FETCHED | ACTIVE, SeqCst);
                head.fetch_add(1, SeqCst);
                assert!(sender.offer(life).is_some());
            }
            Lane { receiver, capacity, applied: 0 }
        });
        let lanes = lanes.collect();
        (Classes { books, starts }, lanes)
    }

    /// The lists of the class that has a chunk, under its lock.
    fn lock_of_chunk(&self, chunk: u32) -> MutexGuard<'_, Book> {
        let class = self.starts.iter().skip(1).take_while(|&&start| start <= chunk).count();
        self.books[class].lock().unwrap()
    }
}

impl Lane {
    /// Applies the next bump, or answers None where none is known to be left in the ring.
    #[inline]
    pub fn next(&mut self, classes: &Classes, now: u64) -> Option<Entry> {
        let (number, life) = self.receiver.take()?;
        let applied = classes.lock_of_chunk(life.chunk).apply(life, now);
        self.applied += 1;
        Some(Entry { number, life, applied })
    }

    /// Applies the bumps that are known to be left in the ring, at most as many as it has room for: each run of bumps of one class under one lock. Answers how many.
    #[inline]
    pub fn drain(&mut self, classes: &Classes, now: u64) -> u64 {
        let mut done = 0;
        let mut next = self.receiver.take();
        while let Some((_, first)) = next {
            let mut life = first;
            let mut book = classes.lock_of_chunk(first.chunk);
            loop {
                book.apply(life, now);
                done += 1;
                if done == self.capacity {
                    next = None;
                    break;
                }
                next = self.receiver.take();
                match next {
                    Some((_, other)) if book.has(other.chunk) => life = other,
                    _ => break,
                }
            }
        }
        self.applied += done as u64;
        done as u64
    }

    pub fn applied(&self) -> u64 {
        self.applied
    }
}
