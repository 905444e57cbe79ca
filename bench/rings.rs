//! A bounded ring of bumps for one sender and one receiver, each of which knows its own end. A module of reads.rs.

use crate::words::ItemId;
use std::sync::Arc;
use std::sync::atomic::AtomicU64;
use std::sync::atomic::Ordering;
use std::sync::atomic::Ordering::{Acquire, Relaxed, Release, SeqCst};

/// The order in which an end tells the other how far it is. With the cfg `one_order` it is that of each of Rattle's atomic steps.
const TOLD: Ordering = if cfg!(one_order) { SeqCst } else { Release };

/// On cache lines of its own.
#[repr(align(128))]
struct Apart(AtomicU64);

struct Ring {
    sent: Apart,
    received: Apart,
    bumps: Box<[AtomicU64]>,
}

pub struct Sender {
    ring: Arc<Ring>,
    sent: u64,
    received: u64,
    next: usize,
}

pub struct Receiver {
    ring: Arc<Ring>,
    sent: u64,
    received: u64,
    next: usize,
}

pub fn ring(capacity: u32) -> (Sender, Receiver) {
    let ring = Arc::new(Ring {
        sent: Apart(AtomicU64::new(0)),
        received: Apart(AtomicU64::new(0)),
        bumps: (0..capacity).map(|_| AtomicU64::new(0)).collect(),
    });
    let other = ring.clone();
    (Sender { ring, sent: 0, received: 0, next: 0 }, Receiver { ring: other, sent: 0, received: 0, next: 0 })
}

fn after(place: usize, places: usize) -> usize {
    if place + 1 == places { 0 } else { place + 1 }
}

impl Sender {
    /// The bump's number, or None where no room is known.
    #[inline]
    pub fn offer(&mut self, life: ItemId) -> Option<u64> {
        let places = self.ring.bumps.len();
        if self.sent - self.received == places as u64 {
            self.received = self.ring.received.0.load(Acquire);
            if self.sent - self.received == places as u64 {
                return None;
            }
        }
        self.ring.bumps[self.next].store((life.generation as u64) << 32 | life.chunk as u64, Relaxed);
        self.next = after(self.next, places);
        let number = self.sent;
        self.sent += 1;
        self.ring.sent.0.store(self.sent, TOLD);
        Some(number)
    }
}

impl Receiver {
    /// The next bump, with its number.
    pub fn take(&mut self) -> Option<(u64, ItemId)> {
        if self.received == self.sent {
            self.sent = self.ring.sent.0.load(Acquire);
            if self.received == self.sent {
                return None;
            }
        }
        let bump = self.ring.bumps[self.next].load(Relaxed);
        self.next = after(self.next, self.ring.bumps.len());
        let number = self.received;
        self.received += 1;
        self.ring.received.0.store(self.received, TOLD);
        Some((number, ItemId { chunk: bump as u32, generation: (bump >> 32) as u32 }))
    }
}
