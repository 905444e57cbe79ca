//! Threads that pass through a workload side by side. A module of reads.rs.

use crate::measure::Tally;
use std::sync::atomic::AtomicU64;
use std::sync::atomic::Ordering::SeqCst;

/// The threads of a pass begin together.
pub struct Start {
    arrived: AtomicU64,
    threads: u64,
}

impl Start {
    pub fn meet(&self) {
        self.arrived.fetch_add(1, SeqCst);
        while self.arrived.load(SeqCst) < self.threads {
            std::hint::spin_loop();
        }
    }
}

/// Each worker does its work in a thread of its own. The mean of the threads, and what all of them counted.
pub fn work_apart<W: Send>(workers: Vec<W>, work: impl Fn(W, &Start) -> (u64, Tally) + Sync) -> (u64, Tally) {
    let threads = workers.len() as u64;
    let (start, work) = (&Start { arrived: AtomicU64::new(0), threads }, &work);
    std::thread::scope(|scope| {
        let threads_at_work: Vec<_> =
            workers.into_iter().map(|worker| scope.spawn(move || work(worker, start))).collect();
        let mut all = (0, Tally { refused: 0, right: 0, labels: 0 });
        for thread in threads_at_work {
            let (nanos, tally) = thread.join().unwrap();
            all.0 += nanos / threads;
            all.1.refused += tally.refused;
            all.1.right += tally.right;
            all.1.labels += tally.labels;
        }
        all
    })
}
