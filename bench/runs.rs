//! Bumps of several classes that wait in several rings, in runs of one class, and are applied by one or several drainers at once. A module of reads.rs.

use crate::apart::{Start, work_apart};
use crate::lanes::{Classes, Lane};
use crate::measure::Tally;
use crate::words::ItemId;
use std::time::Instant;

/// How many bumps of one class follow each other, and how many wait in each ring.
const RUN: u32 = 64;
const BUMPS: u32 = 8_192;

/// A workload: each ring is full of bumps of items of its own, which are of all classes in turn, and the drainers share the lanes.
#[derive(Clone, Copy)]
pub struct Runs {
    pub name: &'static str,
    classes: u32,
    lanes: u32,
    pub drainers: u32,
}

/// One lane, whose runs are of two classes.
const RUNS: Runs = Runs { name: "store_runs", classes: 2, lanes: 1, drainers: 1 };

const FOUR: Runs = Runs { name: "store_lanes", classes: 4, lanes: 4, drainers: 1 };

pub const ALL: [Runs; 4] = [RUNS, FOUR, Runs { drainers: 2, ..FOUR }, Runs { drainers: 4, ..FOUR }];

impl Runs {
    pub fn operations(self) -> u64 {
        self.lanes as u64 * BUMPS as u64
    }

    /// How many chunks each class has.
    fn chunks(self) -> u32 {
        BUMPS / self.classes * self.lanes
    }

    /// The items of a ring, in the order of their bumps.
    fn items(self, lane: u32) -> Vec<ItemId> {
        let own = lane * (BUMPS / self.classes);
        let item = |bump: u32| {
            let run = bump / RUN;
            let class = (run + lane) % self.classes;
            ItemId { chunk: class * self.chunks() + own + run / self.classes * RUN + bump % RUN, generation: 1 }
        };
        (0..BUMPS).map(item).collect()
    }

    pub fn pass(self) -> (u64, Tally) {
        let bumps: Vec<_> = (0..self.lanes).map(|lane| self.items(lane)).collect();
        let (classes, lanes) = Classes::with_bumps(self.classes, self.chunks(), BUMPS, &bumps);
        let mut groups: Vec<Vec<Lane>> = (0..self.drainers).map(|_| Vec::new()).collect();
        for (number, lane) in lanes.into_iter().enumerate() {
            groups[number % self.drainers as usize].push(lane);
        }
        work_apart(groups, |mut lanes, start: &Start| {
            start.meet();
            let start = Instant::now();
            let tally = timed_drains(&classes, &mut lanes);
            (start.elapsed().as_nanos() as u64, tally)
        })
    }
}

/// Drains each lane once. Its name is what callgrind is told to count.
#[inline(never)]
fn timed_drains(classes: &Classes, lanes: &mut [Lane]) -> Tally {
    let mut right: u64 = 0;
    for lane in lanes {
        right = right.wrapping_add(lane.drain(classes, 5));
    }
    Tally { refused: 0, right, labels: 0 }
}
