//! How a workload is measured, and what is printed of it. A module of reads.rs and of changes.rs.

const PASSES: usize = 15;

/// What is counted of a pass, so that each step has a use.
#[derive(Clone, Copy)]
pub struct Tally {
    pub refused: u64,
    pub right: u64,
    pub labels: u64,
}

/// Counts a refusal, of which there is none where one thread is at work.
#[cold]
#[inline(never)]
pub fn one_more(refused: u64) -> u64 {
    refused.wrapping_add(1)
}

/// A workload: the operations of one of its threads, and how it is passed through once, in so many nanoseconds.
pub struct Measured {
    pub name: &'static str,
    pub threads: u32,
    pub operations: u64,
    pub pass: Box<dyn Fn() -> (u64, Tally)>,
}

impl Measured {
    fn measure(&self, passes: usize) {
        let (first, tally) = (self.pass)();
        let mut times: Vec<u64> = (0..passes).map(|_| (self.pass)().0).collect();
        times.sort();
        let Measured { name, threads, operations, .. } = *self;
        let best = times.first().copied().unwrap_or(first);
        let median = times.get(times.len() / 2).copied().unwrap_or(first);
        let Tally { refused, right, labels } = tally;
        let each = |nanos: u64| nanos as f64 / operations as f64;
        let each_second = operations as u128 * threads as u128 * 1_000_000_000 / best.max(1) as u128;
        println!("{name}, threads {threads}: {:.2} nanoseconds at best, {:.2} in the middle of {passes} passes", each(best), each(median));
        println!(
            "RESULT\tplain\t{name}\t{threads}\t{:.2}\t{:.2}\t{each_second}\toperations={operations} refused={refused} right={right} labels={labels}",
            each(best), each(median)
        );
    }
}

/// Measures what the command line names: a workload or `all`, then how many passes, then of how many threads.
pub fn measure_named(all: Vec<Measured>) {
    let words: Vec<String> = std::env::args().collect();
    let Some(word) = words.get(1) else { return };
    let passes = words.get(2).and_then(|number| number.parse().ok()).unwrap_or(PASSES);
    let threads: Option<u32> = words.get(3).and_then(|number| number.parse().ok());
    for measured in all {
        let is_named = word == "all" || word == measured.name;
        if is_named && threads.unwrap_or(measured.threads) == measured.threads {
            measured.measure(passes);
        }
    }
}
