//! The calls of a Book and moves among lists in plain Rust, and the workloads of `bump_bench` that make them. `bench/run` builds and runs both programs.
//! rustc --edition 2024 -C opt-level=3 -C codegen-units=1 -C panic=abort bench/changes.rs -o changes && ./changes all

// Bumps are applied by reads.rs.
#[allow(dead_code)]
mod books;
mod calls;
mod lists;
mod measure;
mod moves;
mod places;
mod words;

use calls::CALLS;
use measure::{Measured, measure_named};
use moves::{MOVES, TIMES};

fn main() {
    let calls = CALLS.map(|calls| Measured {
        name: calls.name,
        threads: 1,
        operations: calls.times as u64,
        pass: Box::new(move || calls::pass(calls)),
    });
    let moves = MOVES.map(|moves| Measured {
        name: moves.name,
        threads: 1,
        operations: TIMES as u64,
        pass: Box::new(move || moves::pass(moves)),
    });
    measure_named(calls.into_iter().chain(moves).collect());
}
