//! Moves to the front among eight lists, and the workloads of `bump_bench` that make them. A module of changes.rs.

use crate::lists::Lists;
use crate::measure::Tally;
use std::time::Instant;

#[derive(Clone, Copy)]
pub struct Moves {
    pub name: &'static str,
    nodes: u32,
}

pub const MOVES: [Moves; 3] = [
    Moves { name: "move_1000", nodes: 1_000 },
    Moves { name: "move_100000", nodes: 100_000 },
    Moves { name: "move_1000000", nodes: 1_000_000 },
];

pub const TIMES: u32 = 1_000_000;

const LISTS: u32 = 8;

type EightLists = Lists<{ LISTS as usize }>;

#[derive(Clone, Copy)]
struct Move {
    node: u32,
    list: u32,
}

/// Moves drawn at random, the same in each run.
fn draw_moves(nodes: u32) -> Vec<Move> {
    let mut draw: u64 = 12345;
    (0..TIMES)
        .map(|_| {
            draw = draw.wrapping_mul(6_364_136_223_846_793_005).wrapping_add(1_442_695_040_888_963_407);
            Move { node: ((draw >> 33) as u32) % nodes, list: ((draw >> 20) % LISTS as u64) as u32 }
        })
        .collect()
}

fn make_moves(lists: &mut EightLists, moves: &[Move]) {
    for step in moves {
        lists.to_front(step.node, step.list);
    }
}

/// Its name is what callgrind is told to count.
#[inline(never)]
fn timed_moves(lists: &mut EightLists, moves: &[Move]) {
    make_moves(lists, moves);
}

/// All moves are made twice, and timed the second time.
pub fn pass(moves: Moves) -> (u64, Tally) {
    let drawn = draw_moves(moves.nodes);
    let mut lists = Lists::new(moves.nodes, 0u32);
    make_moves(&mut lists, &drawn);
    let start = Instant::now();
    timed_moves(&mut lists, &drawn);
    let nanos = start.elapsed().as_nanos() as u64;
    (nanos, Tally { refused: 0, right: TIMES as u64, labels: lists.len(1u32) as u64 })
}
