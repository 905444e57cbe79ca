//! Writes a trace of one kind, for `bumpsim model` and for model.rs: the same bytes for the same words. ITEMS, 10,000 where it isn't given, are
//! stored, half of them in class 0 and half in class 1, before the LINES that are drawn at random.
//! rustc --edition 2024 -C opt-level=3 bench/traces.rs -o traces && ./traces reads 500000 1 > reads.trace

use std::io::{self, BufWriter, Write};

const WORKERS: u64 = 4;

/// Items of class 2 that go through the turns of a hold.
const HELD: usize = 200;

/// What a line may be.
#[derive(Clone, Copy)]
enum Sort {
    /// A read of any item.
    Get,

    /// A read, of the first items more often than of the last.
    GetLikely,

    /// The next turn of an item of class 2.
    Turn,

    /// An item ends and is stored anew: two lines.
    Renew,

    /// One of these pulls.
    Pull(&'static [&'static str]),

    Sweep,
    Drain,
}

use Sort::{Drain, Get, GetLikely, Pull, Renew, Sweep, Turn};

/// Of a thousand lines so many are of each sort.
struct Kind {
    name: &'static str,
    shares: &'static [(u64, Sort)],

    /// Whether all items are pulled from HOT before.
    pulled: bool,
}

const KINDS: [Kind; 4] = [
    // Nearly all reads find ACTIVE.
    Kind { name: "reads", shares: &[(1, Drain), (9, Pull(&["hot", "warm", "cold"])), (990, GetLikely)], pulled: true },
    // Items are bumped out of COLD, from all over it, and pulled back.
    Kind { name: "bumps", shares: &[(5, Drain), (395, Pull(&["warm"])), (600, Get)], pulled: true },
    // Items end, are stored anew and evicted.
    Kind { name: "churn", shares: &[(10, Sweep), (200, Pull(&["hot", "evict"])), (790, Renew)], pulled: false },
    // All of these, and holds that are kept.
    Kind {
        name: "mixed",
        shares: &[
            (5, Drain),
            (5, Sweep),
            (200, Pull(&["hot", "hot", "hot", "warm", "warm", "cold", "evict"])),
            (100, Renew),
            (190, Turn),
            (500, GetLikely),
        ],
        pulled: true,
    },
];

/// A small generator of numbers that look drawn at random.
struct Draw(u64);

impl Draw {
    fn below(&mut self, end: u64) -> u64 {
        self.0 = self.0.wrapping_mul(6_364_136_223_846_793_005).wrapping_add(1_442_695_040_888_963_407);
        (self.0 >> 33) % end
    }

    /// The square of a number between 0 and 1: half of all are in the first quarter.
    fn likely(&mut self, end: u64) -> u64 {
        let part = self.below(1 << 16);
        part * part * end >> 32
    }
}

struct Trace<W: Write> {
    out: W,
    draw: Draw,
    items: u64,

    /// How far each item of class 2 is.
    turns: [u8; HELD],
}

impl<W: Write> Trace<W> {
    fn store_all(&mut self, pulled: bool) -> io::Result<()> {
        let chunks = self.items * 6 / 5;
        writeln!(self.out, "store {WORKERS} 8192 1048575 1\nclass {chunks} 1000 2000\nclass {chunks} 1000 2000\nclass {} 1000 2000", HELD * 4)?;
        for item in 0..self.items {
            writeln!(self.out, "set i{item} {} {item}", item % 2)?;
        }
        if pulled {
            for item in 0..self.items {
                writeln!(self.out, "pull {} hot", item % 2)?;
            }
        }
        (0..HELD).try_for_each(|item| writeln!(self.out, "set h{item} 2 {item}"))
    }

    fn get(&mut self, item: u64) -> io::Result<()> {
        writeln!(self.out, "get {} i{item}", self.draw.below(WORKERS))
    }

    fn renew(&mut self) -> io::Result<()> {
        let item = self.draw.below(self.items);
        let label = self.draw.below(1 << 31);
        writeln!(self.out, "del i{item}\nset i{item} {} {label}", item % 2)
    }

    /// An item is held, hit twice, read and given back, ends, and is stored anew.
    fn turn(&mut self) -> io::Result<()> {
        let item = self.draw.below(HELD as u64) as usize;
        let worker = self.draw.below(WORKERS);
        let turn = self.turns[item];
        self.turns[item] = (turn + 1) % 7;
        match turn {
            0 => writeln!(self.out, "hold {worker} h{item} k{item}"),
            1 | 2 => writeln!(self.out, "hit {worker} k{item}"),
            3 => writeln!(self.out, "read k{item}"),
            4 => writeln!(self.out, "del h{item}"),
            5 => writeln!(self.out, "drop k{item}\nsweep 2"),
            _ => writeln!(self.out, "set h{item} 2 {item}"),
        }
    }

    fn line(&mut self, sort: Sort) -> io::Result<()> {
        match sort {
            Get => {
                let item = self.draw.below(self.items);
                self.get(item)
            }
            GetLikely => {
                let item = self.draw.likely(self.items);
                self.get(item)
            }
            Turn => self.turn(),
            Renew => self.renew(),
            Pull(tails) => {
                let tail = tails[self.draw.below(tails.len() as u64) as usize];
                writeln!(self.out, "pull {} {tail}", self.draw.below(2))
            }
            Sweep => writeln!(self.out, "sweep {}", self.draw.below(3)),
            Drain => writeln!(self.out, "drain"),
        }
    }

    fn write(&mut self, kind: &Kind, lines: u64) -> io::Result<()> {
        self.store_all(kind.pulled)?;
        for _ in 0..lines {
            let mut place = self.draw.below(1000);
            for &(share, sort) in kind.shares {
                if place < share {
                    self.line(sort)?;
                    break;
                }
                place -= share;
            }
        }
        writeln!(self.out, "show")?;
        self.out.flush()
    }
}

fn main() -> io::Result<()> {
    let words: Vec<String> = std::env::args().skip(1).collect();
    let number = |place: usize| words.get(place).and_then(|word| word.parse::<u64>().ok());
    let kind = KINDS.iter().find(|kind| words.first().is_some_and(|word| word == kind.name));
    let (Some(kind), Some(lines), Some(seed)) = (kind, number(1), number(2)) else {
        eprintln!("traces reads|bumps|churn|mixed LINES SEED [ITEMS]");
        std::process::exit(3);
    };
    let out = BufWriter::new(io::stdout().lock());
    let items = number(3).unwrap_or(10_000);
    Trace { out, draw: Draw(seed), items, turns: [0; HELD] }.write(kind, lines)
}
