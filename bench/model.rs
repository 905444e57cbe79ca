//! Runs a trace as `bumpsim model` does, and writes the same text. It knows all lines but `close` and `par`. A trace with a fault ends
//! with status 2: what the fault is isn't told.
//! rustc --edition 2024 -C opt-level=3 -C codegen-units=1 -C panic=abort bench/model.rs -o model && ./model reads.trace

mod answers;
mod lines;
mod lists;
mod places;
mod store;

use answers::{PLACES, Text};
use lines::{Line, parse};
use places::Place;
use std::collections::HashMap;
use std::io::Write;
use store::{ItemId, Store, Take};

/// How much text is gathered before it is written.
const GATHERED: usize = 1 << 16;

/// A store, and what its names stand for.
struct Run<'a> {
    store: Store,
    items: HashMap<&'a [u8], ItemId>,
    holds: HashMap<&'a [u8], ItemId>,
    text: Text,
}

impl<'a> Run<'a> {
    fn worker(&self, worker: u32) -> Option<usize> {
        Some(worker as usize).filter(|&worker| worker < self.store.workers.len())
    }

    fn class(&self, class: u32) -> Option<usize> {
        Some(class as usize).filter(|&class| class < self.store.classes.len())
    }

    fn set(&mut self, name: &'a [u8], class: u32, label: u64, now: u64) -> Option<()> {
        let linked = self.store.link(self.class(class)?, label, now);
        self.text.put("set ").put(name).put(" ");
        match linked {
            Some(id) => {
                self.items.insert(name, id);
                self.text.id(id).put("\n");
            }
            None => {
                self.text.put("full\n");
            }
        }
        Some(())
    }

    fn get(&mut self, worker: u32, name: &[u8], now: u64) -> Option<()> {
        let (seat, id) = (self.worker(worker)?, *self.items.get(name)?);
        self.text.put("get ").number(worker).put(" ").put(name).put(" ");
        match self.store.take(id) {
            Take::Miss => self.text.put("miss"),
            Take::Refs => self.text.put("refs"),
            Take::Held => {
                let label = self.store.chunks[id.chunk as usize].label;
                let touch = self.store.touch(seat, id, now);
                self.store.give_back(id);
                self.text.number(label).put(" ").touch(touch)
            }
        };
        self.text.put("\n");
        Some(())
    }

    fn hold(&mut self, worker: u32, name: &[u8], hold: &'a [u8]) -> Option<()> {
        let (_seat, id) = (self.worker(worker)?, *self.items.get(name)?);
        if self.holds.contains_key(hold) {
            return None;
        }
        self.text.put("hold ").number(worker).put(" ").put(name).put(" ").put(hold);
        match self.store.take(id) {
            Take::Miss => self.text.put(" miss\n"),
            Take::Refs => self.text.put(" refs\n"),
            Take::Held => {
                self.holds.insert(hold, id);
                self.text.put(" held\n")
            }
        };
        Some(())
    }

    fn hit(&mut self, worker: u32, hold: &[u8], now: u64) -> Option<()> {
        let touch = self.store.touch(self.worker(worker)?, *self.holds.get(hold)?, now);
        self.text.put("hit ").number(worker).put(" ").put(hold).put(" ").touch(touch).put("\n");
        Some(())
    }

    fn drain(&mut self, now: u64) {
        let mut all: u32 = 0;
        for worker in 0..self.store.workers.len() {
            while let Some(bump) = self.store.apply_next(worker, now) {
                self.text.bump(worker, bump);
                all += 1;
            }
        }
        self.text.put("drain ").number(all).put("\n");
    }

    fn show_list(&mut self, number: usize, place: Place, word: &str) {
        let class = &self.store.classes[number];
        self.text.put("class ").number(number as u64).put(" ").put(word).put(" ").number(class.lists.len(place));
        let mut next = class.lists.front(place);
        while let Some(node) = next {
            let id = self.store.id(class.first + node);
            match place {
                Place::Unused | Place::Retired => {
                    self.text.put(" ").number(id.chunk);
                }
                _ => self.text.item(id, &self.store.chunks[id.chunk as usize]),
            }
            next = class.lists.after(node);
        }
        self.text.put("\n");
    }

    fn show(&mut self) {
        for number in 0..self.store.classes.len() {
            for (place, word) in PLACES {
                self.show_list(number, place, word);
            }
        }
        for (number, worker) in self.store.workers.iter().enumerate() {
            self.text.accounts(number, &worker.accounts);
        }
    }

    /// None where the line has a fault.
    fn line(&mut self, line: Line<'a>, now: u64) -> Option<()> {
        match line {
            Line::Store { .. } | Line::Class { .. } => return None,
            Line::Set { name, class, label } => self.set(name, class, label, now)?,
            Line::Get { worker, name } => self.get(worker, name, now)?,
            Line::Hold { worker, name, hold } => self.hold(worker, name, hold)?,
            Line::Hit { worker, hold } => self.hit(worker, hold, now)?,
            Line::Read { hold } => {
                let label = self.store.chunks[self.holds.get(hold)?.chunk as usize].label;
                self.text.put("read ").put(hold).put(" ").number(label).put("\n");
            }
            Line::Drop { hold } => {
                self.store.give_back(self.holds.remove(hold)?);
                self.text.put("drop ").put(hold).put("\n");
            }
            Line::Del { name } => {
                let answer = self.store.unlink(*self.items.get(name)?);
                self.text.put("del ").put(name).put(" ").unlinked(answer).put("\n");
            }
            Line::Pull { class, tail } => {
                let pulled = self.store.pull(self.class(class)?, tail);
                self.text.put("pull ").number(class).put(" ").pulled(tail, pulled).put("\n");
            }
            Line::Sweep { class } => {
                let freed = self.store.sweep(self.class(class)?);
                self.text.put("sweep ").number(class).put(" ").number(freed).put("\n");
            }
            Line::Drain => self.drain(now),
            Line::Show => self.show(),
        }
        Some(())
    }

    fn write(&mut self) -> Option<()> {
        std::io::stdout().write_all(&self.text.bytes).ok()?;
        self.text.bytes.clear();
        Some(())
    }
}

/// The lines that aren't skipped, each with its number.
fn numbered(trace: &[u8]) -> impl Iterator<Item = (u64, &[u8])> {
    let lines = trace.strip_suffix(b"\n").unwrap_or(trace).split(|&byte| byte == b'\n');
    (1..).zip(lines).filter(|(_, line)| !line.is_empty() && line[0] != b'#')
}

fn run(trace: &[u8]) -> Option<()> {
    let mut lines = numbered(trace).peekable();
    let Line::Store { workers, capacity, refs_limit, generation } = parse(lines.next()?.1)? else {
        return None;
    };
    let mut store = Store::new(workers, capacity, refs_limit, generation)?;
    while let Some((_, line)) = lines.next_if(|(_, line)| line.starts_with(b"class ")) {
        let Line::Class { chunks, hot, warm } = parse(line)? else {
            return None;
        };
        store.add_class(chunks, hot, warm)?;
    }
    let text = Text { bytes: Vec::with_capacity(2 * GATHERED) };
    let mut run = Run { store, items: HashMap::new(), holds: HashMap::new(), text };
    for (now, line) in lines {
        run.line(parse(line)?, now)?;
        if run.text.bytes.len() >= GATHERED {
            run.write()?;
        }
    }
    run.write()
}

fn main() {
    let trace = std::env::args().nth(1).and_then(|name| std::fs::read(name).ok());
    if trace.and_then(|trace| run(&trace)).is_none() {
        std::process::exit(2);
    }
}
