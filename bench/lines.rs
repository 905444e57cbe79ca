//! The lines of a trace, read. A module of model.rs.

use crate::places::Tail;

/// What a line says. Names are those of the trace's own bytes.
pub enum Line<'a> {
    Store { workers: u32, capacity: u32, refs_limit: u32, generation: u32 },
    Class { chunks: u32, hot: u32, warm: u32 },
    Set { name: &'a [u8], class: u32, label: u64 },
    Get { worker: u32, name: &'a [u8] },
    Hold { worker: u32, name: &'a [u8], hold: &'a [u8] },
    Hit { worker: u32, hold: &'a [u8] },
    Read { hold: &'a [u8] },
    Drop { hold: &'a [u8] },
    Del { name: &'a [u8] },
    Pull { class: u32, tail: Tail },
    Sweep { class: u32 },
    Drain,
    Show,
}

type Word<'a> = Option<&'a [u8]>;

fn number(word: Word) -> Option<u64> {
    let word = word?;
    if word.is_empty() || (word[0] == b'0' && word.len() > 1) {
        return None;
    }
    word.iter().try_fold(0u64, |number, byte| {
        let digit = byte.wrapping_sub(b'0');
        if digit > 9 { None } else { number.checked_mul(10)?.checked_add(digit as u64) }
    })
}

fn small(word: Word) -> Option<u32> {
    number(word)?.try_into().ok()
}

fn name(word: Word<'_>) -> Word<'_> {
    let fits = |byte: &u8| byte.is_ascii_lowercase() || byte.is_ascii_digit() || *byte == b'_';
    word.filter(|word| (1..=32).contains(&word.len()) && word.iter().all(fits))
}

fn tail(word: Word) -> Option<Tail> {
    match word? {
        b"hot" => Some(Tail::Hot),
        b"warm" => Some(Tail::Warm),
        b"cold" => Some(Tail::Cold),
        b"evict" => Some(Tail::Evict),
        _ => None,
    }
}

/// None where it is no line of the language, or one that model.rs doesn't know.
pub fn parse(line: &[u8]) -> Option<Line<'_>> {
    let mut words = line.split(|&byte| byte == b' ');
    let command = words.next()?;
    let mut next = || words.next();
    let line = match command {
        b"get" => Line::Get { worker: small(next())?, name: name(next())? },
        b"set" => Line::Set { name: name(next())?, class: small(next())?, label: number(next())? },
        b"del" => Line::Del { name: name(next())? },
        b"pull" => Line::Pull { class: small(next())?, tail: tail(next())? },
        b"hold" => Line::Hold { worker: small(next())?, name: name(next())?, hold: name(next())? },
        b"hit" => Line::Hit { worker: small(next())?, hold: name(next())? },
        b"read" => Line::Read { hold: name(next())? },
        b"drop" => Line::Drop { hold: name(next())? },
        b"sweep" => Line::Sweep { class: small(next())? },
        b"drain" => Line::Drain,
        b"show" => Line::Show,
        b"class" => Line::Class { chunks: small(next())?, hot: small(next())?, warm: small(next())? },
        b"store" => Line::Store {
            workers: small(next())?,
            capacity: small(next())?,
            refs_limit: small(next())?,
            generation: small(next())?,
        },
        _ => return None,
    };
    if next().is_some() { None } else { Some(line) }
}
