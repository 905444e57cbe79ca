//! The text of the answers. A module of model.rs.

use crate::places::{Ended, Place, Tail};
use crate::store::{Accounts, Applied, Chunk, ItemId, Pulled, Touch};

/// The lists in the order in which they are shown.
pub const PLACES: [(Place, &str); 6] = [
    (Place::Hot, "hot"),
    (Place::Warm, "warm"),
    (Place::Cold, "cold"),
    (Place::Dying, "dying"),
    (Place::Unused, "unused"),
    (Place::Retired, "retired"),
];

/// What was not written yet.
pub struct Text {
    pub bytes: Vec<u8>,
}

fn ended(ended: Ended) -> &'static str {
    match ended {
        Ended::Freed => "freed",
        Ended::Deferred => "deferred",
    }
}

fn tail(tail: Tail) -> &'static str {
    match tail {
        Tail::Hot => "hot ",
        Tail::Warm => "warm ",
        Tail::Cold => "cold ",
        Tail::Evict => "evict ",
    }
}

impl Text {
    pub fn put(&mut self, text: impl AsRef<[u8]>) -> &mut Text {
        self.bytes.extend_from_slice(text.as_ref());
        self
    }

    pub fn number(&mut self, number: impl Into<u64>) -> &mut Text {
        let mut rest = number.into();
        let mut digits = [0; 20];
        let mut first = digits.len();
        loop {
            first -= 1;
            digits[first] = b'0' + (rest % 10) as u8;
            rest /= 10;
            if rest == 0 {
                return self.put(&digits[first..]);
            }
        }
    }

    pub fn id(&mut self, id: ItemId) -> &mut Text {
        self.number(id.chunk).put(".").number(id.generation)
    }

    pub fn touch(&mut self, touch: Touch) -> &mut Text {
        match touch {
            Touch::First => self.put("first"),
            Touch::Already => self.put("already"),
            Touch::Marked => self.put("marked"),
            Touch::Queued(number) => self.put("queued ").number(number),
            Touch::DroppedFull => self.put("dropped full"),
            Touch::DroppedRefs => self.put("dropped refs"),
        }
    }

    pub fn unlinked(&mut self, answer: Option<Ended>) -> &mut Text {
        self.put(answer.map_or("gone", ended))
    }

    pub fn pulled(&mut self, from: Tail, pulled: Pulled) -> &mut Text {
        self.put(tail(from));
        let (word, id) = match pulled {
            Pulled::Empty => return self.put("empty"),
            Pulled::Stay(id) => ("stay ", id),
            Pulled::Warm(id) => ("warm ", id),
            Pulled::Again(id) => ("again ", id),
            Pulled::Cold(id) => ("cold ", id),
            Pulled::Ended(id, end) => return self.put(ended(end)).put(" ").id(id),
        };
        self.put(word).id(id)
    }

    pub fn bump(&mut self, worker: usize, (number, id, applied): (u64, ItemId, Applied)) {
        self.put("bump ").number(worker as u64).put(" ").number(number).put(" ").id(id);
        match applied {
            Applied::Moved => self.put(" warm\n"),
            Applied::TimeOnly => self.put(" time\n"),
            Applied::Gone(end) => self.put(" gone ").put(ended(end)).put("\n"),
        };
    }

    pub fn item(&mut self, id: ItemId, words: &Chunk) {
        let marks = match (words.fetched, words.active) {
            (false, _) => ":-:",
            (true, false) => ":f:",
            (true, true) => ":fa:",
        };
        self.put(" ").id(id).put(":").number(words.refs).put(marks).number(words.time);
    }

    pub fn accounts(&mut self, worker: usize, accounts: &Accounts) {
        let Accounts { attempted, accepted, full, refs, applied } = accounts;
        self.put("worker ").number(worker as u64).put(" attempted ").number(*attempted);
        self.put(" accepted ").number(*accepted).put(" full ").number(*full);
        self.put(" busy 0 refs ").number(*refs).put(" applied ").number(*applied).put("\n");
    }
}
