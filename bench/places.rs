//! The lists of a class, what is pulled from them, and how an item's life ends. A module of changes.rs and of model.rs.

#[derive(Clone, Copy, PartialEq, Eq)]
pub enum Place {
    Hot,
    Warm,
    Cold,
    Dying,
    Unused,
    Retired,
}

impl From<Place> for u32 {
    fn from(place: Place) -> u32 {
        place as u32
    }
}

#[derive(Clone, Copy)]
pub enum Tail {
    Hot,
    Warm,
    Cold,
    Evict,
}

#[derive(Clone, Copy)]
pub enum Ended {
    Freed,
    Deferred,
}
