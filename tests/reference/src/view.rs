//! A block shown without copying it, out of two shelves.

use crate::refusal::*;
use crate::spot::Block;
use crate::state::State;
use crate::store::{open, sound};

/// Two lent shelves. The first holds the record and disks 0 to k-1, the second
/// the remaining disks; either may have spare bytes at its end.
#[derive(Clone, Copy, PartialEq, Eq, Debug)]
pub struct Shelves {
    pub k: u64,
    /// Bytes of each.
    pub first: u64,
    pub second: u64,
}

#[derive(Clone, Copy, PartialEq, Eq, Debug)]
pub enum Shelf {
    First,
    Second,
}

/// A block as a part of one shelf: its Z bytes from `byte` on.
#[derive(Clone, Copy, PartialEq, Eq, Debug)]
pub struct View {
    pub shelf: Shelf,
    pub byte: u64,
}

pub fn view(state: &State, shelves: &Shelves, x: Block) -> Result<View, Refusal> {
    sound(state)?;
    let (k, disks) = (shelves.k, state.disks());
    if !(1..=disks).contains(&k) {
        return Err(OUTSIDE_LIMITS);
    }
    // Joined without spare bytes, the second shelf begins after these.
    let first = state.bytes(k);
    let second = state.bytes(disks) - first;
    if shelves.first < first || shelves.second < second {
        return Err(MEDIUM_SHORT);
    }
    open(state, x)?;
    let joined = state.bytes_of(state.live(x).spot).start as u64;
    let (shelf, byte) = match joined.checked_sub(first) {
        None => (Shelf::First, joined),
        Some(byte) => (Shelf::Second, byte),
    };
    Ok(View { shelf, byte })
}
