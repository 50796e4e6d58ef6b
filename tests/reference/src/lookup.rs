//! Looking up spots.

use crate::refusal::*;
use crate::spot::{blocks_of_row, Block, Place, Row, Spot};
use crate::state::State;
use crate::store::{open, sound};

/// Up to this many rows a holder is searched among all open blocks.
const FEW_ROWS: u64 = 64;

pub fn address(state: &State, x: Block) -> Result<Place, Refusal> {
    sound(state)?;
    open(state, x)?;
    Ok(state.live(x))
}

pub fn holder(state: &State, disk: u64, row: Row) -> Result<Block, Refusal> {
    sound(state)?;
    if disk >= state.disks() || row.0 >= state.s {
        return Err(NO_SUCH_SPOT);
    }
    let spot = Spot { disk, row };
    let lives = |x: &Block| state.live(*x).spot == spot;
    let found = if state.s <= FEW_ROWS {
        (0..state.open()).map(Block).find(lives)
    } else {
        blocks_of_row(state.used_counts(), state.s, row)
            .into_iter()
            .filter(|x| x.0 < state.open())
            .find(lives)
    };
    found.ok_or(NOBODY_THERE)
}
