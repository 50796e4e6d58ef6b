//! The calls that work on the medium.

use crate::limits::{self, RECORD};
use crate::record;
use crate::refusal::*;
use crate::spot::{Block, Part};
use crate::state::{marked, Pending, State};

/// What an advance did.
#[derive(Clone, Copy, PartialEq, Eq, Debug)]
pub enum Advanced {
    Copied { block: Block, part: Part },
    Recorded,
    Finished,
}

/// An accepted call's next state and the advance calls left.
pub type Next = (State, u64);

pub fn format(medium: &mut [u8], z: u64, s: u64, disks: u64) -> Result<State, Refusal> {
    if !limits::block_size(z) || !limits::rows(s) || !limits::disks(disks) {
        return Err(OUTSIDE_LIMITS);
    }
    let mut state = State::ZEROS;
    (state.z, state.s, state.counts[0]) = (z, s, disks);
    holds(medium, &state, disks)?;
    store_record(medium, &mut state);
    Ok(state)
}

pub fn restart(medium: &[u8]) -> Result<Next, Refusal> {
    let Some(bytes) = medium.first_chunk::<RECORD>() else {
        return Err(MEDIUM_SHORT);
    };
    let state = record::parse(bytes).ok_or(NO_RECORD)?;
    holds(medium, &state, state.disks())?;
    Ok((state, state.calls_left()))
}

pub fn grow(state: State, medium: &mut [u8], count: u64) -> Result<Next, Refusal> {
    may_grow(&state, count)?;
    if count > 2 * state.disks() {
        return Err(BEYOND_DOUBLING);
    }
    begin_growth(state, medium, count)
}

/// The grow without 20.
pub fn grow_beyond_doubling(state: State, medium: &mut [u8], count: u64) -> Result<Next, Refusal> {
    may_grow(&state, count)?;
    begin_growth(state, medium, count)
}

/// The checks of both grows before 20.
fn may_grow(state: &State, count: u64) -> Result<(), Refusal> {
    sound(state)?;
    if state.growing == 1 {
        return Err(GROWING);
    }
    if state.t == limits::GROWTHS {
        return Err(NO_GROWTH_LEFT);
    }
    if count <= state.disks() || !limits::disks(count) {
        return Err(OUTSIDE_LIMITS);
    }
    Ok(())
}

/// The checks after 20, and the growth.
fn begin_growth(state: State, medium: &mut [u8], count: u64) -> Result<Next, Refusal> {
    holds(medium, &state, count)?;
    no_store_pending(&state)?;
    let mut next = state;
    next.t += 1;
    next.counts[next.t as usize] = count;
    next.growing = 1;
    store_record(medium, &mut next);
    Ok((next, next.calls_left()))
}

/// Changes the state only in what is pending.
pub fn write(state: &mut State, medium: &mut [u8], x: Block, piece: &[u8]) -> Result<(), Refusal> {
    may_write(state, medium, x, piece.len())?;
    medium[state.bytes_of(state.live(x).spot)].copy_from_slice(piece);
    state.pending.blocks = true;
    Ok(())
}

/// The checks of write.
pub fn may_write(state: &State, medium: &[u8], x: Block, bytes: usize) -> Result<(), Refusal> {
    may_read(state, medium, x, bytes)?;
    if waits(state, x) {
        return Err(UNRECORDED);
    }
    no_record_pending(state)
}

/// All earlier stores are down.
pub fn flushed(state: &mut State) -> Result<(), Refusal> {
    sound(state)?;
    state.pending = Pending::NOTHING;
    Ok(())
}

/// Whether block `x` is copied but not recorded.
fn waits(state: &State, x: Block) -> bool {
    state.growing == 1
        && state.growth().move_of(x).is_some_and(|step| {
            step.window == state.w && marked(state.copied & !state.recorded, step.mark)
        })
}

pub fn read(state: &State, medium: &[u8], x: Block, piece: &mut [u8]) -> Result<(), Refusal> {
    may_read(state, medium, x, piece.len())?;
    piece.copy_from_slice(&medium[state.bytes_of(state.live(x).spot)]);
    Ok(())
}

/// The checks of read.
pub fn may_read(state: &State, medium: &[u8], x: Block, bytes: usize) -> Result<(), Refusal> {
    ready(state, medium)?;
    open(state, x)?;
    let fits = bytes as u64 == state.z;
    fits.then_some(()).ok_or(PIECE_LENGTH)
}

pub fn copy(state: State, medium: &mut [u8], x: Block) -> Result<Next, Refusal> {
    ready(&state, medium)?;
    growing(&state)?;
    open(&state, x)?;
    let step = state
        .growth()
        .move_of(x)
        .filter(|step| step.window == state.w)
        .ok_or(NOT_MOVING_HERE)?;
    if marked(state.copied, step.mark) {
        return Err(COPIED_ALREADY);
    }
    no_record_pending(&state)?;
    let bytes = medium[state.bytes_of(step.old)].to_vec();
    medium[state.bytes_of(step.new)].copy_from_slice(&bytes);
    let mut next = state;
    next.copied |= 1 << step.mark;
    next.pending.blocks = true;
    Ok((next, next.calls_left()))
}

pub fn checkpoint(state: State, medium: &mut [u8]) -> Result<Next, Refusal> {
    ready(&state, medium)?;
    growing(&state)?;
    if state.copied == state.recorded {
        return Err(NOTHING_TO_RECORD);
    }
    no_store_pending(&state)?;
    let mut next = state;
    next.recorded = next.copied;
    if next.recorded == next.moving_marks() {
        (next.recorded, next.copied) = (0, 0);
        next.w += 1;
        if next.w == next.growth().windows() {
            (next.growing, next.w) = (0, 0);
        }
    }
    store_record(medium, &mut next);
    Ok((next, next.calls_left()))
}

pub fn advance(state: State, medium: &mut [u8]) -> Result<(Next, Advanced), Refusal> {
    ready(&state, medium)?;
    growing(&state)?;
    let moves = state.growth().moves(state.w);
    let waiting = moves.iter().find(|step| !marked(state.copied, step.mark));
    if let Some(step) = waiting {
        let (block, part) = (step.block, step.part);
        let next = copy(state, medium, block)?;
        return Ok((next, Advanced::Copied { block, part }));
    }
    let next = checkpoint(state, medium)?;
    let done = if next.0.growing == 0 {
        Advanced::Finished
    } else {
        Advanced::Recorded
    };
    Ok((next, done))
}

fn store_record(medium: &mut [u8], state: &mut State) {
    medium[..RECORD].copy_from_slice(&record::write(state));
    state.pending.record = true;
}

/// The first two checks of most calls.
fn ready(state: &State, medium: &[u8]) -> Result<(), Refusal> {
    sound(state)?;
    holds(medium, state, state.disks())
}

pub(crate) fn sound(state: &State) -> Result<(), Refusal> {
    state.sound().then_some(()).ok_or(NOT_SOUND)
}

fn holds(medium: &[u8], state: &State, disks: u64) -> Result<(), Refusal> {
    let enough = medium.len() as u64 >= state.bytes(disks);
    enough.then_some(()).ok_or(MEDIUM_SHORT)
}

fn growing(state: &State) -> Result<(), Refusal> {
    (state.growing == 1).then_some(()).ok_or(NOT_GROWING)
}

/// The last check before a block store.
fn no_record_pending(state: &State) -> Result<(), Refusal> {
    (!state.pending.record).then_some(()).ok_or(RECORD_PENDING)
}

/// The last checks before a record store.
fn no_store_pending(state: &State) -> Result<(), Refusal> {
    no_record_pending(state)?;
    (!state.pending.blocks).then_some(()).ok_or(BLOCKS_PENDING)
}

pub(crate) fn open(state: &State, x: Block) -> Result<(), Refusal> {
    (x.0 < state.open()).then_some(()).ok_or(NOT_OPEN)
}
