//! The same calls with the same checks, written for speed: closed forms, no
//! search, no allocation. Sound states keep all numbers below 2^32, so the
//! layout works on 32 bits.

mod check;
mod layout;
mod record;

use crate::limits::{self, RECORD};
use crate::refusal::*;
use crate::spans::{Span, Spans, REACH};
use crate::spot::{Block, Part, Place, Row, Spot, Why};
use crate::state::{Pending, State};
use crate::store::{Advanced, Next};
use crate::view::{Shelf, Shelves, View};
use check::{examine, Run};
use layout::{target, Layout};

pub fn sound(state: &State) -> bool {
    examine(state).is_ok()
}

pub fn address(state: &State, x: Block) -> Result<Place, Refusal> {
    let run = examine(state)?;
    let x = open(state, run, x)?;
    Ok(live(state, run, x).0)
}

pub fn holder(state: &State, disk: u64, row: Row) -> Result<Block, Refusal> {
    let run = examine(state)?;
    if disk >= state.disks() || row.0 >= state.s {
        return Err(NO_SUCH_SPOT);
    }
    let (d, b) = (disk as u32, row.0 as u32);
    let Some(run) = run else {
        let layout = Layout::new(state, state.t as usize);
        return Ok(Block(layout.block_at(d, b) as u64));
    };
    let (window, b1) = (b / run.size(), b % run.size());
    let d0 = if d < run.m {
        d
    } else {
        run.origin(d, b1).ok_or(NOBODY_THERE)?
    };
    let moved = run.moves(d0, b1) && done(state, window, run.mark(d0, b1));
    if moved != (d >= run.m) {
        return Err(NOBODY_THERE);
    }
    let layout = Layout::new(state, state.t as usize - 1);
    Ok(Block(layout.block_at(d0, b) as u64))
}

pub fn view(state: &State, shelves: &Shelves, x: Block) -> Result<View, Refusal> {
    let run = examine(state)?;
    let (k, disks) = (shelves.k, state.disks());
    if k == 0 || k > disks {
        return Err(OUTSIDE_LIMITS);
    }
    let disk_bytes = state.s * state.z;
    let record = RECORD as u64;
    if shelves.first < record + k * disk_bytes || shelves.second < (disks - k) * disk_bytes {
        return Err(MEDIUM_SHORT);
    }
    let x = open(state, run, x)?;
    let Spot { disk, row } = live(state, run, x).0.spot;
    let (shelf, before, disk) = if disk < k {
        (Shelf::First, record, disk)
    } else {
        (Shelf::Second, 0, disk - k)
    };
    let byte = before + disk * disk_bytes + row.0 * state.z;
    Ok(View { shelf, byte })
}

/// How many entries of the printed table come before that of a mark, and its
/// disk.
pub fn table_move(m: u64, n: u64, mark: u64) -> Option<(u64, u64)> {
    if m == 0 || n == 0 || m >= limits::DISKS || n > limits::DISKS - m || mark >= m * n {
        return None;
    }
    let (m, n, mark) = (m as u32, n as u32, mark as u32);
    let k = m + n;
    let fewer_disks = (k + 1) * k * (k - 1) * (k - 2) / 24;
    let smaller_m = k * m * (m - 1) / 2 - m * (m - 1) * (2 * m - 1) / 6;
    let d0 = mark / n;
    let (disk, _) = target(m, n, d0, d0 + mark % n);
    Some(((fewer_disks + smaller_m + mark) as u64, disk as u64))
}

pub fn make_spans(spans: Spans) -> Result<Spans, Refusal> {
    spans_hold(&spans).then_some(spans).ok_or(OUTSIDE_SPAN)
}

pub fn format(medium: &mut [u8], z: u64, s: u64, disks: u64) -> Result<State, Refusal> {
    if !limits::block_size(z) || !limits::rows(s) || !limits::disks(disks) {
        return Err(OUTSIDE_LIMITS);
    }
    let mut state = State::ZEROS;
    (state.z, state.s, state.counts[0]) = (z, s, disks);
    if (medium.len() as u64) < state.bytes(disks) {
        return Err(MEDIUM_SHORT);
    }
    record::write(&state, &mut medium[..RECORD]);
    state.pending.record = true;
    Ok(state)
}

pub fn grow(state: State, medium: &mut [u8], count: u64) -> Result<Next, Refusal> {
    grow_by::<true>(state, medium, count)
}

/// The grow without 20.
pub fn grow_beyond_doubling(state: State, medium: &mut [u8], count: u64) -> Result<Next, Refusal> {
    grow_by::<false>(state, medium, count)
}

/// Both grows; the first is limited to doubling.
fn grow_by<const LIMITED: bool>(
    state: State,
    medium: &mut [u8],
    count: u64,
) -> Result<Next, Refusal> {
    if examine(&state)?.is_some() {
        return Err(GROWING);
    }
    if state.t == limits::GROWTHS {
        return Err(NO_GROWTH_LEFT);
    }
    let disks = state.disks();
    if count <= disks || !limits::disks(count) {
        return Err(OUTSIDE_LIMITS);
    }
    if LIMITED && count - disks > disks {
        return Err(BEYOND_DOUBLING);
    }
    if (medium.len() as u64) < state.bytes(count) {
        return Err(MEDIUM_SHORT);
    }
    no_store_pending(&state)?;
    let mut next = state;
    next.t += 1;
    next.counts[next.t as usize] = count;
    next.growing = 1;
    record::write(&next, &mut medium[..RECORD]);
    next.pending.record = true;
    Ok((next, Run::begun(&next).calls_left(&next)))
}

pub fn write(state: &mut State, medium: &mut [u8], x: Block, piece: &[u8]) -> Result<(), Refusal> {
    let run = ready(state, medium)?;
    write_ready(state, run, medium, x, piece)
}

pub fn client_write(
    spans: &Spans,
    client: u64,
    state: &mut State,
    medium: &mut [u8],
    x: Block,
    piece: &[u8],
) -> Result<(), Refusal> {
    let run = examine(state)?;
    inside(spans, client, x)?;
    holds(state, medium)?;
    write_ready(state, run, medium, x, piece)
}

/// The checks of write after 2, and the store.
#[inline(always)]
fn write_ready(
    state: &mut State,
    run: Option<Run>,
    medium: &mut [u8],
    x: Block,
    piece: &[u8],
) -> Result<(), Refusal> {
    let x = open(state, run, x)?;
    if piece.len() as u64 != state.z {
        return Err(PIECE_LENGTH);
    }
    let (place, waits) = live(state, run, x);
    if waits {
        return Err(UNRECORDED);
    }
    no_record_pending(state)?;
    medium[state.bytes_of(place.spot)].copy_from_slice(piece);
    state.pending.blocks = true;
    Ok(())
}

pub fn flushed(state: &mut State) -> Result<(), Refusal> {
    examine(state)?;
    state.pending = Pending::NOTHING;
    Ok(())
}

pub fn read(state: &State, medium: &[u8], x: Block, piece: &mut [u8]) -> Result<(), Refusal> {
    let run = ready(state, medium)?;
    read_ready(state, run, medium, x, piece)
}

pub fn client_read(
    spans: &Spans,
    client: u64,
    state: &State,
    medium: &[u8],
    x: Block,
    piece: &mut [u8],
) -> Result<(), Refusal> {
    let run = examine(state)?;
    inside(spans, client, x)?;
    holds(state, medium)?;
    read_ready(state, run, medium, x, piece)
}

/// The checks of read after 2, and the block.
#[inline(always)]
fn read_ready(
    state: &State,
    run: Option<Run>,
    medium: &[u8],
    x: Block,
    piece: &mut [u8],
) -> Result<(), Refusal> {
    let x = open(state, run, x)?;
    if piece.len() as u64 != state.z {
        return Err(PIECE_LENGTH);
    }
    let spot = live(state, run, x).0.spot;
    piece.copy_from_slice(&medium[state.bytes_of(spot)]);
    Ok(())
}

pub fn copy(state: State, medium: &mut [u8], x: Block) -> Result<Next, Refusal> {
    let run = ready(&state, medium)?.ok_or(NOT_GROWING)?;
    let x = open(&state, Some(run), x)?;
    let (d0, b) = Layout::new(&state, state.t as usize - 1).spot_of(x);
    let (window, b1) = (b / run.size(), b % run.size());
    if !run.moves(d0, b1) || window as u64 != state.w {
        return Err(NOT_MOVING_HERE);
    }
    let mark = run.mark(d0, b1);
    if state.copied >> mark & 1 == 1 {
        return Err(COPIED_ALREADY);
    }
    no_record_pending(&state)?;
    Ok(copy_mark(state, medium, run, d0, b, mark))
}

pub fn checkpoint(state: State, medium: &mut [u8]) -> Result<Next, Refusal> {
    let run = ready(&state, medium)?.ok_or(NOT_GROWING)?;
    if state.copied == state.recorded {
        return Err(NOTHING_TO_RECORD);
    }
    no_store_pending(&state)?;
    Ok(store_checkpoint(state, medium, run))
}

pub fn advance(state: State, medium: &mut [u8]) -> Result<(Next, Advanced), Refusal> {
    let run = ready(&state, medium)?.ok_or(NOT_GROWING)?;
    no_record_pending(&state)?;
    let waiting = run.moving & !state.copied;
    if waiting == 0 {
        no_store_pending(&state)?;
        let next = store_checkpoint(state, medium, run);
        let finished = next.0.growing == 0;
        let done = if finished {
            Advanced::Finished
        } else {
            Advanced::Recorded
        };
        return Ok((next, done));
    }
    let mark = waiting.trailing_zeros();
    let d0 = mark / run.n;
    let b1 = d0 + mark % run.n;
    let b = state.w as u32 * run.size() + b1;
    let layout = Layout::new(&state, state.t as usize - 1);
    let block = Block(layout.block_at(d0, b) as u64);
    let part = run.target(d0, b1).1;
    let next = copy_mark(state, medium, run, d0, b, mark);
    Ok((next, Advanced::Copied { block, part }))
}

pub fn restart(medium: &[u8]) -> Result<Next, Refusal> {
    let Some(bytes) = medium.first_chunk::<RECORD>() else {
        return Err(MEDIUM_SHORT);
    };
    let Some(state) = record::parse(bytes) else {
        return Err(NO_RECORD);
    };
    let Ok(run) = examine(&state) else {
        return Err(NO_RECORD);
    };
    if (medium.len() as u64) < state.bytes(state.disks()) {
        return Err(MEDIUM_SHORT);
    }
    let left = run.map_or(0, |run| run.calls_left(&state));
    Ok((state, left))
}

/// The first two checks of most calls; gives the growth that runs, if any.
fn ready(state: &State, medium: &[u8]) -> Result<Option<Run>, Refusal> {
    let run = examine(state)?;
    if (medium.len() as u64) < state.bytes(state.disks()) {
        return Err(MEDIUM_SHORT);
    }
    Ok(run)
}

/// The second check alone.
fn holds(state: &State, medium: &[u8]) -> Result<(), Refusal> {
    if (medium.len() as u64) < state.bytes(state.disks()) {
        return Err(MEDIUM_SHORT);
    }
    Ok(())
}

/// Whether the table keeps the rule on spans. No sum wraps: both ends are
/// tested first.
#[inline]
fn spans_hold(spans: &Spans) -> bool {
    let Spans([zero, one]) = spans;
    let short = |span: &Span| span.first <= REACH && span.count <= REACH - span.first;
    short(zero)
        && short(one)
        && (zero.first.max(one.first) >= (zero.first + zero.count).min(one.first + one.count))
}

#[inline]
fn inside(spans: &Spans, client: u64, x: Block) -> Result<(), Refusal> {
    if !spans_hold(spans) || client > 1 {
        return Err(OUTSIDE_SPAN);
    }
    let span = spans.0[client as usize];
    let within = x.0.wrapping_sub(span.first) < span.count;
    within.then_some(()).ok_or(OUTSIDE_SPAN)
}

/// The last check before a block store.
fn no_record_pending(state: &State) -> Result<(), Refusal> {
    (!state.pending.record).then_some(()).ok_or(RECORD_PENDING)
}

/// The last checks before a record store.
fn no_store_pending(state: &State) -> Result<(), Refusal> {
    no_record_pending(state)?;
    (!state.pending.blocks).then_some(()).ok_or(BLOCKS_PENDING)
}

fn open(state: &State, run: Option<Run>, x: Block) -> Result<u32, Refusal> {
    let disks = run.map_or(state.disks(), |run| run.m as u64);
    if x.0 < disks * state.s {
        Ok(x.0 as u32)
    } else {
        Err(NOT_OPEN)
    }
}

/// Whether a moving block of this window and mark lives at its new spot.
fn done(state: &State, window: u32, mark: u32) -> bool {
    let window = window as u64;
    window < state.w || window == state.w && state.recorded >> mark & 1 == 1
}

/// The live place of an open block, and whether it is copied but not recorded.
#[inline]
fn live(state: &State, run: Option<Run>, x: u32) -> (Place, bool) {
    let t = state.t as usize;
    let Some(run) = run else {
        return (Layout::new(state, t).place_of(x), false);
    };
    let old = Layout::new(state, t - 1).place_of(x);
    let (d0, b) = (old.spot.disk as u32, old.spot.row.0 as u32);
    let (window, b1) = (b / run.size(), b % run.size());
    if !run.moves(d0, b1) {
        return (old, false);
    }
    let mark = run.mark(d0, b1);
    if done(state, window, mark) {
        let (d, part) = run.target(d0, b1);
        return (moved_to(old, d, state.t, part), false);
    }
    let waits = window as u64 == state.w && state.copied >> mark & 1 == 1;
    (old, waits)
}

/// The place of a block that this growth moved to disk `d`.
fn moved_to(old: Place, d: u32, growth: u64, part: Part) -> Place {
    let spot = Spot {
        disk: d as u64,
        ..old.spot
    };
    Place {
        spot,
        why: Why::Moved { growth, part },
        moves: old.moves + 1,
    }
}

fn copy_mark(state: State, medium: &mut [u8], run: Run, d0: u32, b: u32, mark: u32) -> Next {
    let (d, _) = run.target(d0, b % run.size());
    let spot = |disk: u32| Spot {
        disk: disk as u64,
        row: Row(b as u64),
    };
    medium.copy_within(state.bytes_of(spot(d0)), state.bytes_of(spot(d)).start);
    let mut next = state;
    next.copied |= 1 << mark;
    next.pending.blocks = true;
    (next, run.calls_left(&next))
}

fn store_checkpoint(state: State, medium: &mut [u8], run: Run) -> Next {
    let mut next = state;
    next.recorded = next.copied;
    if next.recorded == run.moving {
        (next.recorded, next.copied) = (0, 0);
        next.w += 1;
        if next.w == run.windows as u64 {
            (next.growing, next.w) = (0, 0);
        }
    }
    record::write(&next, &mut medium[..RECORD]);
    next.pending.record = true;
    let left = if next.growing == 1 {
        run.calls_left(&next)
    } else {
        0
    };
    (next, left)
}
