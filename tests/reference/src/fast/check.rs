//! Soundness, and the numbers of the growth that runs.

use super::layout::{moves, origin, target};
use crate::limits;
use crate::refusal::{Refusal, NOT_SOUND};
use crate::spot::Part;
use crate::state::State;

/// The growth that runs.
#[derive(Clone, Copy)]
pub struct Run {
    /// Disks before it.
    pub m: u32,
    /// Disks it adds.
    pub n: u32,
    /// R.
    pub windows: u32,
    /// Rows on a disk.
    s: u32,
    /// The marks of all moving blocks of window w.
    pub moving: u64,
}

/// The growth that runs in a sound state, if one does.
#[inline]
pub fn examine(state: &State) -> Result<Option<Run>, Refusal> {
    if !limits_hold(state) {
        return Err(NOT_SOUND);
    }
    if state.growing == 0 {
        let clear = state.w | state.recorded | state.copied == 0;
        return if clear { Ok(None) } else { Err(NOT_SOUND) };
    }
    if state.growing != 1 || state.t == 0 {
        return Err(NOT_SOUND);
    }
    let t = state.t as usize;
    let m = state.counts[t - 1] as u32;
    let n = state.counts[t] as u32 - m;
    let s = state.s as u32;
    let windows = s.div_ceil(m + n);
    if state.w >= windows as u64 {
        return Err(NOT_SOUND);
    }
    let rows = (s - state.w as u32 * (m + n)).min(m + n);
    let moving = moving(m, n, rows);
    let fits = state.recorded & !state.copied == 0
        && state.copied & !moving == 0
        && state.recorded != moving;
    let run = Run {
        m,
        n,
        windows,
        s,
        moving,
    };
    fits.then_some(Some(run)).ok_or(NOT_SOUND)
}

#[inline]
fn limits_hold(state: &State) -> bool {
    if !limits::block_size(state.z) || !limits::rows(state.s) || state.t > limits::GROWTHS {
        return false;
    }
    let mut last = 0;
    for (i, &count) in state.counts.iter().enumerate() {
        let fits = if i as u64 <= state.t {
            count > last && count <= limits::DISKS
        } else {
            count == 0
        };
        if !fits {
            return false;
        }
        last = count;
    }
    true
}

impl Run {
    /// The growth that has just begun in a sound state. Not inlined into both
    /// grows, it would cost each some 20 instructions.
    #[inline(always)]
    pub fn begun(state: &State) -> Run {
        let t = state.t as usize;
        let m = state.counts[t - 1] as u32;
        let n = state.counts[t] as u32 - m;
        let s = state.s as u32;
        Run {
            m,
            n,
            windows: s.div_ceil(m + n),
            s,
            moving: moving(m, n, s.min(m + n)),
        }
    }

    /// Rows of a whole window.
    pub fn size(&self) -> u32 {
        self.m + self.n
    }

    pub fn moves(&self, d0: u32, b1: u32) -> bool {
        moves(self.n, d0, b1)
    }

    pub fn mark(&self, d0: u32, b1: u32) -> u32 {
        d0 * self.n + (b1 - d0)
    }

    /// The new disk and part of a moving block.
    pub fn target(&self, d0: u32, b1: u32) -> (u32, Part) {
        target(self.m, self.n, d0, b1)
    }

    /// The old disk of the block that moves to added disk `d`, if one does.
    pub fn origin(&self, d: u32, b1: u32) -> Option<u32> {
        origin(self.m, self.n, d, b1)
    }

    /// U + R - w for a state of this growth: all moves from window w on, less
    /// the copied ones.
    pub fn calls_left(&self, state: &State) -> u64 {
        let whole = self.s / self.size();
        let rest = moves_in(self.m, self.n, self.s - whole * self.size());
        let before = state.w as u32 * self.m * self.n;
        let moves = whole * self.m * self.n + rest - before;
        (moves - state.copied.count_ones() + self.windows) as u64 - state.w
    }
}

/// The marks of the moving blocks in the first `rows` rows of a window.
fn moving(m: u32, n: u32, rows: u32) -> u64 {
    if rows + 1 >= m + n {
        return u64::MAX >> (64 - m * n);
    }
    let mut marks = 0;
    for d0 in 0..m.min(rows) {
        let some = n.min(rows - d0);
        marks |= (u64::MAX >> (64 - some)) << (d0 * n);
    }
    marks
}

/// How many blocks move in the first `rows` rows of a window.
fn moves_in(m: u32, n: u32, rows: u32) -> u32 {
    let triangle = |k: u32| k * (k + 1) / 2;
    triangle(rows) - triangle(rows.saturating_sub(m)) - triangle(rows.saturating_sub(n))
}
