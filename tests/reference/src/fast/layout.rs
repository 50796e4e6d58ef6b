//! The layout in closed form, both ways.

use crate::spot::{Part, Place, Row, Spot, Why};
use crate::state::State;

/// Whether the block at disk `d0` moves; `b1` is its row in the window.
pub fn moves(n: u32, d0: u32, b1: u32) -> bool {
    b1.wrapping_sub(d0) < n
}

/// The new disk and part of a moving block.
pub fn target(m: u32, n: u32, d0: u32, b1: u32) -> (u32, Part) {
    if b1 < m.min(n) {
        (d0 + m, Part::Head)
    } else if b1 + 1 >= m.max(n) {
        (d0 + n, Part::Tail)
    } else if m >= n {
        (m + n - 1 - (b1 - d0), Part::Body)
    } else {
        (d0 + b1 + 1, Part::Body)
    }
}

/// The old disk of the block that moves to added disk `d`, if one does.
pub fn origin(m: u32, n: u32, d: u32, b1: u32) -> Option<u32> {
    let d0 = if b1 < m.min(n) {
        d.wrapping_sub(m)
    } else if b1 + 1 >= m.max(n) {
        d.wrapping_sub(n)
    } else if m >= n {
        (d + b1 + 1).wrapping_sub(m + n)
    } else {
        d.wrapping_sub(b1 + 1)
    };
    (d0 < m && moves(n, d0, b1)).then_some(d0)
}

/// The layout after `t` growths of a sound state.
pub struct Layout<'a> {
    counts: &'a [u64; 8],
    t: usize,
    s: u32,
}

impl<'a> Layout<'a> {
    pub fn new(state: &'a State, t: usize) -> Self {
        Layout {
            counts: &state.counts,
            t,
            s: state.s as u32,
        }
    }

    fn disks(&self, growth: usize) -> (u32, u32) {
        let m = self.counts[growth - 1] as u32;
        (m, self.counts[growth] as u32 - m)
    }

    /// The growth that placed block `x`, and its spot then.
    fn placed(&self, x: u32) -> (usize, u32, u32) {
        let mut growth = 0;
        while x >= self.counts[growth] as u32 * self.s {
            growth += 1;
        }
        if growth == 0 {
            let first = self.counts[0] as u32;
            return (0, x % first, x / first);
        }
        let (m, n) = self.disks(growth);
        let y = x - m * self.s;
        let b = y / n;
        let d = (b + m + 1) % (m + n) + (y - b * n);
        let d = if d >= m + n { d - (m + n) } else { d };
        (growth, d, b)
    }

    #[inline]
    pub fn place_of(&self, x: u32) -> Place {
        let (placed, mut d, b) = self.placed(x);
        let mut why = match placed as u64 {
            0 => Why::SetOut,
            growth => Why::Added { growth },
        };
        let mut times = 0;
        for growth in placed + 1..=self.t {
            let (m, n) = self.disks(growth);
            let b1 = b % (m + n);
            if moves(n, d, b1) {
                let (disk, part) = target(m, n, d, b1);
                d = disk;
                let growth = growth as u64;
                why = Why::Moved { growth, part };
                times += 1;
            }
        }
        let spot = Spot {
            disk: d as u64,
            row: Row(b as u64),
        };
        Place {
            spot,
            why,
            moves: times,
        }
    }

    /// Disk and row of block `x`.
    pub fn spot_of(&self, x: u32) -> (u32, u32) {
        let spot = self.place_of(x).spot;
        (spot.disk as u32, spot.row.0 as u32)
    }

    /// The block at disk `d`, row `b`.
    pub fn block_at(&self, d: u32, b: u32) -> u32 {
        let mut d = d;
        for growth in (1..=self.t).rev() {
            let (m, n) = self.disks(growth);
            let size = m + n;
            let b1 = b % size;
            let from = if d < m {
                (!moves(n, d, b1)).then_some(d)
            } else {
                origin(m, n, d, b1)
            };
            let Some(d0) = from else {
                // Nobody stayed here or came: an added block.
                let first = (b1 + m + 1) % size;
                let step = if d >= first {
                    d - first
                } else {
                    d + size - first
                };
                return m * self.s + b * n + step;
            };
            d = d0;
        }
        b * self.counts[0] as u32 + d
    }
}
