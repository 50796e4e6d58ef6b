//! One growth: its windows, and the blocks that move in them.

use crate::spot::{after, blocks_of_row, moved, Block, Part, Row, Spot};
use std::ops::Range;

/// The growth to the last of `counts`, on disks of `s` rows.
#[derive(Clone, Copy)]
pub struct Growth<'a> {
    counts: &'a [u64],
    s: u64,
}

/// A block's move in a growth.
#[derive(Clone, Copy, PartialEq, Eq, Debug)]
pub struct Move {
    pub block: Block,
    pub window: u64,
    pub mark: u64,
    pub old: Spot,
    pub new: Spot,
    pub part: Part,
}

impl<'a> Growth<'a> {
    /// `counts` needs at least two entries.
    pub fn new(counts: &'a [u64], s: u64) -> Self {
        Growth { counts, s }
    }

    fn before(&self) -> &'a [u64] {
        &self.counts[..self.counts.len() - 1]
    }

    /// Disks before the growth.
    fn m(&self) -> u64 {
        self.counts[self.counts.len() - 2]
    }

    /// Disks added.
    fn n(&self) -> u64 {
        self.counts[self.counts.len() - 1] - self.m()
    }

    /// Blocks open while the growth runs.
    pub fn open(&self) -> u64 {
        self.m() * self.s
    }

    /// The number of windows, R.
    pub fn windows(&self) -> u64 {
        self.s.div_ceil(self.m() + self.n())
    }

    /// The rows of window k.
    pub fn rows(&self, k: u64) -> Range<u64> {
        let size = self.m() + self.n();
        k * size..self.s.min((k + 1) * size)
    }

    /// The spot of an open block before the growth.
    pub fn old_spot(&self, x: Block) -> Spot {
        after(self.before(), self.s, x).spot
    }

    /// The move of an open block, if it moves.
    pub fn move_of(&self, x: Block) -> Option<Move> {
        let old = self.old_spot(x);
        let (new, part) = moved(self.m(), self.n(), old)?;
        let size = self.m() + self.n();
        let b1 = old.row.0 % size;
        Some(Move {
            block: x,
            window: old.row.0 / size,
            mark: old.disk * self.n() + (b1 - old.disk),
            old,
            new,
            part,
        })
    }

    /// The moves of window k, tried block by block, in the order of the marks.
    pub fn moves(&self, k: u64) -> Vec<Move> {
        let mut moves = Vec::with_capacity(64);
        for row in self.rows(k) {
            for x in blocks_of_row(self.before(), self.s, Row(row)) {
                moves.extend(self.move_of(x));
            }
        }
        moves.sort_by_key(|step| step.mark);
        moves
    }

    /// How many blocks move in the windows after w.
    pub fn later_moves(&self, w: u64) -> u64 {
        (w + 1..self.windows())
            .map(|k| self.moves(k).len() as u64)
            .sum()
    }
}
