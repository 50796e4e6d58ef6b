//! The tally: how far the growth is, followed from the calls alone.

use crate::spot::{after, Block, Spot};
use crate::window::{Growth, Move};
use std::collections::BTreeMap;

#[derive(Clone, Debug)]
pub struct Tally {
    s: u64,
    counts: Vec<u64>,
    growing: bool,
    w: u64,
    copied: Vec<Block>,
    recorded: Vec<Block>,
    /// How often a copy of each block became a recorded one, since format.
    times: BTreeMap<Block, u64>,
}

impl Tally {
    pub fn format(s: u64, disks: u64) -> Tally {
        Tally {
            s,
            counts: vec![disks],
            growing: false,
            w: 0,
            copied: Vec::new(),
            recorded: Vec::new(),
            times: BTreeMap::new(),
        }
    }

    /// An accepted grow, of either kind.
    pub fn grow(&mut self, count: u64) {
        self.counts.push(count);
        self.growing = true;
        self.w = 0;
        self.copied.clear();
        self.recorded.clear();
    }

    pub fn copy(&mut self, x: Block) {
        self.copied.push(x);
    }

    pub fn checkpoint(&mut self) {
        for x in self.copied.iter().filter(|x| !self.recorded.contains(x)) {
            *self.times.entry(*x).or_default() += 1;
        }
        self.recorded = self.copied.clone();
        let full = self
            .moves()
            .iter()
            .all(|x| self.recorded.contains(&x.block));
        if full {
            self.copied.clear();
            self.recorded.clear();
            self.w += 1;
            self.growing = self.w < self.growth().windows();
        }
    }

    pub fn restart(&mut self) {
        self.copied = self.recorded.clone();
    }

    pub fn growing(&self) -> bool {
        self.growing
    }

    /// N[0] to N[t].
    pub fn counts(&self) -> &[u64] {
        &self.counts
    }

    pub fn disks(&self) -> u64 {
        self.counts[self.counts.len() - 1]
    }

    pub fn s(&self) -> u64 {
        self.s
    }

    /// The move that an advance would copy: the lowest mark not copied.
    pub fn next_copy(&self) -> Option<Move> {
        let mut moves = self.moves().into_iter();
        moves.find(|step| !self.copied.contains(&step.block))
    }

    /// The moves of window w, in the order of the marks.
    pub fn moves(&self) -> Vec<Move> {
        self.growth().moves(self.w)
    }

    /// The move of an open block in the growth that runs.
    pub fn move_of(&self, x: Block) -> Option<Move> {
        self.growth().move_of(x)
    }

    /// Where open block `x` lives.
    pub fn live(&self, x: Block) -> Spot {
        if !self.growing {
            return after(&self.counts, self.s, x).spot;
        }
        match self.growth().move_of(x) {
            Some(step) if step.window < self.w || self.recorded.contains(&x) => step.new,
            _ => self.growth().old_spot(x),
        }
    }

    /// By how many growths block `x` was moved: a growth records its copy once.
    pub fn times_moved(&self, x: Block) -> u64 {
        self.times.get(&x).copied().unwrap_or(0)
    }

    /// The advance calls left, U + R - w; 0 when no growth runs.
    pub fn calls_left(&self) -> u64 {
        if !self.growing {
            return 0;
        }
        let uncopied = self
            .moves()
            .iter()
            .filter(|step| !self.copied.contains(&step.block))
            .count() as u64;
        let growth = self.growth();
        uncopied + growth.later_moves(self.w) + growth.windows() - self.w
    }

    fn growth(&self) -> Growth<'_> {
        Growth::new(&self.counts, self.s)
    }
}
