//! The plain volume and the tally, followed through a list of calls with what
//! is pending, and what a cut makes of them.
//!
//! They see a call's arguments, that it was accepted, and at a cut the call it
//! fell in, if any, and which record it left; nothing of the state or of the
//! record.

use crate::plain::Plain;
use crate::spot::Block;
use crate::state::Pending;
use crate::tally::Tally;

/// The record that a cut leaves while a record store is pending. A cut with
/// none pending leaves the one there is, which is `New`.
#[derive(Clone, Copy, PartialEq, Eq, Debug)]
pub enum Left {
    Old,
    New,
}

#[derive(Clone, Debug)]
pub struct Followed {
    pub plain: Plain,
    pub tally: Tally,
    /// Stores since the last flushed or restart.
    pending: Pending,
    /// Blocks written since.
    written: Vec<Block>,
    /// Both before the record store that is pending. There is one at most,
    /// and with 19 no store comes after it.
    before: Option<Box<(Plain, Tally)>>,
    /// Whether format's record is down.
    started: bool,
}

impl Followed {
    pub fn format(s: u64, disks: u64) -> Followed {
        Followed {
            plain: Plain::format(disks * s),
            tally: Tally::format(s, disks),
            pending: Pending {
                record: true,
                blocks: false,
            },
            written: Vec::new(),
            before: None,
            started: false,
        }
    }

    pub fn write(&mut self, x: Block, piece: &[u8]) {
        self.plain.write(x, piece);
        self.written.push(x);
        self.pending.blocks = true;
    }

    /// An accepted grow, of either kind.
    pub fn grow(&mut self, count: u64) {
        self.keep();
        self.tally.grow(count);
    }

    pub fn copy(&mut self, x: Block) {
        self.tally.copy(x);
        self.pending.blocks = true;
    }

    pub fn checkpoint(&mut self) {
        self.keep();
        self.tally.checkpoint();
        if !self.tally.growing() {
            self.plain.grown(self.tally.disks() * self.tally.s());
        }
    }

    pub fn advance(&mut self) {
        match self.tally.next_copy() {
            Some(step) => self.copy(step.block),
            None => self.checkpoint(),
        }
    }

    pub fn flushed(&mut self) {
        self.settle();
    }

    pub fn restart(&mut self) {
        self.tally.restart();
        self.settle();
    }

    /// A cut in a write of this block, before the rest that the cut does.
    pub fn cut_in_write(&mut self, x: Block) {
        self.written.push(x);
    }

    /// A cut: what was written since the last flushed or restart is unset, and
    /// with the old record the call that stored the new one was never made. A
    /// cut in a record store comes after that call's step, a cut in a copy
    /// without it.
    pub fn cut(&mut self, left: Left) {
        if let (Left::Old, Some(before)) = (left, self.before.take()) {
            (self.plain, self.tally) = *before;
        }
        for x in std::mem::take(&mut self.written) {
            self.plain.unset(x);
        }
        self.settle();
    }

    pub fn pending(&self) -> Pending {
        self.pending
    }

    /// Whether a checkpoint's record is pending, of an advance too.
    pub fn checkpoint_is_pending(&self) -> bool {
        let before = self.before.as_ref();
        before.is_some_and(|before| before.1.growing())
    }

    /// Whether the record of the checkpoint that ended a growth is pending.
    pub fn end_is_pending(&self) -> bool {
        self.checkpoint_is_pending() && !self.tally.growing()
    }

    /// Whether the guarantee holds: a flushed came after format.
    pub fn started(&self) -> bool {
        self.started
    }

    /// Blocks written since the last flushed or restart, in their order.
    pub fn written(&self) -> &[Block] {
        &self.written
    }

    /// Before the step of a call that stores the record.
    fn keep(&mut self) {
        let now = (self.plain.clone(), self.tally.clone());
        self.before = Some(Box::new(now));
        self.pending.record = true;
    }

    fn settle(&mut self) {
        self.pending = Pending::NOTHING;
        self.written.clear();
        self.before = None;
        self.started = true;
    }
}
