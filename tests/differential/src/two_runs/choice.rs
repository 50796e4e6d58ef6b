//! The choice of calls and blocks.

use super::Runs;
use crate::call::{By, Call, Piece};

impl Runs<'_> {
    /// A call of the rack or of the client.
    pub fn rack_or_client_call(&mut self) -> Call {
        let block = self.block_for(self.by);
        match (self.random.below(100), self.growing()) {
            (0..=27, true) => Call::Advance,
            (28..=44, true) => Call::Copy {
                block: self.moving_block(),
            },
            (45..=55, true) => Call::Checkpoint,
            (0..=19, false) | (56..=57, true) => self.grow_call(),
            (90..=94, _) => Call::Flushed,
            (95..=97, _) => Call::Restart,
            _ => self.client_call(self.by, block),
        }
    }

    fn grow_call(&mut self) -> Call {
        let disks = self.runs[1].model.disks();
        let more = disks + self.random.range(1, self.settings.widest);
        let count = more.min(self.settings.room);
        match self.random.percent(50) {
            true => Call::Grow { count },
            false => Call::GrowBeyondDoubling { count },
        }
    }

    pub fn client_call(&mut self, by: By, block: u64) -> Call {
        let bytes = self.settings.z as usize - self.random.percent(3) as usize;
        if self.random.percent(25) {
            return Call::ClientRead { by, block, bytes };
        }
        let seed = self.random.word();
        let piece = Piece { seed, bytes };
        Call::ClientWrite { by, block, piece }
    }

    fn moving_block(&mut self) -> u64 {
        let moves = self.runs[1].model.followed.tally.moves();
        self.random.pick(&moves).block.0
    }

    /// Most often a block of the client's; at times one at an end of its span,
    /// and in a growth one that moves, whoever has it.
    pub fn block_for(&mut self, by: By) -> u64 {
        let span = by.spans.0[by.client as usize];
        let (open, end) = (self.open(), span.first + span.count);
        if self.random.percent(15) {
            let ends = [
                span.first,
                span.first.wrapping_sub(1),
                end,
                end.wrapping_sub(1),
            ];
            return self.random.pick(&ends);
        }
        if self.growing() && self.random.percent(30) {
            return self.moving_block();
        }
        let reached = end.min(open);
        if self.random.percent(10) || span.first >= reached {
            return self.random.below(open + 2);
        }
        self.random.range(span.first, reached - 1)
    }
}
