//! The choice of calls and arguments.

use super::List;
use crate::call::{Call, Piece};
use crate::{clients, views};
use reference::limits::{DISKS, RECORD, SECTOR};
use reference::sample::any_spans;

impl List<'_> {
    /// Any call with any arguments.
    pub fn any_call(&mut self) -> Call {
        match self.random.below(16) {
            0 => self.format_call(),
            1 => Call::Restart,
            2 => self.grow_call(),
            3 => Call::Copy {
                block: self.block(),
            },
            4 => Call::Checkpoint,
            5 => Call::Advance,
            6 => self.write_call(),
            7 => Call::Read {
                block: self.block(),
                bytes: self.piece_bytes(),
            },
            8 => Call::Address {
                block: self.block(),
            },
            9 => self.holder_call(),
            10 => Call::Soundness,
            11 => Call::Flushed,
            12 => self.view_call(),
            13 => {
                let open = self.open();
                let spans = any_spans(&mut self.random, open);
                Call::Spans { spans }
            }
            14 => self.client_read_call(),
            _ => self.client_write_call(),
        }
    }

    /// A call that brings the volume on more often than not.
    pub fn likely_call(&mut self) -> Call {
        if self.random.percent(self.settings.flushes) {
            return Call::Flushed;
        }
        let growing = self.model.as_ref().is_some_and(|it| it.growing());
        match (self.random.below(100), growing) {
            (0..=27, true) => Call::Advance,
            (28..=47, true) => Call::Copy {
                block: self.block(),
            },
            (48..=57, true) => Call::Checkpoint,
            (58..=70, true) => self.write_call(),
            (71..=80, true) => self.client_write_call(),
            (0..=19, false) => self.grow_call(),
            (20..=49, false) => self.write_call(),
            (50..=62, false) => self.client_write_call(),
            (81..=86, _) => self.client_read_call(),
            (99, _) if self.random.percent(80) => Call::Restart,
            _ => match self.any_call() {
                Call::Format { .. } if self.random.percent(80) => self.write_call(),
                call => call,
            },
        }
    }

    pub fn format_call(&mut self) -> Call {
        let (z, s, disks) = (self.settings.z, self.settings.s, self.settings.first);
        let mut arguments = match self.model {
            Some(_) => [
                self.random.pick(&[z, SECTOR]),
                self.random.range(1, s),
                self.random.range(1, disks),
            ],
            None => [z, s, disks],
        };
        if self.random.percent(20) {
            let i = self.random.below(3) as usize;
            let limit = [65_536, 1_000_000, 16][i];
            let around = self.random.pick(&[0, 512, limit]);
            arguments[i] = self.random.odd_number(around);
        }
        let [z, s, disks] = arguments;
        Call::Format { z, s, disks }
    }

    /// Either grow.
    pub fn grow_call(&mut self) -> Call {
        let count = self.grown_count();
        match self.random.percent(50) {
            true => Call::Grow { count },
            false => Call::GrowBeyondDoubling { count },
        }
    }

    fn grown_count(&mut self) -> u64 {
        let disks = self.model.as_ref().map_or(1, |it| it.disks());
        let any = self.random.odd_number(disks);
        let high = self.random.range(14, 18);
        let some = self.random.range(1, self.settings.widest);
        let more = disks + self.random.pick(&[some, some, self.settings.widest]);
        let fits = more.min(self.settings.room);
        let twice = 2 * disks + self.random.below(2);
        self.random
            .pick(&[fits, fits, fits, fits, more, high, any, twice])
    }

    fn open(&self) -> u64 {
        self.model.as_ref().map_or(3, |it| it.open())
    }

    fn client_read_call(&mut self) -> Call {
        let (block, bytes) = (self.block(), self.piece_bytes());
        let open = self.open();
        let by = clients::any(&mut self.random, open, block);
        Call::ClientRead { by, block, bytes }
    }

    fn client_write_call(&mut self) -> Call {
        let piece = Piece {
            seed: self.random.word(),
            bytes: self.piece_bytes(),
        };
        let (block, open) = (self.block(), self.open());
        let by = clients::any(&mut self.random, open, block);
        Call::ClientWrite { by, block, piece }
    }

    fn write_call(&mut self) -> Call {
        let piece = Piece {
            seed: self.random.word(),
            bytes: self.piece_bytes(),
        };
        let block = self.block();
        Call::Write { block, piece }
    }

    fn holder_call(&mut self) -> Call {
        let disks = self.model.as_ref().map_or(1, |it| it.disks());
        let rows = self.model.as_ref().map_or(1, |it| it.rows());
        let (mut disk, mut row) = (self.random.below(disks), self.random.below(rows));
        if self.random.percent(10) {
            disk = self.random.odd_number(disks);
        }
        if self.random.percent(10) {
            row = self.random.odd_number(rows);
        }
        Call::Holder { disk, row }
    }

    pub fn view_call(&mut self) -> Call {
        let disks = self.model.as_ref().map_or(1, |it| it.disks());
        let (block, k) = (self.block(), views::any_k(&mut self.random, disks));
        self.view_of(block, k)
    }

    /// A view of this block, with the record and k disks on the first shelf.
    pub fn view_of(&mut self, block: u64, k: u64) -> Call {
        let disks = self.model.as_ref().map_or(0, |it| it.disks());
        let bytes = |disks| match &self.model {
            Some(model) => model.bytes(disks) as u64,
            None => RECORD as u64,
        };
        let shelves = views::shelves(&mut self.random, k, disks, bytes);
        Call::View { block, shelves }
    }

    /// A block: open, or moving in the window at work, or anything.
    pub fn block(&mut self) -> u64 {
        let Some(model) = &self.model else {
            return self.random.odd_number(3);
        };
        let open = model.open();
        if model.growing() && self.random.percent(60) {
            let moves = model.followed.tally.moves();
            return self.random.pick(&moves).block.0;
        }
        if self.random.percent(90) {
            self.random.below(open)
        } else {
            self.random.odd_number(open)
        }
    }

    fn piece_bytes(&mut self) -> usize {
        let z = self.model.as_ref().map_or(512, |it| it.z) as usize;
        if self.random.percent(95) {
            return z;
        }
        self.random.pick(&[0, z - 1, z + 1, 512, 1024, z / 2])
    }

    /// How much of the medium is lent: most often all of it.
    pub fn lent_bytes(&mut self, call: &Call) -> usize {
        let whole = self.pair.medium().len();
        if self.random.percent(96) {
            return whole;
        }
        let any = self.random.below(whole as u64 + 1) as usize;
        let needed = match (&self.model, call) {
            (Some(model), Call::Grow { count } | Call::GrowBeyondDoubling { count })
                if *count <= DISKS =>
            {
                model.bytes(*count)
            }
            (Some(model), _) => model.bytes(model.disks()),
            _ => RECORD,
        };
        let choices = [0, 511, 512, needed - 1, needed - 1, needed, any];
        self.random.pick(&choices).min(whole)
    }
}
