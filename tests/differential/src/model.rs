//! The plain volume and the tally beside a list of calls.

use crate::call::{Call, MOVES};
use crate::library;
use crate::pair::{same, same_bytes, Difference};
use reference::followed::Followed;
use reference::limits::RECORD;
use reference::refusal::NOT_OPEN;
use reference::spot::{Block, Spot};
use std::ops::Range;

/// Where an accepted call stores.
#[derive(Clone, PartialEq, Eq, Debug)]
pub enum Store {
    Nothing,
    Record,
    Spot(Range<usize>),
}

impl Store {
    pub fn bytes(&self) -> Range<usize> {
        match self {
            Store::Nothing => 0..0,
            Store::Record => 0..RECORD,
            Store::Spot(bytes) => bytes.clone(),
        }
    }
}

#[derive(Clone)]
pub struct Model {
    pub z: u64,
    pub followed: Followed,
    /// The advance calls left by the last report.
    pub reported: u64,
}

impl Model {
    pub fn format(z: u64, s: u64, disks: u64) -> Model {
        Model {
            z,
            followed: Followed::format(s, disks),
            reported: 0,
        }
    }

    /// The number of open blocks.
    pub fn open(&self) -> u64 {
        self.followed.plain.open()
    }

    pub fn growing(&self) -> bool {
        self.followed.tally.growing()
    }

    pub fn disks(&self) -> u64 {
        self.followed.tally.disks()
    }

    /// Rows on each disk.
    pub fn rows(&self) -> u64 {
        self.followed.tally.s()
    }

    fn bytes_of(&self, spot: Spot) -> Range<usize> {
        let at = RECORD as u64 + (spot.disk * self.rows() + spot.row.0) * self.z;
        at as usize..(at + self.z) as usize
    }

    /// The bytes that the record and `disks` disks take.
    pub fn bytes(&self, disks: u64) -> usize {
        RECORD + (disks * self.rows() * self.z) as usize
    }

    /// Where the call stores if it is accepted; anything if it cannot be.
    pub fn store_of(&self, call: &Call) -> Store {
        let (open, tally) = (self.open(), &self.followed.tally);
        match *call {
            Call::Format { .. } | Call::Checkpoint => Store::Record,
            Call::Grow { .. } | Call::GrowBeyondDoubling { .. } => Store::Record,
            Call::Write { block, .. } | Call::ClientWrite { block, .. } if block < open => {
                Store::Spot(self.bytes_of(tally.live(Block(block))))
            }
            Call::Copy { block } if self.growing() && block < open => {
                let step = tally.move_of(Block(block));
                step.map_or(Store::Nothing, |step| Store::Spot(self.bytes_of(step.new)))
            }
            Call::Advance if self.growing() => match tally.next_copy() {
                Some(step) => Store::Spot(self.bytes_of(step.new)),
                None => Store::Record,
            },
            _ => Store::Nothing,
        }
    }

    /// Steps both by an accepted call other than format; `piece` is the one it
    /// was lent.
    pub fn made(&mut self, call: &Call, piece: &[u8]) {
        let followed = &mut self.followed;
        match *call {
            Call::Restart => followed.restart(),
            Call::Grow { count } | Call::GrowBeyondDoubling { count } => followed.grow(count),
            Call::Copy { block } => followed.copy(Block(block)),
            Call::Checkpoint => followed.checkpoint(),
            Call::Advance => followed.advance(),
            Call::Write { block, .. } | Call::ClientWrite { block, .. } => {
                followed.write(Block(block), piece)
            }
            Call::Flushed => followed.flushed(),
            _ => {}
        }
    }

    /// Steps both by a call other than format that a cut fell in. The record
    /// is stored, old or new; nothing of a copy is left but bytes in its spot.
    pub fn cut_in(&mut self, call: &Call, store: &Store) {
        match *call {
            Call::Write { block, .. } | Call::ClientWrite { block, .. } => {
                self.followed.cut_in_write(Block(block))
            }
            _ if *store == Store::Record => self.made(call, &[]),
            _ => {}
        }
    }

    /// Reads back every open block with the library: the bytes at its live
    /// spot, which the library has to give as its address with the moves that
    /// the tally has counted, and where they are `held` to the plain volume,
    /// the block's bytes if it is set.
    pub fn read_back(&self, state: &[u64], medium: &[u8], held: bool) -> Result<(), Difference> {
        let mut piece = vec![0; self.z as usize];
        for x in (0..self.open()).map(Block) {
            let number = library::read(state, medium, x.0, &mut piece);
            same("the number of a read-back", number, 0)?;
            if let (Some(bytes), true) = (self.followed.plain.bytes(x), held) {
                same_bytes("a block of the plain volume", &piece, bytes)?;
            }
            let spot = self.followed.tally.live(x);
            let bytes = &medium[self.bytes_of(spot)];
            same_bytes("a block at its live spot", &piece, bytes)?;
            let mut figures = [0; library::ADDRESS_FIGURES];
            library::address(state, x.0, &mut figures);
            same("a live spot", &figures[..2], &[spot.disk, spot.row.0])?;
            let moves = self.followed.tally.times_moved(x);
            same("the moves by the tally", figures[MOVES], moves)?;
        }
        let number = library::read(state, medium, self.open(), &mut piece);
        same("a read past the open blocks", number, NOT_OPEN)
    }
}
