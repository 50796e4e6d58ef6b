//! Bindings to Streterva: a RAID-0 volume (striping without parity) that takes more disks while it is in use.
//!
//! The library behind it, `libcapi.a`, is proved against its specification, "document 01", and "document 02" for
//! [`State::load`], [`State::flushed`], [`State::view`], [`Address::moves`], [`Refusal::BeyondDoubling`],
//! [`table_move`] and [`Spans`]; the words and the numbers of refusals here are those documents'. A *block* is an
//! address in the volume, a *row* is a position on one disk, a *spot* is a disk and a row.
//!
//! The caller keeps two things: the medium, a slice of bytes with the record and all disks, and the [`State`], plain
//! data. Both are lent to each call, to view the medium as two shelves. A call that is refused changes neither and
//! gives a [`Refusal`], load a [`LoadRefusal`]. One function, [`table_move`], is on numbers alone and refuses nothing.
//!
//! ```
//! use streterva::{Block, State, Step};
//!
//! # fn main() -> Result<(), streterva::Refusal> {
//! // Blocks of 512 bytes, 5 rows on each disk, room for 5 disks.
//! let mut medium = vec![0; State::medium_bytes(512, 5, 5)];
//! let mut volume = State::format(&mut medium, 512, 5, 3)?;
//! // Here and below the drives are flushed before each `flushed`; plain memory has nothing to flush.
//! volume.flushed()?;
//! volume.write(&mut medium, Block(7), &[0xAB; 512])?;
//! volume.flushed()?;
//!
//! // From 3 disks to 5, step by step. Reads and writes may come in between.
//! let mut left = volume.grow(&mut medium, 5)?;
//! while left > 0 {
//!     volume.flushed()?;
//!     let advanced = volume.advance(&mut medium)?;
//!     assert_eq!(advanced.calls_left, left - 1);
//!     assert_eq!(advanced.step == Step::Finished, advanced.calls_left == 0);
//!     left = advanced.calls_left;
//! }
//!
//! volume.flushed()?;
//! // After a power cut nothing but the medium is left.
//! let volume = State::restart(&medium)?.state;
//! let mut piece = [0; 512];
//! volume.read(&medium, Block(7), &mut piece)?;
//! assert_eq!(piece, [0xAB; 512]);
//!
//! // The same bytes without a copy, with 2 disks on the first shelf and 3 on the second.
//! let (first, second) = medium.split_at(State::medium_bytes(512, 5, 2));
//! assert_eq!(volume.view(first, second, 2, Block(7))?, piece);
//!
//! // Block 7 has moved once, to a new disk, within its row.
//! let address = volume.address(Block(7))?;
//! let spot = address.spot;
//! assert_eq!((spot.disk, spot.row.0, address.moves), (3, 2, 1));
//! assert_eq!(volume.holder(spot.disk, spot.row)?, Block(7));
//! # Ok(())
//! # }
//! ```
//!
//! # Growths
//!
//! Power supplies allow only as many new drives as old in one growth, so [`State::grow`] refuses a count above twice
//! the present one with [`Refusal::BeyondDoubling`]. Where a rack's supply takes more new drives than old,
//! [`State::grow_beyond_doubling`] begins the growth: it is grow without that test, and "grow" below means either. A
//! volume that has such a step in its history, finished or under way, is restarted and completed by the same calls as
//! any other. The next [`State::grow`] on it takes up to twice its newest count.
//!
//! # Two clients
//!
//! A span table, [`Spans`], gives each of two clients its own blocks. [`State::client_read`] and
//! [`State::client_write`] refuse any other with [`Refusal::OutsideSpan`]. All other calls are the rack's.
//!
//! Promised is this. Take two runs with one span table, from the same medium and the same format, that keep to what
//! "Power cuts" asks. The rack's calls and one client's are the same in both, in their order, and so are the power
//! cuts, each in the same one of these calls or between calls, with the record that it leaves; none falls inside a call
//! of the other client. Directly after every write that is not cut, of either client and refused ones too,
//! [`State::flushed`] is called, in both runs; it is the rack's. Then the client's reads get the same numbers, and of
//! each block of its span that is set the same bytes, whatever the other client reads and writes in one run or the
//! other. A block is set once it was written, until a power cut falls inside a write of it or finds one not yet
//! flushed.
//!
//! Not promised: the bytes of a block that is not set, which may be what its spot held before, the other's too; the
//! bytes that a cut leaves of a store, which may differ; and anything where those calls of [`State::flushed`] are left
//! out, since then 18 and 19 may depend on the other's writes.
//!
//! # Pending stores
//!
//! Drives with a write cache may keep stores and put them down in any order, so a store is pending until the caller
//! tells by [`State::flushed`] that all earlier stores are down. On such drives:
//!
//! 1. Store blocks: write, copy, and advance while it copies, as many calls as wanted.
//! 2. Flush the drives: fsync, fdatasync, msync or the drive's flush command.
//! 3. Call [`State::flushed`]. The blocks written before are saved from now on.
//! 4. Store the record: grow, checkpoint, or the advance that finds no block left to copy.
//! 5. Flush the drives and call [`State::flushed`], before the next store.
//!
//! [`Refusal::FlushBlocks`] asks for steps 2 and 3 and [`Refusal::FlushRecord`] for step 5; then make the call again.
//! If flushed is called before all earlier stores are down, a block that was told as saved may be lost at a power cut,
//! and the record may name a copy whose bytes are not down, so that a block may be read with old or torn bytes. A
//! caller whose drives keep no store (write through) calls flushed directly after every call that stores.
//!
//! # Power cuts
//!
//! The state is lost with memory, so after a cut [`State::restart`] is the first call. A block written before the last
//! [`State::flushed`] is not lost at a cut. This begins at the first flushed after format and rests on two things
//! outside the library: all stores are down when flushed is called, and of a record store that is pending at the cut
//! the drives hold the 512 bytes of the old record or of the new one, never a mixture. A block written after the last
//! flushed may hold any bytes until it is written again. With the old record, the call that stored the new one was not
//! made.

#![deny(missing_docs)]
#![deny(unsafe_code)]

#[allow(unsafe_code)]
pub mod raw;

mod refusal;
mod spans;
mod state;
mod table;
#[cfg(test)]
mod tests;

pub use raw::Scene;
pub use refusal::{LoadRefusal, Refusal};
pub use spans::{Client, Span, Spans};
pub use state::State;
pub use table::{table_move, TableMove};

/// An address in the volume.
#[derive(Clone, Copy, Debug, PartialEq, Eq, PartialOrd, Ord, Hash)]
pub struct Block(pub u64);

/// A position on one disk.
#[derive(Clone, Copy, Debug, PartialEq, Eq, PartialOrd, Ord, Hash)]
pub struct Row(pub u64);

/// A place for one block: a row of a disk.
#[derive(Clone, Copy, Debug, PartialEq, Eq, Hash)]
pub struct Spot {
    /// The disk, counted from 0.
    pub disk: u64,
    /// The row on it.
    pub row: Row,
}

/// The part of its window that a moved block is in.
#[derive(Clone, Copy, Debug, PartialEq, Eq, Hash)]
pub enum Part {
    /// The first rows.
    Head,
    /// The rows between.
    Body,
    /// The last rows.
    Tail,
}

/// Why a block is at its spot. Growths are told by number, from 1.
#[derive(Clone, Copy, Debug, PartialEq, Eq, Hash)]
pub enum Reason {
    /// It was set out at format, and no growth has moved it.
    SetOut,
    /// It was added by a growth, and no later one has moved it.
    Added {
        /// The number of the growth.
        growth: u64,
    },
    /// It was moved.
    Moved {
        /// The number of the last growth that moved it.
        growth: u64,
        /// The part it was in.
        part: Part,
    },
}

/// Where a block is, why, and how often it was moved: the answer of [`State::address`].
#[derive(Clone, Copy, Debug, PartialEq, Eq, Hash)]
pub struct Address {
    /// The live spot, where the block is read and written now.
    pub spot: Spot,
    /// Why it is there.
    pub reason: Reason,
    /// By how many growths of the history it was moved; one under way counts only while the block is at its new spot.
    pub moves: u64,
}

/// What one advance call did.
#[derive(Clone, Copy, Debug, PartialEq, Eq, Hash)]
pub enum Step {
    /// It copied a block.
    Copied {
        /// The block.
        block: Block,
        /// Its part.
        part: Part,
    },
    /// It made a checkpoint, and the growth goes on.
    Recorded,
    /// It made the checkpoint that ended the growth.
    Finished,
}

/// The answer of [`State::advance`].
#[derive(Clone, Copy, Debug, PartialEq, Eq, Hash)]
pub struct Advanced {
    /// What the call did.
    pub step: Step,
    /// The advance calls left until the growth is finished.
    pub calls_left: u64,
}

/// The answer of [`State::restart`].
#[derive(Clone, Copy, Debug, PartialEq, Eq, Hash)]
pub struct Restarted {
    /// The state read from the record.
    pub state: State,
    /// The advance calls left, 0 when no growth is under way.
    pub calls_left: u64,
}
