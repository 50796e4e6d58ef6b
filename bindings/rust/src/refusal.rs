use std::error::Error;
use std::fmt;

/// Why a call was refused. The values are the numbers of documents 01 and 02.
#[derive(Clone, Copy, Debug, PartialEq, Eq, Hash)]
#[repr(u64)]
pub enum Refusal {
    /// 1: the state is not sound.
    NotSound = 1,
    /// 2: the medium is too short for the record and all disks, or a shelf for what it holds.
    MediumTooShort = 2,
    /// 3: the block is not open: past the end, or added by the growth under way.
    BlockNotOpen = 3,
    /// 4: the piece is not one block long.
    PieceSize = 4,
    /// 5: no growth is under way.
    NotGrowing = 5,
    /// 6: a growth is under way already.
    Growing = 6,
    /// 7: the block is copied but not recorded. After a checkpoint it can be written.
    CopyNotRecorded = 7,
    /// 8: a block size, a number of rows, a disk count or the number of disks on the first shelf is outside its limits.
    OutsideLimits = 8,
    /// 9: the volume has had its 7 growths.
    NoMoreGrowths = 9,
    /// 10: the block does not move, or is not in the window under way.
    NotMoving = 10,
    /// 11: the block is copied already.
    AlreadyCopied = 11,
    /// 12: all copies are recorded.
    NothingToRecord = 12,
    /// 13: bytes 0 to 511 are not the record of a sound state.
    NoRecord = 13,
    /// 14: the disk or the row does not exist.
    NoSuchSpot = 14,
    /// 15: no open block lives at the spot.
    NoBlockThere = 15,
    /// 18: a record store is due and block stores are pending. Accepted after the drives are flushed and
    /// [`State::flushed`](crate::State::flushed).
    FlushBlocks = 18,
    /// 19: a record store is pending. Accepted after the drives are flushed and
    /// [`State::flushed`](crate::State::flushed).
    FlushRecord = 19,
    /// 20: the growth would more than double the disks. [`State::grow`](crate::State::grow) has this refusal and
    /// [`State::grow_beyond_doubling`](crate::State::grow_beyond_doubling) has not.
    BeyondDoubling = 20,
    /// 21: the block is outside the client's span; or, where a table is made, its spans share a block or reach too far.
    /// [`raw`](crate::raw) also has it for a client that is neither 0 nor 1 and for a table that was not checked.
    OutsideSpan = 21,
}

impl Refusal {
    /// Every refusal, by rising number.
    pub const ALL: [Refusal; 19] = [
        Refusal::NotSound,
        Refusal::MediumTooShort,
        Refusal::BlockNotOpen,
        Refusal::PieceSize,
        Refusal::NotGrowing,
        Refusal::Growing,
        Refusal::CopyNotRecorded,
        Refusal::OutsideLimits,
        Refusal::NoMoreGrowths,
        Refusal::NotMoving,
        Refusal::AlreadyCopied,
        Refusal::NothingToRecord,
        Refusal::NoRecord,
        Refusal::NoSuchSpot,
        Refusal::NoBlockThere,
        Refusal::FlushBlocks,
        Refusal::FlushRecord,
        Refusal::BeyondDoubling,
        Refusal::OutsideSpan,
    ];

    /// The number of document 01 or 02.
    pub const fn number(self) -> u64 {
        self as u64
    }

    /// The refusal with this number, if there is one.
    pub fn from_number(number: u64) -> Option<Refusal> {
        Self::ALL
            .into_iter()
            .find(|refusal| refusal.number() == number)
    }
}

impl fmt::Display for Refusal {
    fn fmt(&self, f: &mut fmt::Formatter<'_>) -> fmt::Result {
        f.write_str(match self {
            Refusal::NotSound => "the state is not sound",
            Refusal::MediumTooShort => "the medium or a shelf is too short",
            Refusal::BlockNotOpen => "the block is not open",
            Refusal::PieceSize => "the piece is not one block long",
            Refusal::NotGrowing => "no growth is under way",
            Refusal::Growing => "a growth is under way",
            Refusal::CopyNotRecorded => "the block is copied but not recorded",
            Refusal::OutsideLimits => {
                "a size, a number of rows, a disk count or the disks on the first shelf are outside their limits"
            }
            Refusal::NoMoreGrowths => "the volume has had its last growth",
            Refusal::NotMoving => "the block does not move in this window",
            Refusal::AlreadyCopied => "the block is copied already",
            Refusal::NothingToRecord => "all copies are recorded",
            Refusal::NoRecord => "the medium has no record of a sound state",
            Refusal::NoSuchSpot => "the disk or the row does not exist",
            Refusal::NoBlockThere => "no open block lives at the spot",
            Refusal::FlushBlocks => "block stores are pending, and a record store is due",
            Refusal::FlushRecord => "a record store is pending",
            Refusal::BeyondDoubling => "the growth would more than double the disks",
            Refusal::OutsideSpan => {
                "the block is outside the client's span, or the spans share a block or reach too far"
            }
        })
    }
}

impl Error for Refusal {}

/// Why [`State::load`](crate::State::load) refused its list.
#[derive(Clone, Copy, Debug, PartialEq, Eq, Hash)]
pub enum LoadRefusal {
    /// 1: the state is not sound.
    NotSound,
    /// 17: a scene reaches past the open blocks or stands after the first 65,536.
    Scene {
        /// The place of the first such scene, counted from 0.
        place: u64,
    },
}

impl LoadRefusal {
    /// The number of document 01 or 02.
    pub const fn number(self) -> u64 {
        match self {
            LoadRefusal::NotSound => 1,
            LoadRefusal::Scene { .. } => 17,
        }
    }
}

impl fmt::Display for LoadRefusal {
    fn fmt(&self, f: &mut fmt::Formatter<'_>) -> fmt::Result {
        match self {
            LoadRefusal::NotSound => Refusal::NotSound.fmt(f),
            LoadRefusal::Scene { place } => write!(
                f,
                "the scene at place {place} reaches past the open blocks or stands after the first 65,536"
            ),
        }
    }
}

impl Error for LoadRefusal {}
