use std::fmt;

use crate::raw;
use crate::{Address, Advanced, Block, Part, Reason, Restarted, Row, Scene, Spot, Step};
use crate::{Client, LoadRefusal, Refusal, Spans};

/// The state of a volume: plain data, which the caller keeps and lends to each call together with the medium.
///
/// A state belongs to one medium. Lend a medium only with the state that the last accepted call left for it: the library
/// cannot tell an older copy, or the state of another medium, from the right one. After a power cut [`State::restart`] reads the
/// state back from the medium.
///
/// A refused call changes neither the state nor the medium nor the piece.
#[derive(Clone, Copy, PartialEq, Eq, Hash)]
pub struct State {
    words: [u64; raw::STATE_WORDS],
}

/// The limits of a volume, and the numbers in a state.
impl State {
    /// The fewest disks of a volume.
    pub const LEAST_DISKS: u64 = 1;
    /// The most disks of a volume.
    pub const MOST_DISKS: u64 = 16;
    /// The most growths of a volume.
    pub const MOST_GROWTHS: u64 = 7;
    /// The fewest rows on each disk.
    pub const LEAST_ROWS: u64 = 1;
    /// The most rows on each disk.
    pub const MOST_ROWS: u64 = 1_000_000;
    /// The bytes in a block are a multiple of this.
    pub const SIZE_STEP: u64 = 512;
    /// The fewest bytes in a block.
    pub const LEAST_SIZE: u64 = 512;
    /// The most bytes in a block.
    pub const MOST_SIZE: u64 = 65_536;
    /// The bytes of the record, at the start of the medium.
    pub const RECORD_BYTES: usize = 512;

    /// The bytes that a medium needs for blocks of `size` bytes, `rows` rows on each disk and `disks` disks. Outside the
    /// limits it is the largest number where it would be more than that.
    pub const fn medium_bytes(size: u64, rows: u64, disks: u64) -> usize {
        let blocks = disks.saturating_mul(rows);
        blocks
            .saturating_mul(size)
            .saturating_add(Self::RECORD_BYTES as u64) as usize
    }

    /// The state with these words: Z, s, t, N\[0\] to N\[7\], growing, w, the recorded marks, the copied marks and what
    /// is pending: 0 nothing, 1 a record store, 2 block stores, 3 both. `None` when the last word is above 3. The state
    /// may not be sound; then every call refuses it.
    pub const fn from_words(words: [u64; raw::STATE_WORDS]) -> Option<State> {
        if words[15] > raw::MOST_PENDING {
            return None;
        }
        Some(State { words })
    }

    /// The words of the state, in the order of [`State::from_words`].
    pub const fn words(&self) -> [u64; raw::STATE_WORDS] {
        self.words
    }

    /// Z: the bytes in a block.
    pub const fn size(&self) -> u64 {
        self.words[0]
    }

    /// s: the rows on each disk.
    pub const fn rows(&self) -> u64 {
        self.words[1]
    }

    /// t: the number of growths, one under way included.
    pub const fn growths(&self) -> u64 {
        self.words[2]
    }

    /// N\[0\] to N\[7\]: the disk counts, first the one at format, then one for each growth; 0 in a sound state after N\[t\].
    pub fn counts(&self) -> [u64; 8] {
        std::array::from_fn(|i| self.words[3 + i])
    }

    /// N\[t\]: the disks there are, those of a growth under way included. 0 when t is above 7, as in no sound state.
    pub fn disks(&self) -> u64 {
        match usize::try_from(self.growths()) {
            Ok(t) => self.counts().get(t).copied().unwrap_or(0),
            Err(_) => 0,
        }
    }

    /// Whether a growth is under way.
    pub const fn is_growing(&self) -> bool {
        self.words[11] == 1
    }

    /// w: the windows finished of the growth under way.
    pub const fn window(&self) -> u64 {
        self.words[12]
    }

    /// The recorded marks of window w; mark j is bit j.
    pub const fn recorded(&self) -> u64 {
        self.words[13]
    }

    /// The copied marks of window w; mark j is bit j.
    pub const fn copied(&self) -> u64 {
        self.words[14]
    }

    /// Whether a record store is pending.
    pub const fn record_is_pending(&self) -> bool {
        self.words[15] & raw::RECORD_PENDING != 0
    }

    /// Whether block stores are pending.
    pub const fn blocks_are_pending(&self) -> bool {
        self.words[15] & raw::BLOCKS_PENDING != 0
    }

    /// Whether the state is sound. The calls leave only sound states; one made from words may be another.
    pub fn is_sound(&self) -> bool {
        raw::soundness(&self.words) == 0
    }
}

/// The calls. Those that store leave the store pending until [`State::flushed`].
impl State {
    /// Begins a volume with blocks of `size` bytes, `rows` rows on each disk and `disks` disks, and stores its record.
    ///
    /// # Errors
    ///
    /// 8, `size`, `rows` or `disks` outside the limits; 2.
    pub fn format(medium: &mut [u8], size: u64, rows: u64, disks: u64) -> Result<State, Refusal> {
        let mut state = [0; raw::STATE_WORDS];
        accepted(raw::format(&mut state, medium, size, rows, disks))?;
        Ok(State { words: state })
    }

    /// Reads the state back from the record: the first call after a power cut. Copies that were not recorded are
    /// forgotten, and nothing is pending. Without a cut, call it only directly after [`State::flushed`].
    ///
    /// # Errors
    ///
    /// 2, below 512 bytes; 13; 2, too short for the disks of the record.
    pub fn restart(medium: &[u8]) -> Result<Restarted, Refusal> {
        let mut state = [0; raw::STATE_WORDS];
        let mut left = [0; raw::LEFT_FIGURES];
        accepted(raw::restart(&mut state, medium, &mut left))?;
        Ok(Restarted {
            state: State { words: state },
            calls_left: left[0],
        })
    }

    /// Begins a growth to `count` disks, stores the record and tells the advance calls left. The added blocks open when the
    /// growth is finished.
    ///
    /// # Errors
    ///
    /// 1; 6; 9; 8, `count` not above the present one or above 16; 20, `count` above twice the present one; 2, too short
    /// for `count` disks; 19; 18.
    pub fn grow(&mut self, medium: &mut [u8], count: u64) -> Result<u64, Refusal> {
        let mut left = [0; raw::LEFT_FIGURES];
        accepted(raw::grow(&mut self.words, medium, count, &mut left))?;
        Ok(left[0])
    }

    /// [`State::grow`] without 20, for a rack whose power supply takes more new drives than old in one growth. With a
    /// count up to twice the present one it does what grow does.
    ///
    /// # Errors
    ///
    /// 1; 6; 9; 8, `count` not above the present one or above 16; 2, too short for `count` disks; 19; 18.
    pub fn grow_beyond_doubling(&mut self, medium: &mut [u8], count: u64) -> Result<u64, Refusal> {
        let mut left = [0; raw::LEFT_FIGURES];
        let number = raw::grow_beyond_doubling(&mut self.words, medium, count, &mut left);
        accepted(number)?;
        Ok(left[0])
    }

    /// Stores a moving block of the window under way at its new spot too and tells the advance calls left. Until a
    /// checkpoint records the copy, the block is read at its old spot and cannot be written.
    ///
    /// # Errors
    ///
    /// 1; 2; 5; 3; 10; 11; 19.
    pub fn copy(&mut self, medium: &mut [u8], block: Block) -> Result<u64, Refusal> {
        let mut left = [0; raw::LEFT_FIGURES];
        accepted(raw::copy(&mut self.words, medium, block.0, &mut left))?;
        Ok(left[0])
    }

    /// Stores the record with every copied block recorded and tells the advance calls left. The recorded blocks are then
    /// read and written at their new spots. When the window is full, that same store goes on to the next one or ends the
    /// growth.
    ///
    /// # Errors
    ///
    /// 1; 2; 5; 12; 19; 18.
    pub fn checkpoint(&mut self, medium: &mut [u8]) -> Result<u64, Refusal> {
        let mut left = [0; raw::LEFT_FIGURES];
        accepted(raw::checkpoint(&mut self.words, medium, &mut left))?;
        Ok(left[0])
    }

    /// Takes the growth one step: copies the next block of the window under way or, with none left, does the checkpoint.
    ///
    /// # Errors
    ///
    /// 1; 2; 5; 19; 18, only where it would do the checkpoint.
    pub fn advance(&mut self, medium: &mut [u8]) -> Result<Advanced, Refusal> {
        let mut figures = [0; raw::ADVANCE_FIGURES];
        accepted(raw::advance(&mut self.words, medium, &mut figures))?;
        let [calls_left, did, block, part_number] = figures;
        let step = match did {
            1 => Step::Copied {
                block: Block(block),
                part: part(part_number),
            },
            2 => Step::Recorded,
            3 => Step::Finished,
            _ => unreachable!("advance did {did}"),
        };
        Ok(Advanced { step, calls_left })
    }

    /// Stores the piece, one block long, as the block.
    ///
    /// # Errors
    ///
    /// 1; 2; 3; 4; 7, accepted after a checkpoint; 19.
    pub fn write(&mut self, medium: &mut [u8], block: Block, piece: &[u8]) -> Result<(), Refusal> {
        accepted(raw::write(&mut self.words, medium, block.0, piece))
    }

    /// Tells that all earlier stores are down: nothing is pending then. Call it only after the drives were flushed.
    ///
    /// # Errors
    ///
    /// 1.
    pub fn flushed(&mut self) -> Result<(), Refusal> {
        accepted(raw::flushed(&mut self.words))
    }

    /// Fills the piece, one block long, with the block.
    ///
    /// # Errors
    ///
    /// 1; 2; 3; 4.
    pub fn read(&self, medium: &[u8], block: Block, piece: &mut [u8]) -> Result<(), Refusal> {
        accepted(raw::read(&self.words, medium, block.0, piece))
    }

    /// [`State::read`] through the client's span.
    ///
    /// # Errors
    ///
    /// 1; 21, the block is outside the client's span; 2; 3; 4.
    pub fn client_read(
        &self,
        spans: &Spans,
        client: Client,
        medium: &[u8],
        block: Block,
        piece: &mut [u8],
    ) -> Result<(), Refusal> {
        accepted(raw::client_read(
            &spans.words(),
            client as u64,
            &self.words,
            medium,
            block.0,
            piece,
        ))
    }

    /// [`State::write`] through the client's span.
    ///
    /// # Errors
    ///
    /// 1; 21, the block is outside the client's span; 2; 3; 4; 7, accepted after a checkpoint; 19.
    pub fn client_write(
        &mut self,
        spans: &Spans,
        client: Client,
        medium: &mut [u8],
        block: Block,
        piece: &[u8],
    ) -> Result<(), Refusal> {
        accepted(raw::client_write(
            &spans.words(),
            client as u64,
            &mut self.words,
            medium,
            block.0,
            piece,
        ))
    }

    /// Shows the block without copying it, as a part of the one shelf that has its live spot. The bytes are those that
    /// [`State::read`] gives on the two shelves joined without their spare bytes.
    ///
    /// The first shelf holds the record and the first `first_disks` disks, so it needs [`State::medium_bytes`] of them;
    /// the second holds the remaining ones of [`State::disks`], those of a growth under way included. A medium that is
    /// cut between two disks is two shelves. With all disks on the first the second may be empty. Spare bytes at the
    /// end of either are allowed and never shown.
    ///
    /// The view borrows the shelves: as long as it is used, the medium that they are cut from cannot be lent to a call
    /// that stores. Ask again after such a call: a write may change the bytes, and a checkpoint may give the block a
    /// new live spot.
    ///
    /// # Errors
    ///
    /// 1; 8, `first_disks` not from 1 to N\[t\]; 2, the first shelf or the second is too short; 3.
    pub fn view<'a>(
        &self,
        first: &'a [u8],
        second: &'a [u8],
        first_disks: u64,
        block: Block,
    ) -> Result<&'a [u8], Refusal> {
        let mut figures = [0; raw::VIEW_FIGURES];
        accepted(raw::view(
            &self.words,
            first.len(),
            second.len(),
            first_disks,
            block.0,
            &mut figures,
        ))?;
        let [shelf_number, byte] = figures;
        let shelf = match shelf_number {
            1 => first,
            2 => second,
            _ => unreachable!("view told shelf {shelf_number}"),
        };
        let start = byte as usize;
        Ok(&shelf[start..start + self.size() as usize])
    }

    /// Tells the live spot of the block, where it is read and written now, why it is there, and by how many growths it
    /// was moved. Format and the growth that added the block are no moves. A growth counts once, also where it had to
    /// copy the block again after a power cut.
    ///
    /// # Errors
    ///
    /// 1; 3.
    pub fn address(&self, block: Block) -> Result<Address, Refusal> {
        let mut figures = [0; raw::ADDRESS_FIGURES];
        accepted(raw::address(&self.words, block.0, &mut figures))?;
        let [disk, row, why, growth, part_number, moves] = figures;
        let reason = match why {
            1 => Reason::SetOut,
            2 => Reason::Added { growth },
            3 => Reason::Moved {
                growth,
                part: part(part_number),
            },
            _ => unreachable!("address told why as {why}"),
        };
        Ok(Address {
            spot: Spot {
                disk,
                row: Row(row),
            },
            reason,
            moves,
        })
    }

    /// Tells which block lives at the spot. With no growth under way every spot has one.
    ///
    /// # Errors
    ///
    /// 1; 14; 15.
    pub fn holder(&self, disk: u64, row: Row) -> Result<Block, Refusal> {
        let mut block = [0; raw::HOLDER_FIGURES];
        accepted(raw::holder(&self.words, disk, row.0, &mut block))?;
        Ok(Block(block[0]))
    }

    /// Tells how many of the blocks that the scenes name each disk serves, by their live spots; 0 for disks that do not exist.
    /// A block named by two scenes counts twice.
    ///
    /// # Errors
    ///
    /// 1; 17, a scene reaches past the open blocks or stands after the first 65,536, where one of 0 blocks is refused too.
    pub fn load(&self, scenes: &[Scene]) -> Result<[u64; State::MOST_DISKS as usize], LoadRefusal> {
        let mut figures = [0; raw::LOAD_FIGURES];
        let number = raw::load(&self.words, scenes, &mut figures);
        let [place, served @ ..] = figures;
        match number {
            0 => Ok(served),
            1 => Err(LoadRefusal::NotSound),
            17 => Err(LoadRefusal::Scene { place }),
            _ => unreachable!("the library answered {number}"),
        }
    }
}

impl fmt::Debug for State {
    fn fmt(&self, f: &mut fmt::Formatter<'_>) -> fmt::Result {
        f.debug_struct("State")
            .field("size", &self.size())
            .field("rows", &self.rows())
            .field("growths", &self.growths())
            .field("counts", &self.counts())
            .field("growing", &self.words[11])
            .field("window", &self.window())
            .field("recorded", &self.recorded())
            .field("copied", &self.copied())
            .field("pending", &self.words[15])
            .finish()
    }
}

/// The library's number as a result. All lengths here are right and every state's last word is at most 3, so no other
/// number than 0 and a refusal's can come.
pub(crate) fn accepted(number: u64) -> Result<(), Refusal> {
    if number == 0 {
        return Ok(());
    }
    match Refusal::from_number(number) {
        Some(refusal) => Err(refusal),
        None => unreachable!("the library answered {number}"),
    }
}

fn part(number: u64) -> Part {
    match number {
        1 => Part::Head,
        2 => Part::Body,
        3 => Part::Tail,
        _ => unreachable!("the library told part {number}"),
    }
}
