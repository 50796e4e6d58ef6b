//! The state of a volume.

use crate::limits;
use crate::spot::{after, Block, Place, Spot, Why};
use crate::window::Growth;
use std::ops::Range;

/// Words of a state at the library's boundary.
pub const WORDS: usize = 16;

/// Which stores are pending: made, and not yet told to be down by a flushed.
#[derive(Clone, Copy, PartialEq, Eq, Debug, Default)]
pub struct Pending {
    pub record: bool,
    pub blocks: bool,
}

impl Pending {
    pub const NOTHING: Pending = Pending {
        record: false,
        blocks: false,
    };

    /// Above 3 a word tells nothing.
    pub fn from_word(word: u64) -> Option<Pending> {
        (word <= 3).then_some(Pending {
            record: word & 1 != 0,
            blocks: word & 2 != 0,
        })
    }

    pub fn to_word(self) -> u64 {
        self.record as u64 + 2 * self.blocks as u64
    }
}

/// Any numbers at all may stand here; `sound` tells which make a state.
#[derive(Clone, Copy, PartialEq, Eq, Debug, Default)]
pub struct State {
    pub z: u64,
    pub s: u64,
    pub t: u64,
    pub counts: [u64; 8],
    pub growing: u64,
    pub w: u64,
    pub recorded: u64,
    pub copied: u64,
    /// Kept in memory only; any value is sound.
    pub pending: Pending,
}

impl State {
    /// The state of zeros.
    pub const ZEROS: State = State {
        z: 0,
        s: 0,
        t: 0,
        counts: [0; 8],
        growing: 0,
        w: 0,
        recorded: 0,
        copied: 0,
        pending: Pending::NOTHING,
    };

    /// Words make a state when the last one tells what is pending.
    pub fn from_words(words: &[u64; WORDS]) -> Option<State> {
        let mut counts = [0; 8];
        counts.copy_from_slice(&words[3..11]);
        Some(State {
            z: words[0],
            s: words[1],
            t: words[2],
            counts,
            growing: words[11],
            w: words[12],
            recorded: words[13],
            copied: words[14],
            pending: Pending::from_word(words[15])?,
        })
    }

    pub fn to_words(&self) -> [u64; WORDS] {
        let mut words = [0; WORDS];
        words[..3].copy_from_slice(&[self.z, self.s, self.t]);
        words[3..11].copy_from_slice(&self.counts);
        words[11..15].copy_from_slice(&[self.growing, self.w, self.recorded, self.copied]);
        words[15] = self.pending.to_word();
        words
    }

    pub fn sound(&self) -> bool {
        self.limits_hold()
            && match self.growing {
                0 => self.w == 0 && self.recorded == 0 && self.copied == 0,
                1 => self.t > 0 && self.marks_fit(),
                _ => false,
            }
    }

    fn limits_hold(&self) -> bool {
        if !limits::block_size(self.z) || !limits::rows(self.s) || self.t > limits::GROWTHS {
            return false;
        }
        let (used, unused) = self.counts.split_at(self.t as usize + 1);
        used.iter().all(|&count| limits::disks(count))
            && used.windows(2).all(|pair| pair[0] < pair[1])
            && unused.iter().all(|&count| count == 0)
    }

    /// The rule for w and the marks while growing.
    fn marks_fit(&self) -> bool {
        if self.w >= self.growth().windows() {
            return false;
        }
        let moving = self.moving_marks();
        self.recorded & !self.copied == 0 && self.copied & !moving == 0 && self.recorded != moving
    }

    /// The marks of all moving blocks of window w.
    pub fn moving_marks(&self) -> u64 {
        let moves = self.growth().moves(self.w);
        moves.iter().map(|step| 1 << step.mark).sum()
    }

    /// N[0] to N[t].
    pub fn used_counts(&self) -> &[u64] {
        &self.counts[..=self.t as usize]
    }

    /// The last growth; t > 0.
    pub fn growth(&self) -> Growth<'_> {
        Growth::new(self.used_counts(), self.s)
    }

    /// N[t].
    pub fn disks(&self) -> u64 {
        self.counts[self.t as usize]
    }

    /// The number of open blocks.
    pub fn open(&self) -> u64 {
        if self.growing == 1 {
            self.growth().open()
        } else {
            self.disks() * self.s
        }
    }

    /// Where open block `x` lives, why there, and by how many growths it was
    /// moved: one under way counts while the block lives at its new spot.
    pub fn live(&self, x: Block) -> Place {
        let counts = self.used_counts();
        if self.growing == 0 {
            return after(counts, self.s, x);
        }
        let old = after(&counts[..self.t as usize], self.s, x);
        match self.growth().move_of(x) {
            Some(step)
                if step.window < self.w
                    || step.window == self.w && marked(self.recorded, step.mark) =>
            {
                let (growth, part) = (self.t, step.part);
                Place {
                    spot: step.new,
                    why: Why::Moved { growth, part },
                    moves: old.moves + 1,
                }
            }
            _ => old,
        }
    }

    /// The advance calls left.
    pub fn calls_left(&self) -> u64 {
        if self.growing == 0 {
            return 0;
        }
        let growth = self.growth();
        let uncopied = growth
            .moves(self.w)
            .iter()
            .filter(|step| !marked(self.copied, step.mark))
            .count() as u64;
        uncopied + growth.later_moves(self.w) + growth.windows() - self.w
    }

    /// The bytes that the record and `disks` disks take.
    pub fn bytes(&self, disks: u64) -> u64 {
        limits::RECORD as u64 + disks * self.s * self.z
    }

    /// The bytes of a spot in the medium.
    pub fn bytes_of(&self, spot: Spot) -> Range<usize> {
        let start = limits::RECORD as u64 + (spot.disk * self.s + spot.row.0) * self.z;
        start as usize..(start + self.z) as usize
    }
}

/// Whether a mark is set.
pub fn marked(marks: u64, mark: u64) -> bool {
    marks >> mark & 1 == 1
}
