//! States of volumes, made directly: few calls need a medium that was formatted and grown.

use reference::state::State;
use reference::view::Shelves;
use streterva::raw::{self, STATE_WORDS};

pub type Words = [u64; STATE_WORDS];

/// Places in a state.
pub const WINDOW: usize = 12;
pub const RECORDED: usize = 13;
pub const COPIED: usize = 14;
pub const PENDING: usize = 15;
const GROWING: usize = 11;

const RECORD: u64 = 512;

/// The state as the reference has it.
pub fn state(words: &Words) -> State {
    State::from_words(words).expect("a state")
}

/// The state with this history, no growth under way and nothing pending.
pub fn grown(z: u64, s: u64, counts: &[u64]) -> Words {
    let mut words = [0; STATE_WORDS];
    words[..3].copy_from_slice(&[z, s, counts.len() as u64 - 1]);
    words[3..3 + counts.len()].copy_from_slice(counts);
    assert_eq!(raw::soundness(&words), 0);
    words
}

/// The state in window `w` of the last growth, without marks.
pub fn growing(z: u64, s: u64, counts: &[u64], w: u64) -> Words {
    let mut words = grown(z, s, counts);
    (words[GROWING], words[WINDOW]) = (1, w);
    assert_eq!(raw::soundness(&words), 0);
    words
}

/// N[t].
pub fn disks(words: &Words) -> u64 {
    words[3 + words[2] as usize]
}

/// m and n of the last growth.
pub fn growth(words: &Words) -> (u64, u64) {
    let m = words[2 + words[2] as usize];
    (m, disks(words) - m)
}

/// The number of windows whose rows all exist.
pub fn whole_windows(words: &Words) -> u64 {
    words[1] / disks(words)
}

/// The marks of the first `count` moving blocks of a whole window.
pub fn marks(count: u64) -> u64 {
    u64::MAX >> (64 - count)
}

/// The bytes of a medium for the state.
pub fn bytes(words: &Words) -> usize {
    (RECORD + disks(words) * words[1] * words[0]) as usize
}

/// Shelves without spare bytes, the first with the record and k disks.
pub fn shelves(words: &Words, k: u64) -> Shelves {
    let first = RECORD + k * words[1] * words[0];
    let second = bytes(words) as u64 - first;
    Shelves { k, first, second }
}

/// Disk and row of the live spot of a block.
pub fn spot(words: &Words, block: u64) -> (u64, u64) {
    let mut figures = [0; raw::ADDRESS_FIGURES];
    assert_eq!(raw::address(words, block, &mut figures), 0);
    (figures[0], figures[1])
}

/// Where the live spot of a block starts in the medium.
pub fn live(words: &Words, block: u64) -> usize {
    let (disk, row) = spot(words, block);
    (RECORD + (disk * words[1] + row) * words[0]) as usize
}
