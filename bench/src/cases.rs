//! The cases: their names, histories, states and labels.

use crate::row::Label;
use crate::volume::{self, Words};

pub const FORMATTED: &str = "t = 0";
pub const GROWN: &str = "t = 7";
pub const OLD_BLOCKS: &str = "t = 7, old blocks";
pub const ONE_SHELF: &str = "t = 7, one shelf";
pub const ADDED: &str = "t = 7, added blocks";
pub const NOT_ADDED: &str = "t = 7, not added";
pub const BEGUN: &str = "to t = 7";
pub const GROWING: &str = "growing";
pub const LAST_WINDOW: &str = "growing, last window";
pub const CACHED: &str = "t = 7, cached";
pub const LARGE: &str = "t = 7, large";
pub const MOVING: &str = "growing, large";
pub const ANY_MARK: &str = "any mark";

/// The usual history.
pub const COUNTS: [u64; 8] = [2, 4, 6, 8, 10, 12, 14, 16];
/// A history after which 9 blocks of 16 are from format, so that all growths count for them.
pub const OLD_COUNTS: [u64; 8] = [9, 10, 11, 12, 13, 14, 15, 16];
/// The history for growing rows with a medium: the seventh growth is from 8 to 12 disks.
pub const MOVE_COUNTS: [u64; 8] = [2, 3, 4, 5, 6, 7, 8, 12];

pub fn label(call: &'static str, case: &'static str, words: &Words) -> Label {
    Label {
        call,
        case,
        z: words[0],
        s: words[1],
        compares_s: false,
    }
}

/// The label of a lookup, where Z doesn't matter.
pub fn lookup_label(call: &'static str, case: &'static str, s: u64) -> Label {
    Label {
        call,
        case,
        z: 0,
        s,
        compares_s: false,
    }
}

/// The label of a row without a volume, where neither Z nor s matters.
pub fn table_label(call: &'static str, case: &'static str) -> Label {
    lookup_label(call, case, 0)
}

/// The label of a row that compares values of s.
pub fn compared(label: Label) -> Label {
    Label {
        compares_s: true,
        ..label
    }
}

/// Half way through the last growth, with half the marks of the window recorded.
pub fn half_grown(s: u64) -> Words {
    in_window(s, s.div_ceil(16) / 2)
}

/// In window w of the last growth, with half the marks of a whole window recorded.
pub fn in_window(s: u64, w: u64) -> Words {
    let mut words = volume::growing(512, s, &COUNTS, w);
    let (m, n) = volume::growth(&words);
    let marks = volume::marks(m * n / 2);
    (words[volume::RECORDED], words[volume::COPIED]) = (marks, marks);
    words
}
