//! The printed table of moves: W9 of document 02.

use crate::limits::DISKS;
use crate::window::{Growth, Move};

/// The new disk of the moving block with this mark, in the growth from m disks
/// by n disks.
#[derive(Clone, Copy, PartialEq, Eq, Debug)]
pub struct Entry {
    pub m: u64,
    pub n: u64,
    pub mark: u64,
    pub disk: u64,
}

/// All entries: m + n rising, then m rising, then mark rising.
pub fn entries() -> Vec<Entry> {
    let mut entries = Vec::new();
    for disks in 2..=DISKS {
        for m in 1..disks {
            entries.extend(of_growth(m, disks - m));
        }
    }
    entries
}

/// The moves of a whole window, in the order of the marks.
fn of_growth(m: u64, n: u64) -> Vec<Entry> {
    let counts = [m, m + n];
    let moves = Growth::new(&counts, m + n).moves(0);
    let entry = |step: &Move| Entry {
        m,
        n,
        mark: step.mark,
        disk: step.new.disk,
    };
    moves.iter().map(entry).collect()
}

/// The table as it is printed.
pub fn printed() -> String {
    let line = |entry: &Entry| format!("{}\n", entry.disk);
    entries().iter().map(line).collect()
}

/// How many of the entries come before that of a mark, and its disk; `None`
/// when there is no such mark.
pub fn table_move(entries: &[Entry], m: u64, n: u64, mark: u64) -> Option<(u64, u64)> {
    let asked = |entry: &Entry| (entry.m, entry.n, entry.mark) == (m, n, mark);
    let before = entries.iter().position(asked)?;
    Some((before as u64, entries[before].disk))
}
