//! The printed table of moves: W9 of document 02.

use reference::limits::DISKS;
use reference::table::{entries, printed, table_move};

/// What the program `moves` prints.
const STORED: &str = include_str!("../../../crates/moves/stdout");

/// Byte for byte what document 01's rule gives. The line that differs is told.
#[test]
fn lines() {
    let worked_out = printed();
    let lines = worked_out.split('\n').zip(STORED.split('\n'));
    for (number, (line, stored)) in (1..).zip(lines) {
        assert_eq!(stored, line, "line {number}");
    }
    assert_eq!(STORED.len(), worked_out.len());
    assert!(STORED == worked_out);
    assert_eq!(worked_out.lines().count(), 3060);
}

/// The smallest growths, from 3 disks to 5, and the last entry, by hand.
#[test]
fn by_hand() {
    let entries = entries();
    let disks: Vec<u64> = entries.iter().map(|entry| entry.disk).collect();
    assert_eq!(disks[..8], [1, 1, 2, 2, 2, 1, 2, 3]);
    assert_eq!(disks[25..31], [3, 3, 4, 3, 4, 4]);
    assert_eq!(table_move(&entries, 3, 2, 0), Some((25, 3)));
    assert_eq!(table_move(&entries, 15, 1, 14), Some((3059, 15)));
}

/// A growth has the marks below m·n, each with one entry, an added disk.
#[test]
fn each_mark_has_one_entry() {
    let mut entries = entries().into_iter();
    for disks in 2..=DISKS {
        for m in 1..disks {
            let n = disks - m;
            for mark in 0..m * n {
                let entry = entries.next().unwrap();
                assert_eq!((entry.m, entry.n, entry.mark), (m, n, mark));
                assert!((m..disks).contains(&entry.disk));
            }
        }
    }
    assert_eq!(entries.next(), None);
}

#[test]
fn no_such_mark() {
    let entries = entries();
    for (m, n, mark) in [
        (0, 0, 0),
        (0, 16, 0),
        (16, 0, 0),
        (1, 16, 0),
        (16, 1, 0),
        (3, 2, 6),
        (u64::MAX, 2, 0),
    ] {
        assert_eq!(table_move(&entries, m, n, mark), None);
    }
}
