//! Document 02, W9, on the library: every entry of the printed table, and what is told where there is no such mark.

use super::*;
use crate::{table_move, TableMove};

/// What the program `moves` prints.
const PRINTED: &str = include_str!("../../../../crates/moves/stdout");

/// Every growth in the order of the table: the disks before it, and the added ones.
fn pairs() -> impl Iterator<Item = (u64, u64)> {
    let disks = 2..=State::MOST_DISKS;
    disks.flat_map(|disks| (1..disks).map(move |old| (old, disks - old)))
}

/// Line by line: the offset is the number of lines before.
#[test]
fn table_has_the_printed_entries() {
    let mut lines = (0..).zip(PRINTED.lines());
    for (old, added) in pairs() {
        for mark in 0..old * added {
            let (offset, line) = lines.next().unwrap();
            let disk = line.parse().unwrap();
            let told = table_move(old, added, mark);
            assert_eq!(
                told,
                Some(TableMove { offset, disk }),
                "{old} by {added}, mark {mark}"
            );
        }
    }
    assert_eq!(lines.next(), None);
    assert_eq!(PRINTED.lines().count(), 3060);
}

/// The header's example.
#[test]
fn table_from_three_disks_to_five() {
    let told: Vec<_> = (0..6).map_while(|mark| table_move(3, 2, mark)).collect();
    let offsets = told.iter().map(|told| told.offset);
    assert!(offsets.eq(25..31));
    let disks: Vec<_> = told.iter().map(|told| told.disk).collect();
    assert_eq!(disks, [3, 3, 4, 3, 4, 4]);
}

/// The last mark of each pair has an entry and the next has none; nor has any with a disk too many.
#[test]
fn table_ends_at_the_last_mark() {
    for (old, added) in pairs() {
        assert!(table_move(old, added, old * added - 1).is_some());
        assert_eq!(table_move(old, added, old * added), None);
        assert_eq!(table_move(old, added, u64::MAX), None);
        assert_eq!(table_move(old, 17 - old, 0), None);
    }
}

/// Numbers of disks that no growth has, also with sums and products of more than 64 bits.
#[test]
fn table_has_no_such_mark() {
    let most = u64::MAX;
    for (old, added) in [
        (0, 0),
        (0, 1),
        (0, 16),
        (1, 0),
        (16, 0),
        (1, 16),
        (16, 1),
        (8, 9),
        (16, 16),
        (most, 2),
        (2, most),
        (most, 3),
        (most, 17),
        (most - 15, 18),
        (most, most),
        (1 << 63, (1 << 63) + 8),
        ((1 << 32) + 3, (1 << 32) + 2),
        ((1 << 32) + 3, 2),
    ] {
        for mark in [0, 1, 5, 24, most] {
            assert_eq!(table_move(old, added, mark), None, "{old} by {added}");
        }
    }
}

/// Where there is no such mark both figures are 0, and the call is accepted; any number of figures but two is wrong.
#[test]
fn two_figures() {
    for (arguments, wanted) in [
        ((3, 2, 5), [30, 4]),
        ((3, 2, 6), [0, 0]),
        ((0, 0, 0), [0, 0]),
    ] {
        let (m, n, mark) = arguments;
        let mut figures = [9; 4];
        let accepted = raw::table_move(m, n, mark, &mut figures[..2]);
        assert_eq!((accepted, figures), (0, [wanted[0], wanted[1], 9, 9]));
        for words in [0, 1, 3, 4] {
            let mut figures = [9; 4];
            let refused = raw::table_move(m, n, mark, &mut figures[..words]);
            assert_eq!((refused, figures), (raw::WRONG_LENGTH, [9; 4]));
        }
    }
}

/// The disk of a block after a growth, by the table.
fn by_table(old: u64, added: u64, disk: u64, row: u64) -> u64 {
    let window_row = row % (old + added);
    match window_row.checked_sub(disk) {
        Some(step) if step < added => {
            let told = table_move(old, added, disk * added + step);
            told.unwrap().disk
        }
        _ => disk,
    }
}

/// Address agrees for every old block, after format and after an earlier growth.
#[test]
fn address_agrees_with_the_table() {
    for (old, added) in pairs() {
        let histories = (1..old).map(|first| vec![first, old]);
        for counts in histories.chain([vec![old]]) {
            let after = grown(&[&counts[..], &[old + added]].concat());
            let before = grown(&counts);
            for block in 0..open_blocks(&before) {
                let (disk, row) = at(&before, block);
                let disk_after = by_table(old, added, disk, row);
                assert_eq!(at(&after, block), (disk_after, row));
            }
        }
    }
}
