//! Document 02, W8, on the library: what grow tells for the racks of the data sheet, and the windows of growths, spread
//! evenly with m·n moves.

use super::*;

/// Each medium is zeros of which only the record is touched: up to 6.1 GB of addresses, and next to no memory.
#[test]
fn grow_tells_the_calls_of_the_racks() {
    for (old, new, calls) in [(3, 5, 1_400_000), (4, 8, 2_125_000), (8, 12, 2_750_000)] {
        let mut medium = vec![0; State::medium_bytes(512, State::MOST_ROWS, new)];
        let mut volume = formatted(&mut medium, State::MOST_ROWS, old);
        assert_eq!(volume.grow(&mut medium, new).unwrap(), calls);
    }
}

/// What a growth to `new` disks does with the old blocks of each window: how many each disk has after it, and how many
/// are on another disk than before.
fn windows(counts: &[u64], new: u64, rows: u64) -> Vec<([u64; 16], u64)> {
    let before = with_word(&grown(counts), 1, rows);
    let after = with_word(&grown(&[counts, &[new]].concat()), 1, rows);
    let mut seen = vec![([0; 16], 0); rows.div_ceil(new) as usize];
    for block in 0..open_blocks(&before) {
        let (disk_before, row) = at(&before, block);
        let (disk, _) = at(&after, block);
        let (on, moved) = &mut seen[(row / new) as usize];
        on[disk as usize] += 1;
        *moved += u64::from(disk != disk_before);
    }
    seen
}

/// Of every cut: two whole windows have m blocks on each disk and m·n moves, and the one cut off has its number of them.
fn windows_are_as_claimed(counts: &[u64], new: u64) {
    let old = counts[counts.len() - 1];
    let added = new - old;
    let even = (served(&vec![old; new as usize]), old * added);
    for cut in 0..new {
        let seen = windows(counts, new, 2 * new + cut);
        assert_eq!(seen[..2], [even, even], "{counts:?} to {new}");
        let moved: u64 = seen[2..].iter().map(|(_, moved)| moved).sum();
        let claimed: u64 = (0..old.min(cut)).map(|disk| added.min(cut - disk)).sum();
        assert_eq!(moved, claimed, "{counts:?} to {new}, {cut} rows");
    }
}

#[test]
fn windows_have_the_fewest_moves() {
    for new in 2..=16 {
        for old in 1..new {
            windows_are_as_claimed(&[old], new);
            // After another growth, where the old blocks are not in round-robin order.
            for first in 1..old {
                windows_are_as_claimed(&[first, old], new);
            }
        }
    }
    windows_are_as_claimed(&[1, 2, 3, 4, 5, 6, 7], 8);
    windows_are_as_claimed(&[2, 3, 5, 7, 8, 11, 13], 16);
}

/// By hand: from 2 disks to 3 a whole window, and one of a single row, which is not spread evenly.
#[test]
fn windows_by_hand() {
    assert_eq!(windows(&[2], 3, 3), [(served(&[2, 2, 2]), 2)]);
    assert_eq!(windows(&[2], 3, 1), [(served(&[0, 1, 1]), 1)]);
}
