//! By how many growths a block was moved: at each step of a growth, over whole histories, and what does not count.

use super::*;

fn moves(volume: &State, block: u64) -> u64 {
    volume.address(Block(block)).unwrap().moves
}

/// Spot and moves of a block.
fn told(volume: &State, block: u64) -> ((u64, u64), u64) {
    (at(volume, block), moves(volume, block))
}

/// These blocks were moved once, all other open ones never.
fn moved_once(volume: &State, blocks: &[u64]) {
    for block in 0..open_blocks(volume) {
        let wanted = u64::from(blocks.contains(&block));
        assert_eq!(moves(volume, block), wanted, "block {block}");
    }
}

/// Format, a copy and adding a block are no moves; a recorded copy is one.
#[test]
fn a_growth_counts_once_the_copy_is_recorded() {
    let (mut medium, mut volume) = three_disks();
    moved_once(&volume, &[]);
    grow(&mut volume, &mut medium, 5);
    for block in [0, 7] {
        volume.copy(&mut medium, Block(block)).unwrap();
        moved_once(&volume, &[]);
    }
    checkpoint(&mut volume, &mut medium);
    moved_once(&volume, &[0, 7]);
    volume.copy(&mut medium, Block(3)).unwrap();
    moved_once(&volume, &[0, 7]);
    finish(&mut volume, &mut medium);
    assert_eq!(open_blocks(&volume), 25);
    moved_once(&volume, &[0, 3, 4, 7, 8, 11]);
    let restarted = State::restart(&medium).unwrap().state;
    moved_once(&restarted, &[0, 3, 4, 7, 8, 11]);
}

/// Blocks of windows below w count without a mark; with 6 rows block 15 is in a second window.
#[test]
fn a_finished_window_counts() {
    let mut medium = medium(512, 6, 5);
    let mut volume = formatted(&mut medium, 6, 3);
    grow(&mut volume, &mut medium, 5);
    while volume.window() == 0 {
        volume.flushed().unwrap();
        volume.advance(&mut medium).unwrap();
    }
    assert_eq!(volume.recorded(), 0);
    moved_once(&volume, &[0, 3, 4, 7, 8, 11]);
    finish(&mut volume, &mut medium);
    moved_once(&volume, &[0, 3, 4, 7, 8, 11, 15]);
}

/// A copy that a power cut has lost is made again.
#[test]
fn a_block_copied_again_counts_once() {
    let (mut medium, mut volume) = three_to_five();
    for _ in 0..3 {
        volume.copy(&mut medium, Block(0)).unwrap();
        volume = State::restart(&medium).unwrap().state;
        moved_once(&volume, &[]);
    }
    volume.copy(&mut medium, Block(0)).unwrap();
    checkpoint(&mut volume, &mut medium);
    volume.copy(&mut medium, Block(3)).unwrap();
    volume = State::restart(&medium).unwrap().state;
    moved_once(&volume, &[0]);
}

/// Block 45 goes from disk 0 to disk 3 and on to disk 5, there in the window of rows 12 to 15. Block 49 is added by the
/// first growth and moved by the second, block 80 is added by the second.
#[test]
fn a_block_may_be_moved_twice() {
    let mut medium = medium(512, 16, 6);
    let mut volume = formatted(&mut medium, 16, 3);
    assert_eq!(told(&volume, 45), ((0, 15), 0));
    grow(&mut volume, &mut medium, 5);
    finish(&mut volume, &mut medium);
    assert_eq!(told(&volume, 45), ((3, 15), 1));
    assert_eq!(told(&volume, 49), ((0, 0), 0));
    grow(&mut volume, &mut medium, 6);
    while volume.window() < 2 {
        volume.flushed().unwrap();
        volume.advance(&mut medium).unwrap();
    }
    volume.flushed().unwrap();
    volume.copy(&mut medium, Block(45)).unwrap();
    assert_eq!(told(&volume, 45), ((3, 15), 1));
    checkpoint(&mut volume, &mut medium);
    assert_eq!(told(&volume, 45), ((5, 15), 2));
    finish(&mut volume, &mut medium);
    assert_eq!(told(&volume, 45), ((5, 15), 2));
    assert_eq!(told(&volume, 49), ((5, 0), 1));
    assert_eq!(told(&volume, 80), ((0, 0), 0));
}

/// A volume of 839 rows after so many growths, each by one disk from one on.
fn grown_by_one(growths: u64) -> State {
    let counts: Vec<u64> = (1..=growths + 1).collect();
    with_word(&grown(&counts), 1, 839)
}

/// In windows of 2, 3 and so on to 8 rows row 838 is the last but one, and so its block goes one disk on in each of
/// seven growths.
#[test]
fn seven_moves_at_most() {
    for growths in 0..=State::MOST_GROWTHS {
        let volume = grown_by_one(growths);
        assert_eq!(told(&volume, 838), ((growths, 838), growths));
    }
    // The seventh growth under way: the block is in window 104, with mark 6.
    let seventh = |window, recorded, copied| {
        let mut words = grown_by_one(7).words();
        words[11..15].copy_from_slice(&[1, window, recorded, copied]);
        told(&State::from_words(words).unwrap(), 838)
    };
    assert_eq!(seventh(103, 0b100_0000, 0b100_0000), ((6, 838), 6));
    assert_eq!(seventh(104, 0, 0), ((6, 838), 6));
    assert_eq!(seventh(104, 0b010_0000, 0b111_1111), ((6, 838), 6));
    assert_eq!(seventh(104, 0b100_0000, 0b100_0000), ((7, 838), 7));
}

/// The moves of all open blocks together.
fn all_moves(volume: &State) -> u64 {
    let blocks = 0..open_blocks(volume);
    blocks.map(|block| moves(volume, block)).sum()
}

/// Takes a volume through these counts, beyond doubling too. All along the moves of its blocks add up to the copies
/// that were recorded, and after each growth to all that were made.
fn moves_are_the_copies(rows: u64, counts: &[u64]) {
    let mut medium = medium(512, rows, counts[counts.len() - 1]);
    let mut volume = formatted(&mut medium, rows, counts[0]);
    let (mut copied, mut recorded) = (0, 0);
    for count in &counts[1..] {
        grow_beyond_doubling(&mut volume, &mut medium, *count);
        while volume.is_growing() {
            match volume.advance(&mut medium).unwrap().step {
                Step::Copied { .. } => copied += 1,
                Step::Recorded | Step::Finished => recorded = copied,
            }
            volume.flushed().unwrap();
            assert_eq!(all_moves(&volume), recorded);
        }
        assert_eq!(all_moves(&volume), copied);
    }
    assert!(copied > 0);
}

#[test]
fn moves_add_up_to_the_copies() {
    moves_are_the_copies(5, &[3, 5, 6]);
    moves_are_the_copies(17, &[1, 16]);
    moves_are_the_copies(33, &[8, 16]);
    moves_are_the_copies(20, &[1, 3, 4, 9, 16]);
    moves_are_the_copies(1, &[1, 2, 3, 4, 5, 6, 7, 8]);
    moves_are_the_copies(40, &[1, 2, 3, 4, 5, 6, 7, 8]);
    moves_are_the_copies(31, &[9, 10, 11, 12, 13, 14, 15, 16]);
    moves_are_the_copies(35, &[2, 4, 6, 8, 10, 12, 14, 16]);
}

/// Refused, all six figures are 0; five are as wrong as any other number of them.
#[test]
fn six_figures() {
    let (mut medium, mut volume) = three_to_five();
    finish(&mut volume, &mut medium);
    let mut figures = [9; 8];
    let accepted = raw::address(&volume.words(), 0, &mut figures[..6]);
    assert_eq!((accepted, figures), (0, [3, 0, 3, 1, 1, 1, 9, 9]));
    let unsound = with_word(&volume, 10, 1);
    for (state, block, number) in [(volume, 25, 3), (unsound, 0, 1), (zeros(), 0, 1)] {
        let mut figures = [9; 6];
        let refused = raw::address(&state.words(), block, &mut figures);
        assert_eq!((refused, figures), (number, [0; 6]));
    }
    for words in [0, 1, 4, 5, 7, 8] {
        let mut figures = [9; 8];
        let refused = raw::address(&volume.words(), 0, &mut figures[..words]);
        assert_eq!((refused, figures), (raw::WRONG_LENGTH, [9; 8]));
    }
}
