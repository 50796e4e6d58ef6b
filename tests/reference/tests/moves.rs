//! By how many growths a block was moved: W6 of document 02.

use reference::followed::{Followed, Left};
use reference::lookup::address;
use reference::record;
use reference::sample::{at_rest, growing, sound_state, Random};
use reference::spot::{after, Block, Spot};
use reference::state::State;
use reference::store::{checkpoint, copy, flushed, restart};

/// The blocks that the growth from 3 disks to 5 with 5 rows moves, by mark.
const MOVING: [u64; 6] = [0, 3, 4, 7, 8, 11];

fn moves(state: &State, x: u64) -> u64 {
    address(state, Block(x)).unwrap().moves
}

/// Format and adding a block are no moves.
#[test]
fn one_growth() {
    let (three, five) = (at_rest(&[3], 5), at_rest(&[3, 5], 5));
    for x in 0..15 {
        assert_eq!(moves(&three, x), 0);
        assert_eq!(moves(&five, x), MOVING.contains(&x) as u64);
    }
    for x in 15..25 {
        assert_eq!(moves(&five, x), 0);
    }
}

/// Block 45 goes from disk 0 to disk 3 and on to disk 5; 49 is added by the
/// first growth and moved by the second, 80 is added by the second.
#[test]
fn two_growths() {
    let at = |counts, x| {
        let place = after(counts, 16, Block(x));
        (place.spot.disk, place.spot.row.0, place.moves)
    };
    assert_eq!(at(&[3], 45), (0, 15, 0));
    assert_eq!(at(&[3, 5], 45), (3, 15, 1));
    assert_eq!(at(&[3, 5, 6], 45), (5, 15, 2));
    assert_eq!(at(&[3, 5], 49), (0, 0, 0));
    assert_eq!(at(&[3, 5, 6], 49), (5, 0, 1));
    assert_eq!(at(&[3, 5, 6], 80), (0, 0, 0));
}

/// In windows of 2, 3 and so on to 8 rows row 838 is the last but one, and so
/// its block goes one disk on in each of seven growths.
#[test]
fn seven_at_most() {
    for growths in 0..=7 {
        let counts: Vec<u64> = (1..=growths + 1).collect();
        let state = at_rest(&counts, 839);
        assert_eq!(moves(&state, 838), growths);
        assert_eq!(address(&state, Block(838)).unwrap().spot.disk, growths);
    }
}

/// A growth under way counts for recorded copies, not for others.
#[test]
fn marks() {
    let begun = growing(&[3, 5], 5, 0, 0);
    let copied = State {
        copied: 0b111,
        ..begun
    };
    let recorded = State {
        recorded: 0b101,
        ..copied
    };
    assert!((0..15).all(|x| moves(&begun, x) == 0));
    assert!((0..15).all(|x| moves(&copied, x) == 0));
    for x in 0..15 {
        assert_eq!(moves(&recorded, x), [0, 4].contains(&x) as u64);
    }
}

/// Block 45 is in window 2 of the growth from 5 disks to 6, with mark 3.
#[test]
fn windows() {
    let at = |w, recorded| moves(&growing(&[3, 5, 6], 16, w, recorded), 45);
    assert_eq!(at(0, 0), 1);
    assert_eq!(at(1, 0b1_0000), 1);
    assert_eq!(at(2, 0b111), 1);
    assert_eq!(at(2, 0b1000), 2);
    let first = |w| moves(&growing(&[3, 5], 6, w, 0), 0);
    assert_eq!((first(0), first(1)), (0, 1));
}

/// The spots that a block has had, each growth's in its turn, the live one
/// last.
fn spots(state: &State, x: Block) -> Vec<Spot> {
    let finished = (state.t - state.growing) as usize;
    let counts = state.used_counts();
    (0..=finished)
        .filter(|&t| x.0 < counts[t] * state.s)
        .map(|t| after(&counts[..=t], state.s, x).spot)
        .chain([state.live(x).spot])
        .collect()
}

/// A growth has moved a block when the block has another spot after it.
#[test]
fn each_move_is_another_spot() {
    let mut random = Random::new(8);
    let mut seen = [0; 8];
    for _ in 0..2_000 {
        let state = sound_state(&mut random, 40);
        for x in (0..state.open()).map(Block) {
            let others = spots(&state, x)
                .windows(2)
                .filter(|pair| pair[0] != pair[1])
                .count();
            assert_eq!(moves(&state, x.0), others as u64);
            seen[others] += 1;
        }
    }
    assert!(seen[..4].iter().all(|&count| count > 500), "{seen:?}");
}

/// A copy that a restart has dropped is made again, and counts once.
#[test]
fn copied_again() {
    let mut state = growing(&[3, 5], 5, 0, 0);
    let mut medium = vec![0; state.bytes(5) as usize];
    medium[..512].copy_from_slice(&record::write(&state));
    for _ in 0..3 {
        state = copy(state, &mut medium, Block(0)).unwrap().0;
        assert_eq!(moves(&state, 0), 0);
        state = restart(&medium).unwrap().0;
        assert_eq!(moves(&state, 0), 0);
    }
    state = copy(state, &mut medium, Block(0)).unwrap().0;
    flushed(&mut state).unwrap();
    state = checkpoint(state, &mut medium).unwrap().0;
    assert_eq!(moves(&state, 0), 1);
    assert_eq!(moves(&restart(&medium).unwrap().0, 0), 1);
}

/// The tally counts the copies that checkpoints record; with the old record
/// the checkpoint was not made.
#[test]
fn tally() {
    for (left, counted) in [(Left::Old, 0), (Left::New, 1)] {
        let mut followed = Followed::format(5, 3);
        followed.flushed();
        followed.grow(5);
        followed.flushed();
        followed.copy(Block(0));
        followed.flushed();
        assert_eq!(followed.tally.times_moved(Block(0)), 0);
        followed.checkpoint();
        assert_eq!(followed.tally.times_moved(Block(0)), 1);
        followed.cut(left);
        followed.restart();
        assert_eq!(followed.tally.times_moved(Block(0)), counted);
        while followed.tally.growing() {
            followed.advance();
            followed.flushed();
        }
        for x in 0..25 {
            let moved = MOVING.contains(&x) as u64;
            assert_eq!(followed.tally.times_moved(Block(x)), moved);
        }
    }
}
