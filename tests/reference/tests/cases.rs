//! The cases that document 01 works out, with a flushed after each store.

use reference::limits::RECORD;
use reference::lookup::{address, holder};
use reference::record;
use reference::refusal::*;
use reference::spot::{after, blocks_of_row, Block, Part, Row, Spot, Why};
use reference::state::State;
use reference::store::{
    advance, checkpoint, copy, flushed, format, grow, restart, write, Advanced, Next,
};

fn spot(disk: u64, row: u64) -> Spot {
    let row = Row(row);
    Spot { disk, row }
}

/// Spot and reason of a block after the growths through `counts`.
fn place(counts: &[u64], s: u64, x: u64) -> ((u64, u64), Why) {
    let place = after(counts, s, Block(x));
    ((place.spot.disk, place.spot.row.0), place.why)
}

fn moved(growth: u64, part: Part) -> Why {
    Why::Moved { growth, part }
}

#[test]
fn layout_cases_1_to_9() {
    let five = |x| place(&[3, 5], 5, x);
    assert_eq!(five(0), ((3, 0), moved(1, Part::Head)));
    assert_eq!(five(4), ((4, 1), moved(1, Part::Head)));
    assert_eq!(five(7).0, (3, 2));
    assert_eq!(five(11), ((4, 3), moved(1, Part::Tail)));
    assert_eq!(five(12), ((0, 4), Why::SetOut));
    assert_eq!(five(15), ((4, 0), Why::Added { growth: 1 }));
    assert_eq!(five(16), ((0, 0), Why::Added { growth: 1 }));
    let six = |x| place(&[3, 5, 6], 5, x);
    assert_eq!(six(16).0, (5, 0));
    assert_eq!(six(25), ((0, 0), Why::Added { growth: 2 }));
}

#[test]
fn layout_cases_10_and_11() {
    assert_eq!(place(&[1, 4], 3, 1), ((2, 1), moved(1, Part::Body)));
    assert_eq!(place(&[4, 6], 6, 9), ((4, 2), moved(1, Part::Body)));
}

/// The state with all stores down.
fn down(mut state: State) -> State {
    flushed(&mut state).unwrap();
    state
}

/// The same for the answer of a call.
fn next(answer: Result<Next, Refusal>) -> State {
    down(answer.unwrap().0)
}

/// A medium and state under growth from 3 to 5 disks, and the calls left.
fn three_to_five(s: u64) -> (Vec<u8>, State, u64) {
    let mut medium = vec![0; RECORD + 5 * s as usize * 512];
    let state = down(format(&mut medium, 512, s, 3).unwrap());
    let (state, left) = grow(state, &mut medium, 5).unwrap();
    (medium, down(state), left)
}

#[test]
fn layout_case_12() {
    for (s, calls) in [(5, 7), (6, 9)] {
        let (mut medium, mut state, left) = three_to_five(s);
        assert_eq!(left, calls);
        for call in 1..=calls {
            let ((next, left), done) = advance(state, &mut medium).unwrap();
            assert_eq!(left, calls - call);
            assert_eq!(done == Advanced::Finished, call == calls);
            state = down(next);
        }
        assert_eq!(advance(state, &mut medium), Err(NOT_GROWING));
    }
}

#[test]
fn during_three_to_five() {
    let (mut medium, mut state, _) = three_to_five(5);
    let piece = [7; 512];
    assert!(address(&state, Block(14)).is_ok());
    assert_eq!(address(&state, Block(15)), Err(NOT_OPEN));
    let refused = write(&mut state, &mut medium, Block(15), &piece);
    assert_eq!(refused, Err(NOT_OPEN));
    state = next(copy(state, &mut medium, Block(0)));
    let refused = write(&mut state, &mut medium, Block(0), &piece);
    assert_eq!(refused, Err(UNRECORDED));
    state = next(checkpoint(state, &mut medium));
    let before = medium.clone();
    write(&mut state, &mut medium, Block(0), &piece).unwrap();
    assert_eq!(medium[..8192], before[..8192]);
    assert_eq!(medium[8192..8704], piece);
    assert_eq!(medium[8704..], before[8704..]);
}

#[test]
fn record_example() {
    let (mut medium, mut state, _) = three_to_five(5);
    for x in [0, 3] {
        state = next(copy(state, &mut medium, Block(x)));
    }
    state = next(checkpoint(state, &mut medium));
    let mut text = String::new();
    for field in ["512", "5", "1", "3", "5", "", "", "", "", "", "", "1", "0"] {
        text += &format!("{field:>10}");
    }
    text += "11";
    text += &"0".repeat(62);
    text += &" ".repeat(317);
    text += "\n";
    assert_eq!(medium[..RECORD], *text.as_bytes());
    assert_eq!(record::write(&state), *text.as_bytes());
    assert_eq!(restart(&medium), Ok((state, 5)));
}

#[test]
fn head_comes_before_tail() {
    assert_eq!(place(&[2, 4], 4, 2).1, moved(1, Part::Head));
}

#[test]
fn after_every_growth_each_spot_has_one_block() {
    for counts in [&[1, 2, 4, 9, 16][..], &[3, 5, 6], &[8, 16], &[1, 16]] {
        let (s, disks) = (35, counts[counts.len() - 1]);
        let mut seen = vec![false; (disks * s) as usize];
        for x in 0..disks * s {
            let spot = after(counts, s, Block(x)).spot;
            let at = (spot.disk * s + spot.row.0) as usize;
            assert!(!seen[at]);
            seen[at] = true;
            assert!(blocks_of_row(counts, s, spot.row).contains(&Block(x)));
        }
    }
}

#[test]
fn holder_finds_every_open_block_and_no_other() {
    let (mut medium, mut state, left) = three_to_five(6);
    for _ in 0..=left {
        let open: Vec<Block> = (0..state.open()).map(Block).collect();
        for (d, b) in (0..5).flat_map(|d| (0..6).map(move |b| (d, b))) {
            let lives = |x: &&Block| address(&state, **x).unwrap().spot == spot(d, b);
            let found = open.iter().find(lives).copied();
            assert_eq!(holder(&state, d, Row(b)), found.ok_or(NOBODY_THERE));
        }
        if state.growing == 1 {
            state = down(advance(state, &mut medium).unwrap().0 .0);
        }
    }
    assert_eq!(holder(&state, 5, Row(0)), Err(NO_SUCH_SPOT));
    assert_eq!(holder(&state, 0, Row(6)), Err(NO_SUCH_SPOT));
}
