//! What is pending, the refusals 18 and 19, and what a cut leaves.

use reference::followed::{Followed, Left};
use reference::refusal::*;
use reference::sample::{at_rest, growing};
use reference::spot::Block;
use reference::state::{Pending, State, WORDS};
use reference::store::{advance, checkpoint, copy, flushed, format, grow, restart, write};

const RECORD: Pending = Pending {
    record: true,
    blocks: false,
};
const BLOCKS: Pending = Pending {
    record: false,
    blocks: true,
};
const BOTH: Pending = Pending {
    record: true,
    blocks: true,
};

fn with(state: State, pending: Pending) -> State {
    State { pending, ..state }
}

/// A medium for 5 disks of 5 rows.
fn medium() -> Vec<u8> {
    vec![0; 512 + 25 * 512]
}

#[test]
fn words() {
    for (word, pending) in [Pending::NOTHING, RECORD, BLOCKS, BOTH].iter().enumerate() {
        let state = with(at_rest(&[3], 5), *pending);
        assert!(state.sound());
        let words = state.to_words();
        assert_eq!(words[15], word as u64);
        assert_eq!(State::from_words(&words), Some(state));
    }
    for word in [4, 1 << 32, u64::MAX] {
        let mut words = [0; WORDS];
        words[15] = word;
        assert_eq!(State::from_words(&words), None);
    }
}

#[test]
fn flags() {
    let mut medium = medium();
    let mut state = format(&mut medium, 512, 5, 3).unwrap();
    assert_eq!(state.pending, RECORD);
    flushed(&mut state).unwrap();
    assert_eq!(state.pending, Pending::NOTHING);
    write(&mut state, &mut medium, Block(0), &[1; 512]).unwrap();
    assert_eq!(state.pending, BLOCKS);
    flushed(&mut state).unwrap();
    state = grow(state, &mut medium, 5).unwrap().0;
    assert_eq!(state.pending, RECORD);
    assert_eq!(restart(&medium).unwrap().0.pending, Pending::NOTHING);
    flushed(&mut state).unwrap();
    state = copy(state, &mut medium, Block(0)).unwrap().0;
    assert_eq!(state.pending, BLOCKS);
    flushed(&mut state).unwrap();
    state = checkpoint(state, &mut medium).unwrap().0;
    assert_eq!(state.pending, RECORD);
}

#[test]
fn refusals() {
    let still = at_rest(&[3], 5);
    let part = State {
        copied: 0b1,
        ..growing(&[3, 5], 5, 0, 0)
    };
    let full = State {
        copied: 0b11_1111,
        ..part
    };
    let save = |mut state: State| write(&mut state, &mut medium(), Block(14), &[1; 512]).err();
    let grown = |state| grow(state, &mut medium(), 5).err();
    let copied = |state| copy(state, &mut medium(), Block(3)).err();
    let recorded = |state| checkpoint(state, &mut medium()).err();
    let advanced = |state| advance(state, &mut medium()).err();
    for (pending, store, record) in [
        (Pending::NOTHING, None, None),
        (RECORD, Some(19), Some(19)),
        (BLOCKS, None, Some(18)),
        (BOTH, Some(19), Some(19)),
    ] {
        let at = |state| with(state, pending);
        assert_eq!(save(at(still)), store);
        assert_eq!(save(at(part)), store);
        assert_eq!(copied(at(part)), store);
        assert_eq!(advanced(at(part)), store);
        assert_eq!(grown(at(still)), record);
        assert_eq!(recorded(at(part)), record);
        assert_eq!(advanced(at(full)), record);
        assert_eq!(grown(at(part)), Some(GROWING));
        assert_eq!(advanced(at(still)), Some(NOT_GROWING));
    }
}

/// A volume of 3 disks of 5 rows whose growth to 5 has only the last
/// checkpoint to go, with block 14 saved.
fn nearly_grown() -> Followed {
    let mut followed = Followed::format(5, 3);
    followed.flushed();
    followed.write(Block(14), &[1]);
    followed.flushed();
    followed.grow(5);
    followed.flushed();
    for _ in 0..6 {
        followed.advance();
    }
    followed.flushed();
    followed
}

#[test]
fn saves_since_flushed_are_lost() {
    let mut followed = nearly_grown();
    followed.write(Block(1), &[2]);
    followed.flushed();
    followed.write(Block(1), &[3]);
    followed.write(Block(2), &[4]);
    assert_eq!(followed.written(), [Block(1), Block(2)]);
    followed.cut(Left::New);
    followed.restart();
    assert_eq!(followed.plain.bytes(Block(1)), None);
    assert_eq!(followed.plain.bytes(Block(2)), None);
    assert_eq!(followed.plain.bytes(Block(14)), Some(&[1][..]));
    assert_eq!(followed.pending(), Pending::NOTHING);
    assert_eq!(followed.tally.calls_left(), 7);
}

#[test]
fn an_old_record_takes_the_growth_back() {
    for (left, open, calls) in [(Left::Old, 15, 7), (Left::New, 25, 0)] {
        let mut followed = nearly_grown();
        assert_eq!(followed.tally.calls_left(), 1);
        followed.advance();
        assert_eq!((followed.plain.open(), followed.pending()), (25, RECORD));
        followed.cut(left);
        followed.restart();
        assert_eq!(followed.plain.open(), open);
        assert_eq!(followed.tally.calls_left(), calls);
        assert_eq!(followed.plain.bytes(Block(14)), Some(&[1][..]));
    }
}

#[test]
fn flushed_keeps_the_record() {
    let mut followed = nearly_grown();
    followed.advance();
    followed.flushed();
    followed.cut(Left::Old);
    assert_eq!(followed.plain.open(), 25);
    assert!(!followed.tally.growing());
}

/// The guarantee starts at the first flushed.
#[test]
fn start() {
    let mut followed = Followed::format(5, 3);
    assert!(!followed.started());
    assert_eq!(followed.pending(), RECORD);
    followed.flushed();
    assert!(followed.started());
}
