//! What is pending: the last word after each call, flushed, 18 and 19 in their order, and last words that make no
//! state.

use super::*;
use crate::raw::{BLOCKS_PENDING, MOST_PENDING, RECORD_PENDING, WRONG_LENGTH};

type Words = [u64; raw::STATE_WORDS];

const PENDING: usize = 15;

fn pending(volume: &State) -> u64 {
    volume.words()[PENDING]
}

fn with_pending(volume: &State, pending: u64) -> State {
    with_word(volume, PENDING, pending)
}

/// A call that 18 or 19 may refuse.
#[derive(Clone, Copy, Debug)]
enum Call {
    /// Block and bytes of the piece.
    Write(u64, usize),
    Copy(u64),
    Grow(u64),
    GrowBeyondDoubling(u64),
    Checkpoint,
    Advance,
}

const CALLS: [Call; 6] = [
    Call::Write(14, 512),
    Call::Copy(0),
    Call::Grow(5),
    Call::GrowBeyondDoubling(7),
    Call::Checkpoint,
    Call::Advance,
];

impl Call {
    fn make(self, words: &mut Words, medium: &mut [u8], figures: &mut [u64; 4]) -> u64 {
        let left = &mut figures[..raw::LEFT_FIGURES];
        match self {
            Call::Write(block, bytes) => raw::write(words, medium, block, &vec![0x66; bytes]),
            Call::Copy(block) => raw::copy(words, medium, block, left),
            Call::Grow(count) => raw::grow(words, medium, count, left),
            Call::GrowBeyondDoubling(count) => {
                raw::grow_beyond_doubling(words, medium, count, left)
            }
            Call::Checkpoint => raw::checkpoint(words, medium, left),
            Call::Advance => raw::advance(words, medium, figures),
        }
    }

    fn figures(self) -> usize {
        match self {
            Call::Write(..) => 0,
            Call::Advance => raw::ADVANCE_FIGURES,
            _ => raw::LEFT_FIGURES,
        }
    }
}

/// Makes the call on a copy of the medium. Its number; when refused, all figures are 0 and nothing else has changed.
fn number(call: Call, volume: &State, medium: &[u8]) -> u64 {
    let (mut words, mut after) = (volume.words(), medium.to_vec());
    let mut figures = [9; 4];
    let number = call.make(&mut words, &mut after, &mut figures);
    if number != 0 {
        assert_eq!((words, &after[..]), (volume.words(), medium), "{call:?}");
        assert!(figures[..call.figures()].iter().all(|word| *word == 0));
    }
    number
}

/// All moving blocks of the window copied, none recorded, nothing pending: the next advance does the checkpoint.
fn all_copied() -> (Vec<u8>, State) {
    let (mut medium, mut volume) = three_to_five();
    for _ in 0..6 {
        volume.advance(&mut medium).unwrap();
    }
    volume.flushed().unwrap();
    (medium, volume)
}

/// Block 0 copied, not recorded, nothing pending.
fn one_copied() -> (Vec<u8>, State) {
    let (mut medium, mut volume) = three_to_five();
    volume.copy(&mut medium, Block(0)).unwrap();
    volume.flushed().unwrap();
    (medium, volume)
}

#[test]
fn calls_set_their_flag() {
    let mut medium = medium(512, 6, 5);
    let mut volume = State::format(&mut medium, 512, 6, 3).unwrap();
    assert_eq!(pending(&volume), RECORD_PENDING);
    assert!(volume.record_is_pending() && !volume.blocks_are_pending());
    volume.flushed().unwrap();
    assert_eq!(pending(&volume), 0);
    for block in [0, 1, 0] {
        let piece = [0x11; 512];
        volume.write(&mut medium, Block(block), &piece).unwrap();
        assert_eq!(pending(&volume), BLOCKS_PENDING);
        assert!(!volume.record_is_pending() && volume.blocks_are_pending());
    }
    volume.flushed().unwrap();
    volume.grow(&mut medium, 5).unwrap();
    assert_eq!(pending(&volume), RECORD_PENDING);
    volume.flushed().unwrap();
    volume.copy(&mut medium, Block(0)).unwrap();
    assert_eq!(pending(&volume), BLOCKS_PENDING);
    volume.flushed().unwrap();
    volume.checkpoint(&mut medium).unwrap();
    assert_eq!(pending(&volume), RECORD_PENDING);
    assert_eq!(State::restart(&medium).unwrap().state.words()[PENDING], 0);
}

/// By advances alone, with a flushed only before and after a checkpoint.
#[test]
fn advance_sets_the_flag_of_its_step() {
    let mut medium = medium(512, 6, 5);
    let mut volume = formatted(&mut medium, 6, 3);
    let mut left = grow(&mut volume, &mut medium, 5);
    while volume.is_growing() {
        let answer = volume.advance(&mut medium);
        if answer == Err(Refusal::FlushBlocks) || answer == Err(Refusal::FlushRecord) {
            volume.flushed().unwrap();
            continue;
        }
        let advanced = answer.unwrap();
        let flag = match advanced.step {
            Step::Copied { .. } => BLOCKS_PENDING,
            Step::Recorded | Step::Finished => RECORD_PENDING,
        };
        assert_eq!(pending(&volume), flag);
        left -= 1;
        assert_eq!(advanced.calls_left, left);
    }
    assert_eq!(left, 0);
    assert_eq!(pending(&volume), RECORD_PENDING);
}

/// A state is sound whatever is pending, and calls that store nothing leave it as it is.
#[test]
fn reads_and_lookups_leave_the_state() {
    let (medium, volume) = one_copied();
    for pending in 0..=MOST_PENDING {
        let volume = with_pending(&volume, pending);
        let mut piece = [0; 512];
        assert!(volume.is_sound());
        assert_eq!(volume.read(&medium, Block(3), &mut piece), Ok(()));
        assert_eq!(piece, picture(3));
        assert_eq!(volume.view(&medium, &[], 5, Block(3)), Ok(&piece[..]));
        assert!(volume.address(Block(3)).is_ok());
        assert_eq!(volume.holder(0, Row(0)), Ok(Block(0)));
        let all = [scene(0, 15)];
        assert_eq!(volume.load(&all), Ok(served(&[5, 5, 5])));
        assert_eq!(pending, self::pending(&volume));
    }
}

#[test]
fn flushed_clears_what_is_pending() {
    for (_, volume) in [three_disks(), three_to_five(), one_copied(), all_copied()] {
        for pending in 0..=MOST_PENDING {
            let mut flushed = with_pending(&volume, pending);
            assert_eq!(flushed.flushed(), Ok(()));
            assert_eq!(flushed, with_pending(&volume, 0));
        }
    }
}

#[test]
fn flushed_refuses_only_by_1() {
    let (_, volume) = one_copied();
    for (word, value) in [(0, 513), (3, 0), (11, 2), (13, 2), (14, 1 << 63)] {
        for pending in 0..=MOST_PENDING {
            let mut damaged = with_pending(&with_word(&volume, word, value), pending);
            let kept = damaged;
            assert_eq!(damaged.flushed(), Err(Refusal::NotSound));
            assert_eq!(damaged, kept);
        }
    }
    assert_eq!(zeros().flushed(), Err(Refusal::NotSound));
}

/// 19 refuses every call that stores; with a record store and block stores pending, also those that 18 would refuse.
#[test]
fn a_pending_record_refuses_every_store() {
    for pending in [RECORD_PENDING, MOST_PENDING] {
        let (medium, volume) = three_disks();
        let volume = with_pending(&volume, pending);
        assert_eq!(number(Call::Write(14, 512), &volume, &medium), 19);
        assert_eq!(number(Call::Grow(5), &volume, &medium), 19);
        let other = Call::GrowBeyondDoubling(5);
        assert_eq!(number(other, &volume, &medium), 19);

        let (medium, volume) = one_copied();
        let volume = with_pending(&volume, pending);
        assert_eq!(number(Call::Write(14, 512), &volume, &medium), 19);
        assert_eq!(number(Call::Copy(3), &volume, &medium), 19);
        assert_eq!(number(Call::Checkpoint, &volume, &medium), 19);
        assert_eq!(number(Call::Advance, &volume, &medium), 19);

        let (medium, volume) = all_copied();
        let volume = with_pending(&volume, pending);
        assert_eq!(number(Call::Advance, &volume, &medium), 19);
        assert_eq!(number(Call::Checkpoint, &volume, &medium), 19);
    }
}

/// 18 refuses a record store, and an advance only where it would do the checkpoint.
#[test]
fn pending_blocks_refuse_a_record_store() {
    let (medium, volume) = three_disks();
    let volume = with_pending(&volume, BLOCKS_PENDING);
    assert_eq!(number(Call::Grow(5), &volume, &medium), 18);
    let other = Call::GrowBeyondDoubling(5);
    assert_eq!(number(other, &volume, &medium), 18);
    assert_eq!(number(Call::Write(14, 512), &volume, &medium), 0);

    let (medium, volume) = one_copied();
    let volume = with_pending(&volume, BLOCKS_PENDING);
    assert_eq!(number(Call::Checkpoint, &volume, &medium), 18);
    assert_eq!(number(Call::Advance, &volume, &medium), 0);
    assert_eq!(number(Call::Copy(3), &volume, &medium), 0);
    assert_eq!(number(Call::Write(14, 512), &volume, &medium), 0);

    let (medium, volume) = all_copied();
    let volume = with_pending(&volume, BLOCKS_PENDING);
    assert_eq!(number(Call::Advance, &volume, &medium), 18);
    assert_eq!(number(Call::Checkpoint, &volume, &medium), 18);
    let mut flushed = volume;
    flushed.flushed().unwrap();
    assert_eq!(number(Call::Advance, &flushed, &medium), 0);
    assert_eq!(number(Call::Checkpoint, &flushed, &medium), 0);
}

/// The calls of `rows` with whatever is pending, each with the number that comes before 18 and 19.
fn refused_first(volume: &State, medium: &[u8], rows: &[(Call, u64)]) {
    for pending in 0..=MOST_PENDING {
        let volume = with_pending(volume, pending);
        for (call, wanted) in rows {
            let given = number(*call, &volume, medium);
            assert_eq!(given, *wanted, "{call:?}, pending {pending}");
        }
    }
}

#[test]
fn all_other_tests_come_first_at_rest() {
    let (medium, still) = three_disks();
    let damaged = with_word(&still, 12, 1);
    refused_first(&damaged, &medium, &CALLS.map(|call| (call, 1)));
    let enough = State::medium_bytes(512, 5, 3);
    let short = &medium[..enough - 1];
    refused_first(&still, short, &CALLS.map(|call| (call, 2)));
    refused_first(
        &still,
        &medium,
        &[
            (Call::Write(15, 512), 3),
            (Call::Write(15, 511), 3),
            (Call::Write(14, 511), 4),
            (Call::Copy(0), 5),
            (Call::Checkpoint, 5),
            (Call::Advance, 5),
            (Call::Grow(3), 8),
            (Call::Grow(17), 8),
            (Call::Grow(7), 20),
            (Call::GrowBeyondDoubling(3), 8),
            (Call::GrowBeyondDoubling(17), 8),
            (Call::GrowBeyondDoubling(7), 2),
        ],
    );
}

#[test]
fn all_other_tests_come_first_in_a_growth() {
    let (medium, growing) = three_to_five();
    refused_first(&growing, &medium, &[(Call::Checkpoint, 12)]);
    let (medium, copied) = one_copied();
    refused_first(
        &copied,
        &medium,
        &[
            (Call::Write(0, 512), 7),
            (Call::Copy(15), 3),
            (Call::Copy(12), 10),
            (Call::Copy(0), 11),
            (Call::Grow(6), 6),
            (Call::GrowBeyondDoubling(6), 6),
        ],
    );
    let last = grown(&[1, 2, 3, 4, 5, 6, 7, 8]);
    let grows = [Call::Grow(9), Call::GrowBeyondDoubling(9)];
    refused_first(&last, &medium, &grows.map(|grow| (grow, 9)));
}

/// Every call that reads a state returns 100 and touches nothing; format and restart do not read one.
#[test]
fn a_greater_last_word_is_no_state() {
    let (mut medium, volume) = one_copied();
    let before = medium.clone();
    let damaged = with_word(&volume, 13, 2);
    for last in [
        4,
        5,
        7,
        8,
        1 << 8,
        1 << 32,
        (1 << 32) + 1,
        1 << 63,
        u64::MAX,
    ] {
        for volume in [&volume, &damaged, &zeros()] {
            let mut words = volume.words();
            words[PENDING] = last;
            assert_eq!(State::from_words(words), None);
            touches_nothing(words, &mut medium);
            touches_nothing(words, &mut []);
        }
        let mut words = [last; raw::STATE_WORDS];
        let mut left = [8];
        assert_eq!(raw::restart(&mut words, &medium, &mut left), 0);
        assert_eq!((words[PENDING], left), (0, [7]));
        words = [last; raw::STATE_WORDS];
        let mut other = medium.clone();
        assert_eq!(raw::format(&mut words, &mut other, 512, 5, 3), 0);
        assert_eq!(words[PENDING], RECORD_PENDING);
    }
    assert_eq!(medium, before);
}

/// Each call with words that are no state.
fn touches_nothing(words: Words, medium: &mut [u8]) {
    let mut state = words;
    let mut figures = [8; raw::LOAD_FIGURES];
    let mut piece = [9; 512];
    let answers = [
        raw::grow(&mut state, medium, 6, &mut figures[..1]),
        raw::grow_beyond_doubling(&mut state, medium, 6, &mut figures[..1]),
        raw::copy(&mut state, medium, 3, &mut figures[..1]),
        raw::checkpoint(&mut state, medium, &mut figures[..1]),
        raw::advance(&mut state, medium, &mut figures[..4]),
        raw::write(&mut state, medium, 14, &[1; 512]),
        raw::flushed(&mut state),
        raw::read(&state, medium, 14, &mut piece),
        raw::view(&state, medium.len(), 0, 5, 14, &mut figures[..2]),
        raw::address(&state, 14, &mut figures[..6]),
        raw::holder(&state, 0, 0, &mut figures[..1]),
        raw::load(&state, &[scene(0, 1)], &mut figures),
        raw::soundness(&state),
    ];
    assert_eq!(answers, [WRONG_LENGTH; 13]);
    assert_eq!((state, figures), (words, [8; raw::LOAD_FIGURES]));
    assert_eq!(piece, [9; 512]);
}

/// Refused, format and restart hand back zeros, what is pending too.
#[test]
fn refused_makers_hand_back_zeros() {
    let mut words = [MOST_PENDING; raw::STATE_WORDS];
    assert_eq!(raw::format(&mut words, &mut [0; 511], 512, 1, 1), 2);
    assert_eq!(words, [0; raw::STATE_WORDS]);
    words = [MOST_PENDING; raw::STATE_WORDS];
    let mut left = [8];
    assert_eq!(raw::restart(&mut words, &[0; 512], &mut left), 13);
    assert_eq!((words, left), ([0; raw::STATE_WORDS], [0]));
}

/// A save, then a save that is not flushed and torn at the cut: only the second block may hold other bytes.
#[test]
fn a_flushed_save_is_there_after_a_cut() {
    let (mut medium, mut volume) = three_disks();
    volume.write(&mut medium, Block(3), &[0x21; 512]).unwrap();
    volume.flushed().unwrap();
    volume.write(&mut medium, Block(4), &[0x22; 512]).unwrap();
    let spot = volume.address(Block(4)).unwrap().spot;
    let at = 512 + (spot.disk * 5 + spot.row.0) as usize * 512;
    medium[at + 100..at + 512].fill(0xEE);
    let volume = State::restart(&medium).unwrap().state;
    let mut piece = [0; 512];
    volume.read(&medium, Block(3), &mut piece).unwrap();
    assert_eq!(piece, [0x21; 512]);
    for block in (0..15).filter(|block| *block != 3 && *block != 4) {
        volume.read(&medium, Block(block), &mut piece).unwrap();
        assert_eq!(piece, picture(block));
    }
}
