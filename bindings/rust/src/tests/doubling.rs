//! Growths beyond doubling: 20 and its place among the refusals of grow, the grow without it, and volumes that have
//! such a step in their history.

use super::*;
use crate::raw::{MOST_PENDING, RECORD_PENDING};

/// One of the two grows.
type Grow = fn(&mut [u64], &mut [u8], u64, &mut [u64]) -> u64;

const GROWS: [Grow; 2] = [raw::grow, raw::grow_beyond_doubling];

/// Number, state, medium and calls left after a grow.
type Grown = (u64, [u64; raw::STATE_WORDS], Vec<u8>, u64);

/// Makes a grow on copies of state and medium. Refused, its figure is 0 and nothing else has changed.
fn made(grow: Grow, volume: &State, medium: &[u8], count: u64) -> Grown {
    let (mut words, mut after, mut left) = (volume.words(), medium.to_vec(), [9]);
    let number = grow(&mut words, &mut after, count, &mut left);
    if number != 0 {
        let kept = (volume.words(), medium, [0]);
        assert_eq!((words, &after[..], left), kept, "{count}");
    }
    (number, words, after, left[0])
}

/// The numbers of grow and of the one without 20.
fn numbers(volume: &State, medium: &[u8], count: u64) -> [u64; 2] {
    GROWS.map(|grow| made(grow, volume, medium, count).0)
}

/// A volume of few rows after these growths, and a medium with room for 16 disks.
fn with_room(counts: &[u64]) -> (Vec<u8>, State) {
    let volume = with_word(&grown(counts), 1, 2);
    (medium(512, 2, 16), volume)
}

/// Every count on a volume with these counts, with nothing else wrong. With both accepted they do the same.
fn refuses_above_twice(counts: &[u64]) {
    let (medium, volume) = with_room(counts);
    let disks = volume.disks();
    for count in (0..=40).chain([1 << 32, 1 << 63, u64::MAX / 2, u64::MAX]) {
        let outside = count <= disks || count > State::MOST_DISKS;
        let wanted = match (outside, count > 2 * disks) {
            (true, _) => [8, 8],
            (false, true) => [20, 0],
            (false, false) => [0, 0],
        };
        let [one, other] = GROWS.map(|grow| made(grow, &volume, &medium, count));
        assert_eq!([one.0, other.0], wanted, "{counts:?} to {count}");
        if wanted == [0, 0] {
            assert_eq!(one, other);
        }
    }
}

/// The newest count decides, whatever steps were before it.
#[test]
fn twenty_exactly_above_twice() {
    for disks in 1..=State::MOST_DISKS {
        refuses_above_twice(&[disks]);
        for old in 1..disks {
            refuses_above_twice(&[old, disks]);
        }
    }
    refuses_above_twice(&[1, 2, 3, 4, 5, 6, 7]);
    refuses_above_twice(&[1, 3, 7]);
    refuses_above_twice(&[1, 4, 5]);
}

#[test]
fn counts_by_hand() {
    let given = |counts: &[u64], count| {
        let (medium, volume) = with_room(counts);
        numbers(&volume, &medium, count)
    };
    assert_eq!(given(&[1], 2), [0, 0]);
    assert_eq!(given(&[1], 3), [20, 0]);
    assert_eq!(given(&[1], 16), [20, 0]);
    assert_eq!(given(&[3], 6), [0, 0]);
    assert_eq!(given(&[3], 7), [20, 0]);
    assert_eq!(given(&[3], 16), [20, 0]);
    assert_eq!(given(&[3], 17), [8, 8]);
    assert_eq!(given(&[7], 14), [0, 0]);
    assert_eq!(given(&[7], 15), [20, 0]);
    assert_eq!(given(&[8], 16), [0, 0]);
    assert_eq!(given(&[8], 17), [8, 8]);
}

/// 1, 6, 9 and 8 come first, with a count above twice and whatever the medium's length and what is pending.
#[test]
fn what_comes_before_20() {
    let (medium, still) = with_room(&[1, 3]);
    let unsound = with_word(&still, 12, 1);
    let running = with_word(&still, 11, 1);
    let last = with_room(&[1, 2, 3, 4, 5, 6, 7, 8]).1;
    assert!(!unsound.is_sound() && running.is_sound() && last.is_sound());
    for pending in 0..=MOST_PENDING {
        for length in [0, 511, 512, medium.len()] {
            let given = |volume, count| {
                let volume = with_word(volume, 15, pending);
                numbers(&volume, &medium[..length], count)
            };
            assert_eq!(given(&unsound, 7), [1, 1]);
            assert_eq!(given(&running, 7), [6, 6]);
            assert_eq!(given(&last, 17), [9, 9]);
            assert_eq!(given(&still, 17), [8, 8]);
            assert_eq!(given(&still, u64::MAX), [8, 8]);
        }
    }
}

/// 2, 19 and 18 come after it; the grow without 20 gives them.
#[test]
fn what_comes_after_20() {
    let (medium, still) = with_room(&[1, 3]);
    let [six, seven] = [6, 7].map(|disks| State::medium_bytes(512, 2, disks));
    for (pending, waits) in [(0, 0), (1, 19), (2, 18), (3, 19)] {
        let volume = with_word(&still, 15, pending);
        let given = |length, count| numbers(&volume, &medium[..length], count);
        for length in [0, 511, 512, six, seven - 1] {
            assert_eq!(given(length, 7), [20, 2]);
        }
        assert_eq!(given(seven, 7), [20, waits]);
        assert_eq!(given(medium.len(), 7), [20, waits]);
        assert_eq!(given(six - 1, 6), [2, 2]);
        assert_eq!(given(six, 6), [waits, waits]);
    }
}

/// A volume of one disk of 9 rows, with room for 8 disks; each block is saved, and nothing is pending.
fn one_disk() -> (Vec<u8>, State) {
    let mut medium = medium(512, 9, 8);
    let mut volume = formatted(&mut medium, 9, 1);
    save(&mut volume, &mut medium, 0);
    (medium, volume)
}

/// Saves all open blocks from this one on.
fn save(volume: &mut State, medium: &mut [u8], first: u64) {
    for block in first..open_blocks(volume) {
        let saved = volume.write(medium, Block(block), &picture(block));
        saved.unwrap();
    }
    volume.flushed().unwrap();
}

/// The first blocks, so many, have their pictures, and holder finds each at its spot.
fn are_there(volume: &State, medium: &[u8], blocks: u64) {
    let mut piece = [0; 512];
    for block in (0..blocks).map(Block) {
        volume.read(medium, block, &mut piece).unwrap();
        assert_eq!(piece, picture(block.0));
        let spot = volume.address(block).unwrap().spot;
        assert_eq!(volume.holder(spot.disk, spot.row), Ok(block));
    }
}

/// The same volume in a growth from 1 disk to 4, which only the grow without 20 begins.
fn one_to_four() -> (Vec<u8>, State) {
    let (mut medium, mut volume) = one_disk();
    let before = (medium.clone(), volume);
    let refused = volume.grow(&mut medium, 4);
    assert_eq!(refused, Err(Refusal::BeyondDoubling));
    assert_eq!((&medium, volume), (&before.0, before.1));
    // Two whole windows of 3 moves, and a third with 1 row of 4.
    assert_eq!(volume.grow_beyond_doubling(&mut medium, 4), Ok(10));
    assert_eq!(volume.words()[15], RECORD_PENDING);
    assert_eq!(medium[512..], before.0[512..]);
    volume.flushed().unwrap();
    (medium, volume)
}

/// A growth under way is restarted after each of its calls and taken to its end from there, and no save is lost.
#[test]
fn a_running_growth_is_restarted_and_completed() {
    let (mut medium, mut volume) = one_to_four();
    let mut left = 10;
    while left > 0 {
        assert_eq!(volume.grow(&mut medium, 8), Err(Refusal::Growing));
        let restarted = State::restart(&medium).unwrap();
        assert_eq!(restarted.state.counts(), [1, 4, 0, 0, 0, 0, 0, 0]);
        let (mut other, mut other_medium) = (restarted.state, medium.clone());
        are_there(&other, &other_medium, 9);
        let calls = finish(&mut other, &mut other_medium);
        assert_eq!(calls, restarted.calls_left);
        assert_eq!(open_blocks(&other), 36);
        save(&mut other, &mut other_medium, 9);
        are_there(&other, &other_medium, 36);
        left = volume.advance(&mut medium).unwrap().calls_left;
        volume.flushed().unwrap();
        are_there(&volume, &medium[..State::medium_bytes(512, 9, 4)], 9);
    }
    assert!(!volume.is_growing());
}

/// After the growth to 4 disks grow takes up to 8.
#[test]
fn a_finished_growth_is_restarted_and_grows_on() {
    let (mut medium, mut volume) = one_to_four();
    assert_eq!(finish(&mut volume, &mut medium), 10);
    save(&mut volume, &mut medium, 9);
    let restarted = State::restart(&medium).unwrap();
    assert_eq!((restarted.state, restarted.calls_left), (volume, 0));
    for (count, wanted) in [(4, [8, 8]), (8, [0, 0]), (9, [20, 2]), (17, [8, 8])] {
        assert_eq!(numbers(&volume, &medium, count), wanted, "{count}");
    }
    grow(&mut volume, &mut medium, 8);
    are_there(&volume, &medium, 36);
    finish(&mut volume, &mut medium);
    assert_eq!(volume.counts(), [1, 4, 8, 0, 0, 0, 0, 0]);
    save(&mut volume, &mut medium, 36);
    are_there(&volume, &medium, 72);
    assert_eq!(State::restart(&medium).unwrap().state, volume);
}
