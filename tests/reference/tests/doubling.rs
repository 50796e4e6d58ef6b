//! Growths beyond doubling: W7 of document 02, with the plain and the fast
//! calls.

use reference::followed::Followed;
use reference::limits::{DISKS, RECORD};
use reference::refusal::*;
use reference::sample::{at_rest, growing, sound_state, Random};
use reference::spot::Block;
use reference::state::{Pending, State};
use reference::store::{self, advance, flushed, format, read, restart, write, Next};
use reference::{fast, record};

type Grow = fn(State, &mut [u8], u64) -> Result<Next, Refusal>;

/// Grow, plain and fast.
const GROW: [Grow; 2] = [store::grow, fast::grow];
/// The one without 20.
const OTHER: [Grow; 2] = [store::grow_beyond_doubling, fast::grow_beyond_doubling];

/// The number that both grows of a kind give, 0 for an accepted one. A medium
/// of so many bytes is lent; refused, they leave it as it was.
fn number_of(grows: [Grow; 2], state: &State, bytes: usize, count: u64) -> u64 {
    let [plain, fast] = grows.map(|grow| {
        let mut medium = vec![7; bytes];
        let answer = grow(*state, &mut medium, count);
        let untouched = medium.iter().all(|&byte| byte == 7);
        assert_eq!(untouched, answer.is_err());
        (answer, medium)
    });
    assert_eq!(plain, fast);
    plain.0.err().unwrap_or(0)
}

/// The numbers of grow and of the one without 20.
fn numbers(state: &State, bytes: usize, count: u64) -> [u64; 2] {
    [GROW, OTHER].map(|grows| number_of(grows, state, bytes, count))
}

/// As many new drives as old are allowed, and not one more.
#[test]
fn new_and_old() {
    let bytes = at_rest(&[16], 1).bytes(16) as usize;
    for old in 1..DISKS {
        for new in 1..=DISKS - old {
            let wanted = if new <= old { 0 } else { 20 };
            let count = old + new;
            let state = at_rest(&[old], 1);
            assert_eq!(numbers(&state, bytes, count), [wanted, 0]);
            // The newest count decides, whatever was before it.
            for first in 1..old {
                let state = at_rest(&[first, old], 1);
                assert_eq!(numbers(&state, bytes, count), [wanted, 0]);
            }
        }
    }
}

#[test]
fn refusals_before_20() {
    let still = at_rest(&[1, 3], 2);
    let unsound = State { z: 513, ..still };
    let running = growing(&[1, 3], 2, 0, 0);
    let last = at_rest(&[1, 2, 3, 4, 5, 6, 7, 8], 2);
    for word in 0..=3 {
        let pending = Pending::from_word(word).unwrap();
        let with = |state: State| State { pending, ..state };
        for bytes in [0, 511, 20_000] {
            assert_eq!(numbers(&with(unsound), bytes, 7), [NOT_SOUND; 2]);
            assert_eq!(numbers(&with(running), bytes, 7), [GROWING; 2]);
            assert_eq!(numbers(&with(last), bytes, 17), [NO_GROWTH_LEFT; 2]);
            for count in [0, 3, 17, u64::MAX] {
                assert_eq!(numbers(&with(still), bytes, count), [OUTSIDE_LIMITS; 2]);
            }
        }
    }
}

#[test]
fn refusals_after_20() {
    let still = at_rest(&[1, 3], 2);
    let [six, seven] = [6, 7].map(|disks| still.bytes(disks) as usize);
    for (word, waits) in [(0, 0), (1, 19), (2, 18), (3, 19)] {
        let pending = Pending::from_word(word).unwrap();
        let state = State { pending, ..still };
        for short in [0, 511, RECORD, six, seven - 1] {
            assert_eq!(numbers(&state, short, 7), [20, 2]);
        }
        assert_eq!(numbers(&state, seven, 7), [20, waits]);
        assert_eq!(numbers(&state, six - 1, 6), [2, 2]);
        assert_eq!(numbers(&state, six, 6), [waits, waits]);
    }
}

/// A volume with the plain volume and the tally beside it.
struct Followable {
    medium: Vec<u8>,
    state: State,
    followed: Followed,
}

impl Followable {
    /// A volume of this many disks of 9 rows, with room for 8 disks.
    fn format(disks: u64) -> Followable {
        let mut medium = vec![0; RECORD + 8 * 9 * 512];
        let state = format(&mut medium, 512, 9, disks).unwrap();
        let mut volume = Followable {
            medium,
            state,
            followed: Followed::format(9, disks),
        };
        volume.flush();
        volume
    }

    fn flush(&mut self) {
        flushed(&mut self.state).unwrap();
        self.followed.flushed();
    }

    /// Saves every open block.
    fn save(&mut self) {
        for x in (0..self.state.open()).map(Block) {
            let piece = [x.0 as u8 + 1; 512];
            write(&mut self.state, &mut self.medium, x, &piece).unwrap();
            self.followed.write(x, &piece);
        }
        self.flush();
    }

    fn grow(&mut self, grow: Grow, count: u64) {
        let (next, left) = grow(self.state, &mut self.medium, count).unwrap();
        self.state = next;
        self.followed.grow(count);
        assert_eq!(left, self.followed.tally.calls_left());
        self.flush();
    }

    fn restart(&mut self) {
        let (next, left) = restart(&self.medium).unwrap();
        assert_eq!(fast::restart(&self.medium), Ok((next, left)));
        self.state = next;
        self.followed.restart();
        assert_eq!(left, self.followed.tally.calls_left());
    }

    /// Advances to the end, with a restart after each call that has recorded.
    fn finish(&mut self) {
        while self.state.growing == 1 {
            let ((next, left), _) = advance(self.state, &mut self.medium).unwrap();
            self.state = next;
            self.followed.advance();
            assert_eq!(left, self.followed.tally.calls_left());
            self.flush();
            if next.recorded == next.copied {
                self.restart();
            }
            self.check();
        }
    }

    /// What the plain volume holds is read.
    fn check(&self) {
        assert_eq!(self.state.open(), self.followed.plain.open());
        let mut piece = [0; 512];
        for x in (0..self.state.open()).map(Block) {
            read(&self.state, &self.medium, x, &mut piece).unwrap();
            let held = self.followed.plain.bytes(x);
            assert!(held.is_none_or(|bytes| bytes == piece));
        }
    }
}

/// From 1 disk to 4, and on to 8 by a grow that has 20.
#[test]
fn a_volume_beyond_doubling() {
    let mut volume = Followable::format(1);
    volume.save();
    let bytes = volume.medium.len();
    assert_eq!(numbers(&volume.state, bytes, 4), [BEYOND_DOUBLING, 0]);
    volume.grow(store::grow_beyond_doubling, 4);
    assert_eq!(volume.followed.tally.counts(), [1, 4]);
    assert_eq!(volume.followed.tally.calls_left(), 10);
    volume.restart();
    assert_eq!(numbers(&volume.state, bytes, 8), [GROWING; 2]);
    volume.finish();
    volume.save();
    volume.restart();
    assert_eq!(
        numbers(&volume.state, bytes, 9),
        [BEYOND_DOUBLING, MEDIUM_SHORT]
    );
    volume.grow(store::grow, 8);
    volume.finish();
    volume.save();
    volume.check();
    assert_eq!(volume.state.used_counts(), [1, 4, 8]);
    assert_eq!(volume.medium[..RECORD], record::write(&volume.state));
}

/// Samples of states have such steps, finished and running.
#[test]
fn samples() {
    let mut random = Random::new(10);
    let [mut none, mut finished, mut running] = [0; 3];
    for _ in 0..2_000 {
        let state = sound_state(&mut random, 40);
        let beyond = |pair: &[u64]| pair[1] > 2 * pair[0];
        let counts = state.used_counts();
        let done = &counts[..counts.len() - state.growing as usize];
        match counts.windows(2).any(beyond) {
            false => none += 1,
            true if done.windows(2).any(beyond) => finished += 1,
            true => running += 1,
        }
    }
    let seen = [none, finished, running];
    assert!(seen.iter().all(|&count| count > 100), "{seen:?}");
}
