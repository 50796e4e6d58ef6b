//! Views: the shelves that are lent, the bytes that are shown, and what
//! happened with them.

use crate::call::Call;
use crate::counts::{Counts, Event};
use crate::library;
use crate::pair::{same, same_bytes, Answer, Difference};
use reference::refusal::*;
use reference::sample::Random;
use reference::state::{Pending, State, WORDS};
use reference::view::Shelves;

/// What every spare byte of a shelf is.
const SPARE: u8 = 0x5A;

/// A view of the block out of shelves for a sound state.
pub fn any(random: &mut Random, state: &State, block: u64) -> Call {
    let k = any_k(random, state.disks());
    let bytes = |disks| state.bytes(disks);
    let shelves = shelves(random, k, state.disks(), bytes);
    Call::View { block, shelves }
}

/// A number of disks for the first shelf, of which 1 to `disks` are accepted.
pub fn any_k(random: &mut Random, disks: u64) -> u64 {
    match random.below(12) {
        0 => 0,
        1 => random.odd_number(disks),
        _ => random.range(1, disks),
    }
}

/// Two shelves for `disks` disks, each exact or with spare bytes, at times one
/// byte short or of any length. `bytes` tells what the record and so many
/// disks take.
pub fn shelves(random: &mut Random, k: u64, disks: u64, bytes: impl Fn(u64) -> u64) -> Shelves {
    let first = bytes(k.min(disks));
    let second = bytes(disks) - first;
    let [first, second] = [first, second].map(|exact| match random.below(16) {
        0 => exact.saturating_sub(1),
        1 => random.odd_number(exact),
        2..=5 => exact + random.pick(&[1, 511, 512, 70_000]),
        _ => exact,
    });
    Shelves { k, first, second }
}

/// An answered view with its state, and what the two shelves need.
struct Viewed<'a> {
    state: State,
    block: u64,
    shelves: Shelves,
    needed: Shelves,
    answer: &'a Answer,
}

/// After a view: counts what happened, and where the medium is whole compares
/// the bytes shown with what read gives. The shelves are parts of this medium.
pub fn check(
    call: &Call,
    words: &[u64; WORDS],
    medium: &[u8],
    answer: &Answer,
    counts: &mut Counts,
) -> Result<(), Difference> {
    let (&Call::View { block, shelves }, Some(state)) = (call, State::from_words(words)) else {
        return Ok(());
    };
    if state.growing == 1 {
        refused_in_growth(answer.number, counts);
    }
    if matches!(answer.number, NOT_SOUND | OUTSIDE_LIMITS) {
        return Ok(());
    }
    let first = state.bytes(shelves.k);
    let second = state.bytes(state.disks()) - first;
    let viewed = Viewed {
        state,
        block,
        shelves,
        needed: Shelves {
            first,
            second,
            ..shelves
        },
        answer,
    };
    viewed.note(counts);
    if answer.accepted() && medium.len() as u64 >= first + second {
        viewed.compare(words, medium, counts)?;
    }
    Ok(())
}

fn refused_in_growth(number: u64, counts: &mut Counts) {
    match number {
        NOT_SOUND => counts.event(Event::ViewNotSoundGrowing),
        OUTSIDE_LIMITS => counts.event(Event::ViewOutsideGrowing),
        MEDIUM_SHORT => counts.event(Event::ViewShortGrowing),
        NOT_OPEN => counts.event(Event::ViewNotOpenGrowing),
        _ => {}
    }
}

impl Viewed<'_> {
    /// Compares the bytes shown with what read gives on the two shelves joined
    /// without spare bytes, which is the medium without its own.
    fn compare(
        &self,
        words: &[u64; WORDS],
        medium: &[u8],
        counts: &mut Counts,
    ) -> Result<(), Difference> {
        let joined = &medium[..(self.needed.first + self.needed.second) as usize];
        let (first, second) = joined.split_at(self.needed.first as usize);
        let [shelf, byte] = [self.answer.figures[0], self.answer.figures[1]];
        let (held, event) = match (shelf, self.state.growing) {
            (1, 0) => (first, Event::ViewFirst),
            (1, _) => (first, Event::ViewFirstGrowing),
            (_, 0) => (second, Event::ViewSecond),
            (_, _) => (second, Event::ViewSecondGrowing),
        };
        let mut piece = vec![0; self.state.z as usize];
        let number = library::read(words, joined, self.block, &mut piece);
        same("the number of a read on the shelves joined", number, 0)?;
        let shown = part(held, byte as usize, piece.len());
        same_bytes("the bytes of a view", &shown, &piece)?;
        counts.event(event);
        counts.comparisons += 2;
        Ok(())
    }

    /// Counts a view that was accepted or refused with 2 or 3.
    fn note(&self, counts: &mut Counts) {
        let (lent, needed) = (&self.shelves, &self.needed);
        let missing = [
            needed.first.saturating_sub(lent.first),
            needed.second.saturating_sub(lent.second),
        ];
        match (self.answer.number, missing) {
            (0, _) => self.note_accepted(counts),
            (MEDIUM_SHORT, [1, 0]) => counts.event(Event::ViewFirstShort),
            (MEDIUM_SHORT, [0, 1]) => counts.event(Event::ViewSecondShort),
            (NOT_OPEN, _) if self.block < self.state.disks() * self.state.s => {
                counts.event(Event::ViewUnopened)
            }
            (NOT_OPEN, _) => counts.event(Event::ViewBeyond),
            _ => {}
        }
    }

    fn note_accepted(&self, counts: &mut Counts) {
        let (lent, needed) = (&self.shelves, &self.needed);
        let spare = match self.answer.figures[0] {
            1 => lent.first - needed.first,
            _ => lent.second - needed.second,
        };
        if spare > 0 {
            counts.event(Event::ViewSpare);
        }
        if lent == needed {
            counts.event(Event::ViewExact);
        }
        if lent.second == 0 {
            counts.event(Event::ViewOneShelf);
        }
        if self.state.pending != Pending::NOTHING {
            counts.event(Event::ViewPending);
        }
    }
}

/// A shelf's part of `bytes` bytes from `start` on. Behind the bytes that the
/// shelf holds all are spare.
fn part(held: &[u8], start: usize, bytes: usize) -> Vec<u8> {
    let mut part: Vec<u8> = held.iter().skip(start).take(bytes).copied().collect();
    part.resize(bytes, SPARE);
    part
}
