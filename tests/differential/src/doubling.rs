//! Growths beyond doubling: what happened with both grows, and with volumes
//! that have such a step in their history.

use crate::call::Call;
use crate::counts::{Counts, Event};
use reference::refusal::*;
use reference::state::{State, WORDS};
use reference::tally::Tally;

/// Whether a growth more than doubles the disks.
fn is_beyond(disks: u64, count: u64) -> bool {
    count as u128 > 2 * disks as u128
}

/// Whether one of the growths through these counts does.
fn has_beyond(counts: &[u64]) -> bool {
    counts.windows(2).any(|pair| is_beyond(pair[0], pair[1]))
}

/// After a grow of either kind, with so many bytes of a medium.
pub fn note(call: &Call, words: &[u64; WORDS], bytes: usize, number: u64, counts: &mut Counts) {
    let Some(state) = State::from_words(words) else {
        return;
    };
    let Some(&disks) = state.counts.get(state.t as usize) else {
        return;
    };
    match *call {
        Call::Grow { count } if is_beyond(disks, count) => {
            note_beyond(&state, count, bytes, number, counts)
        }
        Call::Grow { count } if number == 0 && count == 2 * disks => counts.event(Event::GrowTwice),
        Call::GrowBeyondDoubling { count } if number == 0 => {
            counts.event(match is_beyond(disks, count) {
                true => Event::OtherGrowBeyond,
                false => Event::OtherGrowWithin,
            })
        }
        _ => {}
    }
}

/// Counts a grow beyond doubling by its refusal, and with 20 by the one that
/// would come next.
fn note_beyond(state: &State, count: u64, bytes: usize, number: u64, counts: &mut Counts) {
    counts.event(match number {
        NOT_SOUND => Event::BeyondWithUnsound,
        GROWING => Event::BeyondWithGrowing,
        NO_GROWTH_LEFT => Event::BeyondWithLast,
        OUTSIDE_LIMITS => Event::BeyondWithOutside,
        BEYOND_DOUBLING if (bytes as u64) < state.bytes(count) => Event::BeyondBeforeShort,
        BEYOND_DOUBLING if state.pending.record => Event::BeyondBeforeRecord,
        BEYOND_DOUBLING if state.pending.blocks => Event::BeyondBeforeBlocks,
        BEYOND_DOUBLING => Event::BeyondAlone,
        _ => return,
    });
}

/// After an accepted call of a list, before which a growth ran or did not.
pub fn note_made(call: &Call, grew: bool, tally: &Tally, counts: &mut Counts) {
    let history = tally.counts();
    let (growing, last) = (tally.growing(), history.len() - 1);
    let newest = &history[last.saturating_sub(1)..];
    match call {
        Call::Restart if growing && has_beyond(newest) => counts.event(Event::BeyondRestarted),
        Call::Restart if !growing && has_beyond(history) => counts.event(Event::RestartAfterBeyond),
        Call::Grow { .. } if has_beyond(&history[..last]) => counts.event(Event::GrowAfterBeyond),
        Call::Checkpoint | Call::Advance if grew && !growing && has_beyond(newest) => {
            counts.event(Event::BeyondFinished)
        }
        _ => {}
    }
}
