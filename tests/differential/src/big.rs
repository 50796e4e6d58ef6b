//! Calls on a medium of gigabytes, of which only few pages are ever touched.

use crate::call::{by_library, by_reference, By, Call, Lent, Piece, FIGURES};
use crate::counts::{Counts, Event};
use crate::pair::{same, Answer, Difference};
use crate::report::Step;
use crate::views;
use reference::limits::{DISKS, RECORD, ROWS, SECTOR};
use reference::sample::Random;
use reference::spans::{Span, Spans, REACH};
use reference::spot::Block;
use reference::state::{State, WORDS};
use std::alloc::{alloc_zeroed, Layout};
use std::ops::Range;

/// What a call answered, and the bytes of its store after it.
type Outcome = (u64, [u64; WORDS], [u64; FIGURES], Vec<u8>, Vec<u8>);

/// Calls near the end of a growth of the largest volume with small blocks.
pub fn run(
    random: &mut Random,
    log: &mut Vec<Step>,
    counts: &mut Counts,
) -> Result<(), Difference> {
    let (mut state, mut medium) = last_windows(ROWS - random.below(10));
    while state.growing == 1 {
        let block = random.below(state.open());
        let moves = state.growth().moves(state.w);
        let moving = random.pick(&moves).block.0;
        let piece = Piece {
            seed: random.word(),
            bytes: SECTOR as usize,
        };
        let view = views::any(random, &state, moving);
        let by = split_at(moving, random.below(2));
        for call in round(block, moving, piece, view, by) {
            let mut step = Step::new(call, medium.len());
            step.state = Some(state.to_words());
            log.clear();
            log.push(step);
            let (next, answer) = both(&call, &state, &mut medium)?;
            views::check(&call, &state.to_words(), &medium, &answer, counts)?;
            state = next;
            counts.event(Event::BigMedium);
            counts.comparisons += 5;
        }
    }
    Ok(())
}

/// One of two clients; the first span ends before this block, and the second has
/// all blocks from it on.
fn split_at(block: u64, client: u64) -> By {
    let spans = [(0, block), (block, REACH)].map(|(first, end)| Span {
        first,
        count: end - first,
    });
    By {
        spans: Spans(spans),
        client,
    }
}

/// Calls on any block and on a moving one. The first advance finds block stores
/// pending, the last write may find a record store pending.
fn round(block: u64, moving: u64, piece: Piece, view: Call, by: By) -> [Call; 12] {
    let bytes = piece.bytes;
    let save = |block| Call::Write { block, piece };
    let read = Call::Read {
        block: moving,
        bytes,
    };
    let client_read = Call::ClientRead {
        by,
        block: moving,
        bytes,
    };
    let client_write = Call::ClientWrite {
        by,
        block: moving,
        piece,
    };
    let copy = Call::Copy { block: moving };
    let (advance, flushed) = (Call::Advance, Call::Flushed);
    [
        save(block),
        save(moving),
        read,
        client_read,
        client_write,
        view,
        copy,
        advance,
        flushed,
        advance,
        save(block),
        flushed,
    ]
}

/// A state with two windows to go, and its medium; fewer rows if they do not
/// fit the machine.
fn last_windows(rows: u64) -> (State, Vec<u8>) {
    let mut state = State::ZEROS;
    (state.z, state.s, state.t) = (SECTOR, rows, 2);
    state.counts[..3].copy_from_slice(&[3, 7, DISKS]);
    state.growing = 1;
    state.w = state.growth().windows() - 2;
    match zeros(state.bytes(DISKS) as usize) {
        Some(medium) => (state, medium),
        None => last_windows(rows / 2),
    }
}

/// Zeros that take no memory until they are touched; `None` if the machine
/// does not lend that many.
fn zeros(bytes: usize) -> Option<Vec<u8>> {
    let layout = Layout::array::<u8>(bytes).ok()?;
    let start = unsafe { alloc_zeroed(layout) };
    // The allocation is of exactly these bytes, and all of them are zeros.
    (!start.is_null()).then(|| unsafe { Vec::from_raw_parts(start, bytes, bytes) })
}

/// Makes the call with the library, takes its store back, makes it with the
/// reference, and gives the next state and the answer.
fn both(call: &Call, state: &State, medium: &mut [u8]) -> Result<(State, Answer), Difference> {
    let places = [0..RECORD, spot_of(call, state)];
    let before = places.clone().map(|place| medium[place].to_vec());
    let library = make(call, state, medium, &places, by_library);
    for (place, bytes) in places.iter().zip(&before) {
        medium[place.clone()].copy_from_slice(bytes);
    }
    let reference = make(call, state, medium, &places, by_reference);
    let next = State::from_words(&reference.1).expect("a state");
    let answer = Answer {
        number: library.0,
        figures: library.2,
    };
    same("a call on a big medium", library, reference)?;
    Ok((next, answer))
}

/// The spot that the call may store to.
fn spot_of(call: &Call, state: &State) -> Range<usize> {
    if state.growing == 0 {
        return 0..0;
    }
    let growth = state.growth();
    let spot = match *call {
        Call::Write { block, .. } | Call::ClientWrite { block, .. } => {
            Some(state.live(Block(block)).spot)
        }
        Call::Copy { block } => growth.move_of(Block(block)).map(|step| step.new),
        _ => {
            let mut moves = growth.moves(state.w).into_iter();
            let next = moves.find(|step| state.copied >> step.mark & 1 == 0);
            next.map(|step| step.new)
        }
    };
    spot.map_or(0..0, |spot| state.bytes_of(spot))
}

fn make(
    call: &Call,
    state: &State,
    medium: &mut [u8],
    places: &[Range<usize>; 2],
    by: fn(&Call, Lent) -> u64,
) -> Outcome {
    let mut words = state.to_words();
    let mut figures = [0; FIGURES];
    let mut piece = vec![0; call.piece_bytes()];
    call.fill_piece(&mut piece);
    let mut spans = call.spans().map(|spans| spans.to_words());
    let lent = Lent {
        state: &mut words,
        medium,
        piece: &mut piece,
        figures: &mut figures[..call.figures()],
        spans: spans.as_mut().map_or(&mut [], |words| words),
    };
    let number = by(call, lent);
    let mut stored = Vec::new();
    for place in places {
        stored.extend_from_slice(&medium[place.clone()]);
    }
    (number, words, figures, piece, stored)
}
