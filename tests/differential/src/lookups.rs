//! Addresses, holders and views: all of them in small volumes, some in the largest.

use crate::call::{Call, MOVES};
use crate::counts::{Counts, Event};
use crate::pair::{Answer, Changed, Difference, Pair};
use crate::report::Step;
use crate::views;
use reference::sample::{sound_state, Random};
use reference::spot::Block;
use reference::state::{marked, Pending, State, WORDS};
use std::cmp::Ordering;

/// Looks up every block and spot at every stage of a growth.
pub fn sweep(
    random: &mut Random,
    log: &mut Vec<Step>,
    counts: &mut Counts,
) -> Result<(), Difference> {
    let mut state = loop {
        let state = sound_state(random, 14);
        if state.growing == 1 {
            break state;
        }
    };
    state.z = 512;
    (state.w, state.recorded, state.copied) = (0, 0, 0);
    state.pending = Pending::NOTHING;
    let mut pair = Pair::new(vec![0; state.bytes(state.disks()) as usize]);
    pair.set_state(&state.to_words());
    let mut lookups = Pair::new(Vec::new());
    loop {
        let state = State::from_words(pair.state()).expect("a state");
        look_at_all(random, &mut lookups, &state, log, counts)?;
        if state.growing == 0 {
            return Ok(());
        }
        let call = match random.below(5) {
            0 => Call::Checkpoint,
            1 => Call::Copy {
                block: random.below(state.open()),
            },
            _ => Call::Advance,
        };
        let bytes = pair.medium().len();
        for call in [call, Call::Flushed] {
            pair.run(&call, bytes, Changed::AsReference, counts)?;
        }
    }
}

fn look_at_all(
    random: &mut Random,
    pair: &mut Pair,
    state: &State,
    log: &mut Vec<Step>,
    counts: &mut Counts,
) -> Result<(), Difference> {
    let (disks, s) = (state.disks(), state.s);
    for block in (0..=disks * s).chain([u64::MAX, 1 << 63]) {
        look(pair, state, Call::Address { block }, log, counts)?;
        let view = views::any(random, state, block);
        look(pair, state, view, log, counts)?;
    }
    for disk in (0..=disks).chain([u64::MAX]) {
        for row in (0..=s).chain([u64::MAX]) {
            look(pair, state, Call::Holder { disk, row }, log, counts)?;
        }
    }
    counts.event(Event::SweptStages);
    Ok(())
}

/// One lookup; it needs no medium.
fn look(
    pair: &mut Pair,
    state: &State,
    call: Call,
    log: &mut Vec<Step>,
    counts: &mut Counts,
) -> Result<(), Difference> {
    let mut step = Step::new(call, 0);
    step.state = Some(state.to_words());
    log.clear();
    log.push(step);
    pair.set_state(&state.to_words());
    pair.run(&call, 0, Changed::Only(0..0), counts)?;
    Ok(())
}

/// Lookups in volumes of about a million rows, and the calls that refuse a
/// medium too short for them.
pub fn big(
    random: &mut Random,
    log: &mut Vec<Step>,
    counts: &mut Counts,
) -> Result<(), Difference> {
    let mut pair = Pair::new(vec![0; 512]);
    for _ in 0..20 {
        let mut state = sound_state(random, 1_000_000);
        if state.growing == 0 && random.percent(50) {
            state.s = 1_000_000;
        }
        for _ in 0..50 {
            let any = random.odd_number(state.open());
            let inside = random.below(state.open());
            let block = random.pick(&[inside, inside, inside, any]);
            look(&mut pair, &state, Call::Address { block }, log, counts)?;
            let view = views::any(random, &state, block);
            look(&mut pair, &state, view, log, counts)?;
            let disk = random.below(state.disks() + 1);
            let row = random.pick(&[state.s, 0, state.s - 1, inside % state.s]);
            look(&mut pair, &state, Call::Holder { disk, row }, log, counts)?;
            counts.event(Event::BigLookups);
        }
        refused_calls(&mut pair, &state, counts)?;
    }
    Ok(())
}

/// The calls that need more of a medium than its record, the grows with a count
/// up to twice the disks and with one above it.
fn refused_calls(pair: &mut Pair, state: &State, counts: &mut Counts) -> Result<(), Difference> {
    let mut calls = vec![Call::Advance, Call::Checkpoint];
    for count in [state.disks() + 1, 2 * state.disks() + 1] {
        calls.extend([Call::Grow { count }, Call::GrowBeyondDoubling { count }]);
    }
    for call in calls {
        pair.set_state(&state.to_words());
        pair.run(&call, 512, Changed::AsReference, counts)?;
    }
    Ok(())
}

/// After an accepted address: counts by how many growths its block was moved,
/// and whether one under way is among them.
pub fn note(call: &Call, words: &[u64; WORDS], answer: &Answer, counts: &mut Counts) {
    let (&Call::Address { block }, true) = (call, answer.accepted()) else {
        return;
    };
    counts.event(match answer.figures[MOVES] {
        0 => Event::NeverMoved,
        1 => Event::MovedOnce,
        2 => Event::MovedTwice,
        _ => Event::MovedOften,
    });
    let state = State::from_words(words).expect("a state");
    if state.growing == 1 {
        note_under_way(&state, Block(block), counts);
    }
}

/// Counts whether the growth under way has moved the block, or only copied it.
fn note_under_way(state: &State, x: Block, counts: &mut Counts) {
    let Some(step) = state.growth().move_of(x) else {
        return;
    };
    let is_set = |marks| marked(marks, step.mark);
    match step.window.cmp(&state.w) {
        Ordering::Less => counts.event(Event::WindowCounted),
        Ordering::Equal if is_set(state.recorded) => counts.event(Event::MarkCounted),
        Ordering::Equal if is_set(state.copied) => counts.event(Event::CopyNotCounted),
        _ => {}
    }
}
