//! Damaged states and records, and slices of wrong lengths.

use crate::call::{by_library, Call, Lent, Piece, FIGURES, KINDS, NO_STATE};
use crate::counts::{Counts, Event};
use crate::pair::{same, Changed, Difference, Pair};
use crate::report::Step;
use crate::{clients, tables, views};
use reference::limits::{DISKS, RECORD};
use reference::record;
use reference::sample::{damage, damaged_record, sound_state, Random};
use reference::spans::SPAN_WORDS;
use reference::state::{State, WORDS};

/// All kinds of calls with sound and damaged states.
pub fn states(
    random: &mut Random,
    log: &mut Vec<Step>,
    counts: &mut Counts,
) -> Result<(), Difference> {
    for _ in 0..40 {
        let rows = random.pick(&[3, 12, 12, 20]);
        let mut state = sound_state(random, rows);
        state.z = state.z.min(1536);
        let room = random.range(state.disks(), DISKS);
        let mut medium = vec![0; state.bytes(room) as usize];
        random.fill(&mut medium);
        medium[..RECORD].copy_from_slice(&record::write(&state));
        let mut pair = Pair::new(medium.clone());
        for round in 0..10 {
            let words = match round {
                0 => state.to_words(),
                _ => damage(random, &state),
            };
            note_state(&words, counts);
            for kind in 0..KINDS.len() {
                let call = call_of(random, kind, &state);
                let mut step = Step::new(call, medium.len());
                step.state = Some(words);
                log.clear();
                log.push(step);
                pair.set_state(&words);
                let bytes = medium.len();
                let answer = pair.run(&call, bytes, Changed::AsReference, counts)?;
                if answer.accepted() {
                    pair.put(0, &medium);
                }
            }
        }
    }
    Ok(())
}

fn note_state(words: &[u64; WORDS], counts: &mut Counts) {
    counts.event(match State::from_words(words) {
        None => Event::NoState,
        Some(state) if state.sound() => Event::StillSound,
        Some(_) => Event::UnsoundStates,
    });
    if words[15] == 3 {
        counts.event(Event::BothPending);
    }
    if words[..13].iter().any(|&word| word > 1_000_000) {
        counts.event(Event::WordsOutOfRange);
    }
}

/// A call of this kind with arguments that fit the sound state, mostly.
fn call_of(random: &mut Random, kind: usize, state: &State) -> Call {
    let open = state.open();
    let block = match random.percent(90) {
        true => random.below(open),
        false => random.odd_number(open),
    };
    let bytes = state.z as usize - random.percent(5) as usize;
    // From the count there is, or from twice that.
    let count = state.disks() * random.range(1, 2) + random.below(3);
    match kind {
        0 => Call::Format {
            z: random.pick(&[512, 1024, 513, u64::MAX]),
            s: random.odd_number(state.s),
            disks: random.odd_number(16),
        },
        1 => Call::Restart,
        2 => Call::Grow { count },
        3 => Call::GrowBeyondDoubling { count },
        4 => Call::Copy { block },
        5 => Call::Checkpoint,
        6 => Call::Advance,
        7 => {
            let seed = random.word();
            let piece = Piece { seed, bytes };
            Call::Write { block, piece }
        }
        8 => Call::Read { block, bytes },
        9 => Call::Address { block },
        10 => Call::Holder {
            disk: random.below(state.disks() + 1),
            row: random.below(state.s + 1),
        },
        11 => Call::Soundness,
        12 => Call::Flushed,
        13 => views::any(random, state, block),
        14 => tables::any(random),
        _ => clients::call_of(random, kind - 15, open, block, bytes),
    }
}

/// Restarts from damaged records, and from media cut short.
pub fn records(
    random: &mut Random,
    log: &mut Vec<Step>,
    counts: &mut Counts,
) -> Result<(), Difference> {
    for _ in 0..100 {
        let mut state = sound_state(random, 5);
        state.z = 512;
        let whole = state.bytes(state.disks()) as usize;
        let mut pair = Pair::new(vec![0; whole]);
        for _ in 0..20 {
            let bytes = damaged_record(random, &state);
            pair.put(0, &bytes);
            let lent = random.pick(&[whole, whole, whole, whole - 1, 512, 511, 0]);
            log.clear();
            log.push(Step::new(Call::Restart, lent));
            let found = restart(&mut pair, lent, counts)?;
            counts.event(if found {
                Event::GoodRecords
            } else {
                Event::BadRecords
            });
        }
    }
    Ok(())
}

/// Restarts with garbage for a state; tells whether it was accepted.
fn restart(pair: &mut Pair, bytes: usize, counts: &mut Counts) -> Result<bool, Difference> {
    pair.set_state(&[7; WORDS]);
    match pair.run(&Call::Restart, bytes, Changed::Only(0..0), counts) {
        Ok(answer) => Ok(answer.accepted()),
        Err(mut difference) => {
            let record = String::from_utf8_lossy(&pair.medium()[..RECORD]);
            difference.reference += &format!("\nrecord:    {record:?}");
            Err(difference)
        }
    }
}

/// Restarts from every one-byte change of one of three records: a fresh
/// volume, a growth under way, a volume after seven growths.
pub fn one_byte(
    random: &mut Random,
    which: u64,
    log: &mut Vec<Step>,
    counts: &mut Counts,
) -> Result<(), Difference> {
    let state = loop {
        let state = sound_state(random, 12);
        let fits = match which {
            0 => state.t == 0,
            1 => state.recorded != 0 && state.w > 0,
            _ => state.t == 7 && state.growing == 0,
        };
        if fits && state.z == 512 {
            break state;
        }
    };
    let record = record::write(&state);
    let mut pair = Pair::new(vec![0; state.bytes(state.disks()) as usize]);
    pair.put(0, &record);
    let whole = pair.medium().len();
    log.push(Step::new(Call::Restart, whole));
    for at in 0..RECORD {
        for change in 1..=255 {
            pair.put(at, &[record[at] ^ change]);
            let found = restart(&mut pair, whole, counts)?;
            counts.event(if found {
                Event::ByteAccepted
            } else {
                Event::ByteRefused
            });
        }
        pair.put(at, &record[at..=at]);
    }
    Ok(())
}

/// Every call with slices of wrong lengths: 100, and nothing is touched.
pub fn lengths(
    random: &mut Random,
    log: &mut Vec<Step>,
    counts: &mut Counts,
) -> Result<(), Difference> {
    for _ in 0..20 {
        let mut state = sound_state(random, 5);
        state.z = 512;
        let mut medium = vec![0; state.bytes(state.disks()) as usize];
        random.fill(&mut medium);
        medium[..RECORD].copy_from_slice(&record::write(&state));
        let lent = random.pick(&[medium.len(), 511]);
        let medium = &mut medium[..lent];
        for kind in 0..KINDS.len() {
            let call = call_of(random, kind, &state);
            log.clear();
            log.push(Step::new(call, lent));
            let right = Lengths {
                state: WORDS,
                figures: call.figures(),
                spans: call.spans().map_or(0, |_| SPAN_WORDS),
            };
            for (lengths, event) in right.wrong_ones(call.takes_state()) {
                wrong_length(&call, &state, lengths, medium, counts)?;
                counts.event(event);
            }
        }
    }
    Ok(())
}

/// How many words of each are lent.
#[derive(Clone, Copy)]
struct Lengths {
    state: usize,
    figures: usize,
    spans: usize,
}

impl Lengths {
    /// These lengths with one of them wrong. A call that is lent no state, no
    /// figures or no table has no wrong length of it.
    fn wrong_ones(self, takes_state: bool) -> Vec<(Lengths, Event)> {
        let wrong = |right: usize| match right {
            0 => Vec::new(),
            _ => vec![0, right - 1, right + 1],
        };
        let mut all = Vec::new();
        for state in wrong(self.state).into_iter().filter(|_| takes_state) {
            all.push((Lengths { state, ..self }, Event::WrongState));
        }
        for figures in wrong(self.figures) {
            all.push((Lengths { figures, ..self }, Event::WrongFigures));
        }
        for spans in wrong(self.spans) {
            all.push((Lengths { spans, ..self }, Event::WrongSpans));
        }
        all
    }
}

fn wrong_length(
    call: &Call,
    state: &State,
    lengths: Lengths,
    medium: &mut [u8],
    counts: &mut Counts,
) -> Result<(), Difference> {
    let mut lent_state = [3; WORDS + 1];
    lent_state[..WORDS].copy_from_slice(&state.to_words());
    let mut lent_figures = [9; FIGURES + 1];
    let mut lent_spans = [8; SPAN_WORDS + 1];
    if let Some(spans) = call.spans() {
        lent_spans[..SPAN_WORDS].copy_from_slice(&spans.to_words());
    }
    let mut piece = vec![5; call.piece_bytes()];
    let words = (lent_state, lent_figures, lent_spans);
    let before = (words, piece.clone(), medium.to_vec());
    let lent = Lent {
        state: &mut lent_state[..lengths.state],
        medium: &mut *medium,
        piece: &mut piece,
        figures: &mut lent_figures[..lengths.figures],
        spans: &mut lent_spans[..lengths.spans],
    };
    let number = by_library(call, lent);
    counts.call(call, number, &[0; FIGURES]);
    counts.comparisons += 6;
    same("the number for a wrong length", number, NO_STATE)?;
    let words = (lent_state, lent_figures, lent_spans);
    let after = (words, piece, medium.to_vec());
    same("what a wrong length left", after, before)
}
