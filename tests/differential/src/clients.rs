//! Span tables and the calls of two clients: which are made, all small tables,
//! and what happened with them.

use crate::call::{By, Call, Piece};
use crate::counts::{Counts, Event};
use crate::pair::{Changed, Difference, Pair};
use crate::report::Step;
use reference::refusal::*;
use reference::sample::{any_client, any_spans, at_rest, good_spans, Random};
use reference::spans::{Span, Spans, REACH};
use reference::spot::Block;
use reference::state::{State, WORDS};
use reference::store::{may_read, may_write};

/// A client and a table for a call on this block, in a volume of about so many:
/// more often than not the block is the client's.
pub fn any(random: &mut Random, blocks: u64, block: u64) -> By {
    let spans = match random.below(10) {
        0..=1 => any_spans(random, blocks),
        2..=3 => ending_at(random, block.min(REACH - 1)),
        _ => good_spans(random, blocks),
    };
    let own = (0..2).find(|&client| spans.allow(client, Block(block)));
    let client = match (random.below(10), own) {
        (0, _) | (_, None) => any_client(random),
        (1, Some(own)) => 1 - own,
        (_, Some(own)) => own,
    };
    By { spans, client }
}

/// A call of this kind, by its place after those that are not of clients.
pub fn call_of(random: &mut Random, kind: usize, blocks: u64, block: u64, bytes: usize) -> Call {
    let by = any(random, blocks, block);
    match kind {
        0 => Call::Spans {
            spans: any_spans(random, blocks),
        },
        1 => Call::ClientRead { by, block, bytes },
        _ => {
            let seed = random.word();
            let piece = Piece { seed, bytes };
            Call::ClientWrite { by, block, piece }
        }
    }
}

/// Spans that meet before this block or behind it.
fn ending_at(random: &mut Random, block: u64) -> Spans {
    let end = block + random.below(2);
    let few = random.below(4);
    let mut spans = [
        Span {
            first: end - few.min(end),
            count: few.min(end),
        },
        Span {
            first: end,
            count: random.range(1, 3).min(REACH - end),
        },
    ];
    if random.percent(50) {
        spans.swap(0, 1);
    }
    Spans(spans)
}

/// Tables of numbers at the limits; and on a volume of four blocks all small
/// tables with the calls of three clients.
pub fn sweep(
    random: &mut Random,
    log: &mut Vec<Step>,
    counts: &mut Counts,
) -> Result<(), Difference> {
    let mut pair = Pair::new(Vec::new());
    let most = u64::MAX;
    let limits = [
        0,
        1,
        2,
        REACH - 1,
        REACH,
        REACH + 1,
        1 << 32,
        most - 1,
        most,
    ];
    for words in tables_of(&limits) {
        let spans = Spans::from_words(&words);
        look(&mut pair, Call::Spans { spans }, log, counts)?;
    }
    let state = at_rest(&[2], 2);
    let mut medium = vec![0; state.bytes(2) as usize];
    random.fill(&mut medium);
    let mut pair = Pair::new(medium);
    for words in tables_of(&[0, 1, 2, 3, 4, 5]) {
        for call in calls_with(random, Spans::from_words(&words)) {
            pair.set_state(&state.to_words());
            look(&mut pair, call, log, counts)?;
        }
    }
    Ok(())
}

/// The table made, and each call of three clients on each of six blocks.
fn calls_with(random: &mut Random, spans: Spans) -> Vec<Call> {
    let mut calls = vec![Call::Spans { spans }];
    for (client, block) in (0..3).flat_map(|it| (0..6).map(move |block| (it, block))) {
        let (by, bytes) = (By { spans, client }, 512);
        let seed = random.word();
        let piece = Piece { seed, bytes };
        calls.push(Call::ClientRead { by, block, bytes });
        calls.push(Call::ClientWrite { by, block, piece });
    }
    calls
}

/// All words of a table out of these numbers.
fn tables_of(numbers: &[u64]) -> Vec<[u64; 4]> {
    let count = numbers.len();
    let at = |i: usize| numbers[i % count];
    (0..count.pow(4))
        .map(|i| [i, i / count, i / count.pow(2), i / count.pow(3)].map(at))
        .collect()
}

fn look(
    pair: &mut Pair,
    call: Call,
    log: &mut Vec<Step>,
    counts: &mut Counts,
) -> Result<(), Difference> {
    let bytes = pair.medium().len();
    log.clear();
    log.push(Step::new(call, bytes));
    pair.run(&call, bytes, Changed::AsReference, counts)?;
    Ok(())
}

/// After a call on spans, with this state and these bytes of a medium lent.
pub fn note(call: &Call, words: &[u64; WORDS], medium: &[u8], number: u64, counts: &mut Counts) {
    if let Call::Spans { spans } = call {
        note_table(spans, number, counts);
    }
    let Some(state) = State::from_words(words) else {
        return;
    };
    let growing = state.growing == 1;
    match *call {
        Call::ClientRead { by, block, bytes } => {
            let next = may_read(&state, medium, Block(block), bytes);
            READ.note(&by, block, number, next, counts);
        }
        Call::ClientWrite { by, block, piece } => {
            let next = may_write(&state, medium, Block(block), piece.bytes);
            WRITE.note(&by, block, number, next, counts);
            if number == 0 && growing {
                counts.event(Event::InsideInGrowth);
            }
        }
        _ => {}
    }
}

/// The events of a client's call.
struct Events {
    clients: [Event; 2],
    first: Event,
    last: Event,
    unsound: Event,
    /// Refused with 21, by the number that would come without it.
    outside: &'static [(Refusal, Event)],
}

const READ: Events = Events {
    clients: [Event::ReadByZero, Event::ReadByOne],
    first: Event::ReadFirst,
    last: Event::ReadLast,
    unsound: Event::ReadUnsoundOutside,
    outside: &[
        (0, Event::ReadOutside),
        (MEDIUM_SHORT, Event::ReadOutsideShort),
        (NOT_OPEN, Event::ReadOutsideClosed),
        (PIECE_LENGTH, Event::ReadOutsidePiece),
    ],
};

const WRITE: Events = Events {
    clients: [Event::WriteByZero, Event::WriteByOne],
    first: Event::WriteFirst,
    last: Event::WriteLast,
    unsound: Event::WriteUnsoundOutside,
    outside: &[
        (0, Event::WriteOutside),
        (MEDIUM_SHORT, Event::WriteOutsideShort),
        (NOT_OPEN, Event::WriteOutsideClosed),
        (PIECE_LENGTH, Event::WriteOutsidePiece),
        (UNRECORDED, Event::WriteOutsideUnrecorded),
        (RECORD_PENDING, Event::WriteOutsideWaiting),
    ],
};

impl Events {
    /// `next` is what the volume's own call would answer.
    fn note(
        &self,
        by: &By,
        block: u64,
        number: u64,
        next: Result<(), Refusal>,
        counts: &mut Counts,
    ) {
        match number {
            0 => self.note_accepted(by, block, counts),
            NOT_SOUND if !by.may(block) => counts.event(self.unsound),
            OUTSIDE_SPAN => {
                let next = next.err().unwrap_or(0);
                let found = self.outside.iter().find(|(number, _)| *number == next);
                counts.event(found.expect("a refusal after 21").1);
                note_reason(by, block, counts);
            }
            _ => {}
        }
    }

    fn note_accepted(&self, by: &By, block: u64, counts: &mut Counts) {
        let span = by.spans.0[by.client as usize];
        counts.event(self.clients[by.client as usize]);
        if block == span.first {
            counts.event(self.first);
        }
        if block + 1 == span.first + span.count {
            counts.event(self.last);
        }
    }
}

/// Counts why a call was refused with 21.
fn note_reason(by: &By, block: u64, counts: &mut Counts) {
    let Spans([zero, one]) = by.spans;
    let beyond = |limit: u64| zero.end().max(one.end()) > limit as u128;
    if beyond(u64::MAX) {
        return counts.event(Event::OutsideWrapped);
    }
    if beyond(REACH) {
        return counts.event(Event::OutsideFar);
    }
    if zero.shares(&one) {
        return counts.event(Event::OutsideShared);
    }
    let (span, other) = match by.client {
        0 => (zero, one),
        1 => (one, zero),
        2 => return counts.event(Event::OutsideTwo),
        client if client > u32::MAX as u64 => return counts.event(Event::OutsideHuge),
        _ => return,
    };
    if span.count == 0 {
        return counts.event(Event::OutsideEmpty);
    }
    counts.event(match other.has(Block(block)) {
        true => Event::OutsideOther,
        false => Event::OutsideNobody,
    });
    if block.checked_add(1) == Some(span.first) {
        counts.event(Event::OutsideBefore);
    }
    if block == span.first + span.count {
        counts.event(Event::OutsideAfter);
    }
}

/// Counts a table by what is made of it.
fn note_table(spans: &Spans, number: u64, counts: &mut Counts) {
    let Spans([zero, one]) = spans;
    for (a, b) in [(zero, one), (one, zero)] {
        let event = match number {
            0 => made(a, b),
            _ => refused(a, b),
        };
        if let Some(event) = event {
            counts.event(event);
        }
    }
}

/// The event of a table that was made.
fn made(a: &Span, b: &Span) -> Option<Event> {
    let reach = REACH as u128;
    Some(match (a.count, b.count) {
        _ if a.first == REACH => Event::SpansFromReach,
        (1.., _) if a.end() == reach => Event::SpansToReach,
        (0, 0) if a.first + b.first == 0 => Event::SpansZeros,
        (0, 1..) if b.first < a.first && b.has(Block(a.first)) => Event::SpansEmptyInside,
        (1.., 1..) if a.end() == b.first as u128 => Event::SpansTouching,
        (1.., 1..) if a.end() < b.first as u128 => Event::SpansApart,
        _ => return None,
    })
}

/// The event of a table that was refused.
fn refused(a: &Span, b: &Span) -> Option<Event> {
    let reach = REACH as u128;
    if a.end() > u64::MAX as u128 {
        return Some(Event::SpansWrapped);
    }
    if a.first > REACH && a.count == 0 && b.end() <= reach {
        return Some(Event::SpansFarFirst);
    }
    if a.end() == reach + 1 && b.end() <= reach && !a.shares(b) {
        return Some(Event::SpansOneTooFar);
    }
    if a.end().max(b.end()) > reach {
        return None;
    }
    Some(match (a.first.cmp(&b.first), a.end().cmp(&b.end())) {
        _ if a == b => Event::SpansEqual,
        (std::cmp::Ordering::Less, std::cmp::Ordering::Greater) => Event::SpansInside,
        _ if a.end() == b.first as u128 + 1 => Event::SpansOneShared,
        _ => return None,
    })
}
