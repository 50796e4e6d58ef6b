//! The two sides of a test, each with its own copy of all that is lent.

use crate::call::{by_library, by_reference, Call, Lent, FIGURES};
use crate::counts::Counts;
use crate::{clients, doubling, lookups, views};
use reference::spans::SPAN_WORDS;
use reference::state::WORDS;
use std::ops::Range;

/// Bytes or words behind a lent slice that no call may touch.
const GUARD: usize = 8;
const STALE_BYTE: u8 = 0xA5;
const STALE_WORD: u64 = 0xA5A5_A5A5_A5A5_A5A5;

/// Two answers that should be the same.
#[derive(Debug)]
pub struct Difference {
    pub what: &'static str,
    /// Whose the two are.
    pub sides: [&'static str; 2],
    pub library: String,
    pub reference: String,
}

const SIDES: [&str; 2] = ["library", "reference"];

impl Difference {
    pub fn new<T: std::fmt::Debug>(what: &'static str, library: T, reference: T) -> Difference {
        Difference {
            what,
            sides: SIDES,
            library: format!("{library:?}"),
            reference: format!("{reference:?}"),
        }
    }
}

/// An error when the two are not the same.
pub fn same<T: PartialEq + std::fmt::Debug>(
    what: &'static str,
    library: T,
    reference: T,
) -> Result<(), Difference> {
    if library == reference {
        Ok(())
    } else {
        Err(Difference::new(what, library, reference))
    }
}

/// An error that names the first byte that is not the same.
pub fn same_bytes(what: &'static str, library: &[u8], reference: &[u8]) -> Result<(), Difference> {
    if library == reference {
        return Ok(());
    }
    let pairs = library.iter().zip(reference);
    let at = pairs.take_while(|(a, b)| a == b).count();
    let show = |bytes: &[u8]| format!("byte {at} is {:?}", bytes.get(at));
    Err(Difference {
        what,
        sides: SIDES,
        library: show(library),
        reference: show(reference),
    })
}

/// An accepted or refused call's number and figures.
#[derive(Clone, Copy, PartialEq, Eq, Debug)]
pub struct Answer {
    pub number: u64,
    pub figures: [u64; FIGURES],
}

impl Answer {
    pub fn accepted(&self) -> bool {
        self.number == 0
    }
}

#[derive(Clone)]
struct Side {
    state: [u64; WORDS],
    medium: Vec<u8>,
    piece: Vec<u8>,
    figures: [u64; FIGURES + GUARD],
    spans: [u64; SPAN_WORDS + GUARD],
}

impl Side {
    fn new(medium: &[u8]) -> Side {
        Side {
            state: [0; WORDS],
            medium: medium.to_vec(),
            piece: Vec::new(),
            figures: [STALE_WORD; FIGURES + GUARD],
            spans: [STALE_WORD; SPAN_WORDS + GUARD],
        }
    }

    fn make(&mut self, call: &Call, bytes: usize, by: fn(&Call, Lent) -> u64) -> u64 {
        self.figures.fill(STALE_WORD);
        self.piece.clear();
        self.piece.resize(call.piece_bytes() + GUARD, STALE_BYTE);
        call.fill_piece(&mut self.piece);
        self.spans.fill(STALE_WORD);
        let words = call.spans().map(|spans| spans.to_words());
        let spans = &mut self.spans[..words.map_or(0, |words| words.len())];
        spans.copy_from_slice(words.as_ref().map_or(&[], |words| words));
        let lent = Lent {
            state: &mut self.state,
            medium: &mut self.medium[..bytes],
            piece: &mut self.piece[..call.piece_bytes()],
            figures: &mut self.figures[..call.figures()],
            spans,
        };
        by(call, lent)
    }
}

/// Where an accepted call may have changed the medium.
pub enum Changed {
    /// Only here.
    Only(Range<usize>),
    /// Wherever the reference did.
    AsReference,
}

pub struct Pair {
    library: Side,
    reference: Side,
    /// The medium of both sides before the call.
    before: Vec<u8>,
}

impl Pair {
    pub fn new(medium: Vec<u8>) -> Pair {
        Pair {
            library: Side::new(&medium),
            reference: Side::new(&medium),
            before: medium,
        }
    }

    pub fn state(&self) -> &[u64; WORDS] {
        &self.library.state
    }

    pub fn set_state(&mut self, state: &[u64; WORDS]) {
        self.library.state = *state;
        self.reference.state = *state;
    }

    pub fn medium(&self) -> &[u8] {
        &self.before
    }

    /// The piece as it was written or read.
    pub fn piece(&self, call: &Call) -> &[u8] {
        &self.library.piece[..call.piece_bytes()]
    }

    /// Puts bytes into the medium of both sides.
    pub fn put(&mut self, at: usize, bytes: &[u8]) {
        let place = at..at + bytes.len();
        for medium in [
            &mut self.library.medium,
            &mut self.reference.medium,
            &mut self.before,
        ] {
            medium[place.clone()].copy_from_slice(bytes);
        }
    }

    /// Makes a call on both sides with the first `bytes` bytes of the medium
    /// and compares all that it may answer with or touch.
    pub fn run(
        &mut self,
        call: &Call,
        bytes: usize,
        changed: Changed,
        counts: &mut Counts,
    ) -> Result<Answer, Difference> {
        let state = self.library.state;
        let number = self.library.make(call, bytes, by_library);
        let expected = self.reference.make(call, bytes, by_reference);
        let mut answer = Answer {
            number,
            figures: [0; FIGURES],
        };
        let used = call.figures();
        answer.figures[..used].copy_from_slice(&self.library.figures[..used]);
        self.compare(used, number, expected)
            .map_err(|difference| self.with_answers(difference, used, number, expected))?;
        counts.call(call, number, &answer.figures);
        counts.comparisons += 6;
        lookups::note(call, &state, &answer, counts);
        doubling::note(call, &state, bytes, number, counts);
        clients::note(call, &state, &self.before[..bytes], number, counts);
        views::check(call, &state, &self.before, &answer, counts)?;
        let makes_state = matches!(call, Call::Format { .. } | Call::Restart);
        if number != 0 && !makes_state {
            same("the state after a refusal", self.library.state, state)?;
        }
        self.compare_with_before(number == 0, changed)?;
        Ok(answer)
    }

    fn compare(&self, used: usize, number: u64, expected: u64) -> Result<(), Difference> {
        let (library, reference) = (&self.library, &self.reference);
        same("the number", number, expected)?;
        same(
            "the figures",
            &library.figures[..used],
            &reference.figures[..used],
        )?;
        same(
            "the words behind the figures",
            &library.figures[used..],
            &reference.figures[used..],
        )?;
        same("the span table", library.spans, reference.spans)?;
        same("the state", library.state, reference.state)?;
        same_bytes("the piece", &library.piece, &reference.piece)?;
        same_bytes("the medium", &library.medium, &reference.medium)
    }

    /// Adds both answers to a difference.
    fn with_answers(
        &self,
        difference: Difference,
        used: usize,
        number: u64,
        expected: u64,
    ) -> Difference {
        let tell = |what: String, number: u64, side: &Side| {
            let (figures, state) = (&side.figures[..used], &side.state);
            format!("{what}; number {number}, figures {figures:?}, state {state:?}")
        };
        Difference {
            what: difference.what,
            sides: difference.sides,
            library: tell(difference.library, number, &self.library),
            reference: tell(difference.reference, expected, &self.reference),
        }
    }

    /// Checks that nothing else has changed, and keeps the medium as it is.
    fn compare_with_before(&mut self, accepted: bool, changed: Changed) -> Result<(), Difference> {
        let after = &self.library.medium;
        let place = match changed {
            Changed::AsReference if accepted => {
                self.before.copy_from_slice(after);
                return Ok(());
            }
            Changed::Only(place) if accepted => place,
            _ => 0..0,
        };
        let what = "the medium outside the store";
        same_bytes(what, &after[..place.start], &self.before[..place.start])?;
        same_bytes(what, &after[place.end..], &self.before[place.end..])?;
        self.before[place.clone()].copy_from_slice(&after[place]);
        Ok(())
    }
}
