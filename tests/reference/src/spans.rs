//! Two clients on one volume: W10 of document 02.

use crate::refusal::*;
use crate::spot::Block;
use crate::state::State;
use crate::store::{self, sound};

/// Words of a span table at the library's boundary.
pub const SPAN_WORDS: usize = 4;
/// The most that a span's first block and count make together.
pub const REACH: u64 = 16_000_000;

/// A first block and a count. Any numbers may stand here.
#[derive(Clone, Copy, PartialEq, Eq, Debug, Default)]
pub struct Span {
    pub first: u64,
    pub count: u64,
}

impl Span {
    /// First plus count, which may need more than 64 bits.
    pub fn end(&self) -> u128 {
        self.first as u128 + self.count as u128
    }

    pub fn has(&self, x: Block) -> bool {
        x.0 >= self.first && (x.0 as u128) < self.end()
    }

    /// Whether some block is in both.
    pub fn shares(&self, other: &Span) -> bool {
        let first = self.first.max(other.first) as u128;
        first < self.end().min(other.end())
    }
}

/// A span table: the spans of client 0 and of client 1, whether they keep the
/// rule or not.
#[derive(Clone, Copy, PartialEq, Eq, Debug, Default)]
pub struct Spans(pub [Span; 2]);

impl Spans {
    /// The table of zeros.
    pub const ZEROS: Spans = Spans([Span { first: 0, count: 0 }; 2]);

    pub fn from_words(words: &[u64; SPAN_WORDS]) -> Spans {
        let [first, count, other, others] = *words;
        let one = Span {
            first: other,
            count: others,
        };
        Spans([Span { first, count }, one])
    }

    pub fn to_words(&self) -> [u64; SPAN_WORDS] {
        let Spans([zero, one]) = self;
        [zero.first, zero.count, one.first, one.count]
    }

    /// Whether the table keeps the rule on spans.
    pub fn hold(&self) -> bool {
        let Spans([zero, one]) = self;
        self.0.iter().all(|span| span.end() <= REACH as u128) && !zero.shares(one)
    }

    /// The span of a client, if there is such a client.
    pub fn of(&self, client: u64) -> Option<Span> {
        let place = usize::try_from(client).ok()?;
        self.0.get(place).copied()
    }

    /// Whether the client may read and write the block.
    pub fn allow(&self, client: u64, x: Block) -> bool {
        self.hold() && self.of(client).is_some_and(|span| span.has(x))
    }
}

/// Makes a table. Refused, it gives zeros.
pub fn make_spans(spans: Spans) -> Result<Spans, Refusal> {
    spans.hold().then_some(spans).ok_or(OUTSIDE_SPAN)
}

pub fn client_read(
    spans: &Spans,
    client: u64,
    state: &State,
    medium: &[u8],
    x: Block,
    piece: &mut [u8],
) -> Result<(), Refusal> {
    inside(spans, client, state, x)?;
    store::read(state, medium, x, piece)
}

pub fn client_write(
    spans: &Spans,
    client: u64,
    state: &mut State,
    medium: &mut [u8],
    x: Block,
    piece: &[u8],
) -> Result<(), Refusal> {
    inside(spans, client, state, x)?;
    store::write(state, medium, x, piece)
}

/// 1, then 21. Read and write go on with their own checks, of which the first
/// is 1 again.
fn inside(spans: &Spans, client: u64, state: &State, x: Block) -> Result<(), Refusal> {
    sound(state)?;
    spans.allow(client, x).then_some(()).ok_or(OUTSIDE_SPAN)
}
