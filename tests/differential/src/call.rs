//! A call's arguments, and how each side makes the call.

use crate::library;
use reference::refusal::{Refusal, NOT_SOUND};
use reference::sample::Random;
use reference::spans::{client_read, client_write, make_spans, Spans, SPAN_WORDS};
use reference::spot::{Block, Part, Place, Row, Why};
use reference::state::State;
use reference::store::{Advanced, Next};
use reference::table::{entries, table_move, Entry};
use reference::view::{view, Shelf, Shelves};
use reference::{lookup, store};
use std::sync::LazyLock;

/// A call's arguments other than state and medium.
#[derive(Clone, Copy, PartialEq, Eq, Debug)]
pub enum Call {
    Format { z: u64, s: u64, disks: u64 },
    Restart,
    Grow { count: u64 },
    GrowBeyondDoubling { count: u64 },
    Copy { block: u64 },
    Checkpoint,
    Advance,
    Write { block: u64, piece: Piece },
    Read { block: u64, bytes: usize },
    Address { block: u64 },
    Holder { disk: u64, row: u64 },
    Soundness,
    Flushed,
    View { block: u64, shelves: Shelves },
    TableMove { m: u64, n: u64, mark: u64 },
    Spans { spans: Spans },
    ClientRead { by: By, block: u64, bytes: usize },
    ClientWrite { by: By, block: u64, piece: Piece },
}

/// A client's number, and the span table that it is lent with.
#[derive(Clone, Copy, PartialEq, Eq, Debug)]
pub struct By {
    pub spans: Spans,
    pub client: u64,
}

impl By {
    pub fn may(&self, block: u64) -> bool {
        self.spans.allow(self.client, Block(block))
    }
}

/// The names of the calls, in the order of `Call::kind`.
pub const KINDS: [&str; 18] = [
    "format",
    "restart",
    "grow",
    "grow_beyond_doubling",
    "copy",
    "checkpoint",
    "advance",
    "write",
    "read",
    "address",
    "holder",
    "soundness",
    "flushed",
    "view",
    "table_move",
    "spans",
    "client_read",
    "client_write",
];

/// A piece to write: random bytes from a seed.
#[derive(Clone, Copy, PartialEq, Eq, Debug)]
pub struct Piece {
    pub seed: u64,
    pub bytes: usize,
}

/// The boundary's own refusal: a wrong length, or words that are no state.
pub const NO_STATE: u64 = 100;
/// Most figures of a call.
pub const FIGURES: usize = 6;
/// The figure of address that tells by how many growths the block was moved.
pub const MOVES: usize = 5;

impl Call {
    pub fn kind(&self) -> usize {
        match self {
            Call::Format { .. } => 0,
            Call::Restart => 1,
            Call::Grow { .. } => 2,
            Call::GrowBeyondDoubling { .. } => 3,
            Call::Copy { .. } => 4,
            Call::Checkpoint => 5,
            Call::Advance => 6,
            Call::Write { .. } => 7,
            Call::Read { .. } => 8,
            Call::Address { .. } => 9,
            Call::Holder { .. } => 10,
            Call::Soundness => 11,
            Call::Flushed => 12,
            Call::View { .. } => 13,
            Call::TableMove { .. } => 14,
            Call::Spans { .. } => 15,
            Call::ClientRead { .. } => 16,
            Call::ClientWrite { .. } => 17,
        }
    }

    /// How many figures the call answers with.
    pub fn figures(&self) -> usize {
        [0, 1, 1, 1, 1, 1, 4, 0, 0, 6, 1, 0, 0, 2, 2, 0, 0, 0][self.kind()]
    }

    /// Bytes of the piece.
    pub fn piece_bytes(&self) -> usize {
        match self {
            Call::Write { piece, .. } | Call::ClientWrite { piece, .. } => piece.bytes,
            Call::Read { bytes, .. } | Call::ClientRead { bytes, .. } => *bytes,
            _ => 0,
        }
    }

    /// Puts a piece to write into `bytes`.
    pub fn fill_piece(&self, bytes: &mut [u8]) {
        if let Call::Write { piece, .. } | Call::ClientWrite { piece, .. } = self {
            Random::new(piece.seed).fill(&mut bytes[..piece.bytes]);
        }
    }

    /// The span table that the call is lent, if it is lent one.
    pub fn spans(&self) -> Option<Spans> {
        match *self {
            Call::Spans { spans } => Some(spans),
            Call::ClientRead { by, .. } | Call::ClientWrite { by, .. } => Some(by.spans),
            _ => None,
        }
    }

    /// Whether the call is lent a state.
    pub fn takes_state(&self) -> bool {
        !matches!(self, Call::TableMove { .. } | Call::Spans { .. })
    }

    /// Whether the call reads the state it is lent.
    pub fn reads_state(&self) -> bool {
        self.takes_state() && !matches!(self, Call::Format { .. } | Call::Restart)
    }

    /// Whether an accepted call reports the advance calls left.
    pub fn reports(&self) -> bool {
        matches!(self.kind(), 1..=6)
    }
}

/// What is lent to a call.
pub struct Lent<'a> {
    pub state: &'a mut [u64],
    pub medium: &'a mut [u8],
    pub piece: &'a mut [u8],
    pub figures: &'a mut [u64],
    /// The words of a span table; none where the call is lent no table.
    pub spans: &'a mut [u64],
}

/// Makes the call with the library.
pub fn by_library(call: &Call, lent: Lent) -> u64 {
    let (state, medium, figures) = (lent.state, lent.medium, lent.figures);
    match *call {
        Call::Format { z, s, disks } => library::format(state, medium, z, s, disks),
        Call::Restart => library::restart(state, medium, figures),
        Call::Grow { count } => library::grow(state, medium, count, figures),
        Call::GrowBeyondDoubling { count } => {
            library::grow_beyond_doubling(state, medium, count, figures)
        }
        Call::Copy { block } => library::copy(state, medium, block, figures),
        Call::Checkpoint => library::checkpoint(state, medium, figures),
        Call::Advance => library::advance(state, medium, figures),
        Call::Write { block, .. } => library::write(state, medium, block, lent.piece),
        Call::Read { block, .. } => library::read(state, medium, block, lent.piece),
        Call::Address { block } => library::address(state, block, figures),
        Call::Holder { disk, row } => library::holder(state, disk, row, figures),
        Call::Soundness => library::soundness(state),
        Call::Flushed => library::flushed(state),
        Call::View { block, shelves } => {
            let (first, second) = (shelves.first as usize, shelves.second as usize);
            library::view(state, first, second, shelves.k, block, figures)
        }
        Call::TableMove { m, n, mark } => library::table_move(m, n, mark, figures),
        Call::Spans { .. } => library::spans(lent.spans),
        Call::ClientRead { by, block, .. } => {
            library::client_read(lent.spans, by.client, state, medium, block, lent.piece)
        }
        Call::ClientWrite { by, block, .. } => {
            library::client_write(lent.spans, by.client, state, medium, block, lent.piece)
        }
    }
}

/// Makes the call with the reference, in the shape of the boundary. Words that
/// are no state are refused there, with nothing touched.
pub fn by_reference(call: &Call, lent: Lent) -> u64 {
    let words = (&*lent.state).try_into().expect("as many words as a state");
    let state = match State::from_words(words) {
        Some(state) => state,
        None if call.reads_state() => return NO_STATE,
        None => State::ZEROS,
    };
    lent.figures.fill(0);
    let answer = match call {
        Call::Format { .. } | Call::Restart => begun(call, lent),
        Call::Address { .. } | Call::Holder { .. } | Call::Soundness | Call::View { .. } => {
            looked_up(call, &state, lent.figures)
        }
        Call::TableMove { m, n, mark } => {
            lent.figures.copy_from_slice(&entry_figures(*m, *n, *mark));
            Ok(())
        }
        Call::Spans { spans } => made_spans(*spans, lent.spans),
        _ => made(call, state, lent),
    };
    answer.err().unwrap_or(0)
}

/// The call that makes a span table; refused, it gives zeros.
fn made_spans(spans: Spans, words: &mut [u64]) -> Result<(), Refusal> {
    let made = make_spans(spans);
    let given: [u64; SPAN_WORDS] = made.unwrap_or(Spans::ZEROS).to_words();
    words.copy_from_slice(&given);
    made.map(|_| ())
}

/// The calls that make a state; refused, they hand back zeros.
fn begun(call: &Call, lent: Lent) -> Result<(), Refusal> {
    put(lent.state, &State::ZEROS);
    if let Call::Format { z, s, disks } = *call {
        let state = store::format(lent.medium, z, s, disks)?;
        put(lent.state, &state);
        return Ok(());
    }
    let next = store::restart(lent.medium)?;
    put_next(lent.state, lent.figures, next);
    Ok(())
}

/// The calls that look something up in a state.
fn looked_up(call: &Call, state: &State, figures: &mut [u64]) -> Result<(), Refusal> {
    match *call {
        Call::Address { block } => {
            let place = lookup::address(state, Block(block))?;
            figures.copy_from_slice(&place_figures(place));
        }
        Call::Holder { disk, row } => figures[0] = lookup::holder(state, disk, Row(row))?.0,
        Call::View { block, shelves } => {
            let view = view(state, &shelves, Block(block))?;
            figures.copy_from_slice(&[shelf_figure(view.shelf), view.byte]);
        }
        _ => return state.sound().then_some(()).ok_or(NOT_SOUND),
    }
    Ok(())
}

/// The other calls.
fn made(call: &Call, mut state: State, lent: Lent) -> Result<(), Refusal> {
    let medium = lent.medium;
    let next = match *call {
        Call::Grow { count } => store::grow(state, medium, count)?,
        Call::GrowBeyondDoubling { count } => store::grow_beyond_doubling(state, medium, count)?,
        Call::Copy { block } => store::copy(state, medium, Block(block))?,
        Call::Checkpoint => store::checkpoint(state, medium)?,
        Call::Advance => {
            let (next, done) = store::advance(state, medium)?;
            lent.figures[1..].copy_from_slice(&advanced_figures(done));
            next
        }
        Call::Read { block, .. } => return store::read(&state, medium, Block(block), lent.piece),
        Call::ClientRead { by, block, .. } => {
            let (By { spans, client }, x) = (by, Block(block));
            return client_read(&spans, client, &state, medium, x, lent.piece);
        }
        Call::Write { block, .. } => {
            store::write(&mut state, medium, Block(block), lent.piece)?;
            put(lent.state, &state);
            return Ok(());
        }
        Call::ClientWrite { by, block, .. } => {
            let (By { spans, client }, x) = (by, Block(block));
            client_write(&spans, client, &mut state, medium, x, lent.piece)?;
            put(lent.state, &state);
            return Ok(());
        }
        _ => {
            store::flushed(&mut state)?;
            put(lent.state, &state);
            return Ok(());
        }
    };
    put_next(lent.state, lent.figures, next);
    Ok(())
}

fn put(words: &mut [u64], state: &State) {
    words.copy_from_slice(&state.to_words());
}

fn put_next(words: &mut [u64], figures: &mut [u64], next: Next) {
    put(words, &next.0);
    figures[0] = next.1;
}

fn part_figure(part: Part) -> u64 {
    match part {
        Part::Head => 1,
        Part::Body => 2,
        Part::Tail => 3,
    }
}

fn shelf_figure(shelf: Shelf) -> u64 {
    match shelf {
        Shelf::First => 1,
        Shelf::Second => 2,
    }
}

/// The entries of the printed table, worked out once.
static TABLE: LazyLock<Vec<Entry>> = LazyLock::new(entries);

/// The offset and the disk of an entry; zeros when there is no such mark.
fn entry_figures(m: u64, n: u64, mark: u64) -> [u64; 2] {
    match table_move(&TABLE, m, n, mark) {
        Some((offset, disk)) => [offset, disk],
        None => [0, 0],
    }
}

/// What an advance did, the block copied, its part.
fn advanced_figures(done: Advanced) -> [u64; 3] {
    match done {
        Advanced::Copied { block, part } => [1, block.0, part_figure(part)],
        Advanced::Recorded => [2, 0, 0],
        Advanced::Finished => [3, 0, 0],
    }
}

/// Disk, row, the figures of the reason, the moves.
fn place_figures(place: Place) -> [u64; 6] {
    let Place { spot, why, moves } = place;
    let [why, growth, part] = why_figures(why);
    [spot.disk, spot.row.0, why, growth, part, moves]
}

/// Why a block is at its spot, the growth's number, the part.
fn why_figures(why: Why) -> [u64; 3] {
    match why {
        Why::SetOut => [1, 0, 0],
        Why::Added { growth } => [2, growth, 0],
        Why::Moved { growth, part } => [3, growth, part_figure(part)],
    }
}
