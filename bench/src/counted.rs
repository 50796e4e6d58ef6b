//! The calls whose instructions are counted, and how many each may take: so many times the reference's, and at times no more
//! than another call.

use crate::cases::*;
use crate::list::{address, flushed, holder, recording, soundness, table_move, view};
use crate::media::Shared;
use crate::medium::Medium;
use crate::moves::{self, Moves};
use crate::order;
use crate::record;
use crate::row::{Row, SLICE};
use crate::transfer::{self, Direction, Transfer};
use crate::volume::{self, Words};
use std::cell::RefCell;
use std::rc::Rc;

/// A row with the number of calls that it makes, all in one slice, and the most that library / reference may be.
pub struct Counted {
    pub row: Box<dyn Row>,
    pub calls: usize,
    pub most: f64,
    /// A call whose row in the same case it may not exceed by more than so many instructions, both as the library makes
    /// them.
    pub at_most: Option<(&'static str, u64)>,
}

impl Counted {
    fn new(row: Box<dyn Row>, calls: usize, most: f64) -> Counted {
        Counted {
            row,
            calls,
            most,
            at_most: None,
        }
    }

    fn no_more_than(self, call: &'static str) -> Counted {
        self.at_most(call, 0)
    }

    fn at_most(mut self, call: &'static str, more: u64) -> Counted {
        self.at_most = Some((call, more));
        self
    }
}

/// Rows on each disk, in lookups and with a medium.
const LOOKUP_ROWS: u64 = 100_000;
const MEDIUM_ROWS: u64 = 512;
/// Windows of copy and advance.
const WINDOWS: u64 = 8;
/// The instructions that a client's call may take above the volume's own. That is more than its aim, 25: the compiler has each
/// exported function test for each lent slice whether C passed null, so a client's call does so for its own four and again
/// for the three of the call that it makes.
const CLIENT_MORE: u64 = 73;

/// The limits: a call that needs more instructions than this for each one of the reference's fails the gate. Each stands about
/// 0.05 above what was measured when it was last changed, and none above its aim in docs/PERFORMANCE.md.
pub fn all() -> Vec<Counted> {
    let mut rows = lookups();
    rows.extend([
        transfer("read", Direction::Read, GROWN, 512, 0.94),
        transfer("read", Direction::Read, GROWN, 4096, 0.98),
        transfer("write", Direction::Write, GROWN, 512, 0.95),
        transfer("write", Direction::Write, GROWN, 4096, 0.99),
        transfer("read", Direction::Read, GROWING, 512, 0.92),
        transfer("write", Direction::Write, GROWING, 512, 0.93),
        client_read(GROWN, 512, 1.03),
        client_read(GROWN, 4096, 1.03),
        client_write(GROWN, 512, 1.05),
        client_write(GROWN, 4096, 1.05),
        client_read(GROWING, 512, 1.0),
        client_write(GROWING, 512, 1.02),
        moving("copy", moves::Call::Copy, 1.16),
        moving("advance", moves::Call::Advance, 1.16),
        recorded("checkpoint", GROWING, record::Call::Checkpoint, 1.1),
        recorded("advance that records", GROWING, record::Call::Advance, 0.98),
        recorded("restart", GROWING, record::Call::Restart, 0.85),
        recorded("grow", BEGUN, record::Call::Grow, 0.99),
        recorded(
            "grow_beyond_doubling",
            BEGUN,
            record::Call::GrowBeyondDoubling,
            0.98,
        )
        .no_more_than("grow"),
        recorded("format", FORMATTED, record::Call::Format, 0.94),
    ]);
    rows
}

fn lookups() -> Vec<Counted> {
    let (s, calls) = (LOOKUP_ROWS, SLICE);
    let (grown, growing) = (volume::grown(512, s, &COUNTS), half_grown(s));
    // The last window, of half its rows.
    let ending = in_window(s + 8, s / 16);
    let counted = |row, most| Counted::new(row, calls, most);
    let sound = |case, words| soundness(lookup_label("soundness", case, s), words, calls);
    let down = |case, words| flushed(lookup_label("flushed", case, s), words, calls);
    let at = |case, words, open| address(lookup_label("address", case, s), words, open, calls);
    let shown = |case, words, open| view(lookup_label("view", case, s), words, open, calls);
    let held = |case, words, open| holder(lookup_label("holder", case, s), words, 0..open, calls);
    vec![
        counted(sound(GROWN, grown), 1.11),
        counted(sound(GROWING, growing), 0.98),
        counted(sound(LAST_WINDOW, ending), 1.29),
        counted(down(GROWN, grown), 1.20),
        counted(down(GROWING, growing), 1.08),
        counted(at(GROWN, grown, 16 * s), 1.10),
        counted(at(GROWING, growing, 14 * s), 1.06),
        counted(shown(GROWN, grown, 16 * s), 0.92).no_more_than("address"),
        counted(shown(GROWING, growing, 14 * s), 0.91).no_more_than("address"),
        counted(held(GROWN, grown, 16 * s), 1.03),
        counted(held(GROWING, growing, 14 * s), 0.98),
        counted(table_move(table_label("table_move", ANY_MARK), calls), 0.95),
    ]
}

/// A medium for a state.
fn medium(words: &Words) -> Shared {
    Rc::new(RefCell::new(Medium::touched(volume::bytes(words))))
}

/// Read or write of blocks from all parts of the volume.
fn transfer(
    call: &'static str,
    direction: Direction,
    case: &'static str,
    z: u64,
    most: f64,
) -> Counted {
    let s = MEDIUM_ROWS * 512 / z;
    let (words, open) = match case {
        GROWING => (half_grown(s), 14 * s),
        _ => (volume::grown(z, s, &COUNTS), 16 * s),
    };
    let calls = transfer::slice_calls(z);
    let blocks = order::drawn(calls, open);
    let label = label(call, case, &words);
    let row = Transfer::new(label, direction, &medium(&words), words, blocks);
    Counted::new(Box::new(row), calls, most)
}

fn client_read(case: &'static str, z: u64, most: f64) -> Counted {
    let row = transfer("client_read", Direction::ClientRead, case, z, most);
    row.at_most("read", CLIENT_MORE)
}

fn client_write(case: &'static str, z: u64, most: f64) -> Counted {
    let row = transfer("client_write", Direction::ClientWrite, case, z, most);
    row.at_most("write", CLIENT_MORE)
}

/// The state and the medium of the calls that move blocks or store the record.
fn growing() -> (Words, Shared) {
    let words = volume::growing(512, MEDIUM_ROWS, &MOVE_COUNTS, 0);
    (words, medium(&words))
}

/// Windows in the middle of the growth.
fn moving(call: &'static str, kind: moves::Call, most: f64) -> Counted {
    let (words, medium) = growing();
    let first = (volume::whole_windows(&words) - WINDOWS) / 2;
    let label = label(call, GROWING, &words);
    let row = Moves::new(label, kind, &medium, words, first..first + WINDOWS);
    let (m, n) = volume::growth(&words);
    Counted::new(Box::new(row), (WINDOWS * m * n) as usize, most)
}

fn recorded(call: &'static str, case: &'static str, kind: record::Call, most: f64) -> Counted {
    let (words, medium) = growing();
    let label = label(call, case, &words);
    let row = recording(label, kind, &medium, words, SLICE);
    Counted::new(row, SLICE, most)
}
