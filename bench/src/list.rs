//! The rows of the table.

use crate::cases::*;
use crate::compared;
use crate::lookup::{Address, Flushed, Holder, Soundness, TableMove, View};
use crate::media::{Media, Shared, CACHED_BYTES, LARGE_BYTES};
use crate::moves::{self, Moves};
use crate::order;
use crate::record::{self, Recording};
use crate::row::{Label, Row};
use crate::transfer::{Direction, Transfer};
use crate::volume::{self, Words};
use crate::ROUNDS;
use std::ops::Range;

const SIZES: [u64; 3] = [512, 4096, 65_536];
const LOOKUP_ROWS: u64 = 100_000;
/// Calls of a lookup in a round.
pub const LOOKUPS: usize = 65_536;
/// Calls in a round of those that store or read the record.
pub const RECORDS: usize = 16_384;

pub const DIRECTIONS: [(&str, Direction); 2] =
    [("read", Direction::Read), ("write", Direction::Write)];

pub fn all(media: &Media) -> Vec<Box<dyn Row>> {
    let mut rows = lookups();
    for z in SIZES {
        rows.extend(cached_transfers(media, z));
    }
    for z in SIZES {
        rows.extend(large_transfers(media, z));
    }
    rows.push(large_moves(media, "copy", moves::Call::Copy, 4096));
    for z in SIZES {
        rows.push(large_moves(media, "advance", moves::Call::Advance, z));
    }
    let words = large_growing(4096);
    rows.extend(recordings(label("", MOVING, &words), &media.large, words));
    for s in media.rows {
        rows.extend(compared::lookups(s));
        rows.extend(compared::calls(media, s));
    }
    rows
}

pub fn soundness(label: Label, words: Words, calls: usize) -> Box<dyn Row> {
    Box::new(Soundness {
        label,
        words,
        calls,
    })
}

pub fn flushed(label: Label, words: Words, calls: usize) -> Box<dyn Row> {
    Box::new(Flushed {
        label,
        words,
        calls,
    })
}

/// Address for blocks below `open`.
pub fn address(label: Label, words: Words, open: u64, calls: usize) -> Box<dyn Row> {
    let blocks = order::drawn(calls, open);
    Box::new(Address {
        label,
        words,
        blocks,
    })
}

/// View of the blocks that address has, half of the disks on each shelf.
pub fn view(label: Label, words: Words, open: u64, calls: usize) -> Box<dyn Row> {
    let k = volume::disks(&words) / 2;
    let row = view_with(label, words, k, open, calls);
    let on_first = |&block: &u64| volume::spot(&words, block).0 < k;
    assert!(row.blocks.iter().any(on_first) && !row.blocks.iter().all(on_first));
    Box::new(row)
}

/// The same with all disks on the first shelf.
fn view_of_one(label: Label, words: Words, open: u64, calls: usize) -> Box<dyn Row> {
    Box::new(view_with(label, words, volume::disks(&words), open, calls))
}

fn view_with(label: Label, words: Words, k: u64, open: u64, calls: usize) -> View {
    let shelves = volume::shelves(&words, k);
    let blocks = order::drawn(calls, open);
    View {
        label,
        words,
        shelves,
        blocks,
    }
}

/// Holder at the spots of some of the blocks.
pub fn holder(label: Label, words: Words, blocks: Range<u64>, calls: usize) -> Box<dyn Row> {
    let drawn = order::drawn(calls, blocks.end - blocks.start);
    let spot = |i| volume::spot(&words, blocks.start + i);
    let spots = drawn.into_iter().map(spot).collect();
    Box::new(Holder {
        label,
        words,
        spots,
    })
}

/// The call table_move, for marks drawn from those of all growths.
pub fn table_move(label: Label, calls: usize) -> Box<dyn Row> {
    let mut all = Vec::new();
    for (m, n) in (1..16).flat_map(|m| (1..=16 - m).map(move |n| (m, n))) {
        all.extend((0..m * n).map(|mark| [m, n, mark]));
    }
    let drawn = order::drawn(calls, all.len() as u64);
    let marks = drawn.into_iter().map(|i| all[i as usize]).collect();
    Box::new(TableMove { label, marks })
}

fn lookups() -> Vec<Box<dyn Row>> {
    let s = LOOKUP_ROWS;
    let formatted = volume::grown(512, s, &[16]);
    let grown = volume::grown(512, s, &COUNTS);
    let old = volume::grown(512, s, &OLD_COUNTS);
    let growing = half_grown(s);
    let sound = |case, words| soundness(lookup_label("soundness", case, s), words, LOOKUPS);
    let down = |case, words| flushed(lookup_label("flushed", case, s), words, LOOKUPS);
    let at = |case, words, open| address(lookup_label("address", case, s), words, open, LOOKUPS);
    let shown = |case, words, open| view(lookup_label("view", case, s), words, open, LOOKUPS);
    let of_one = |case, words| view_of_one(lookup_label("view", case, s), words, 16 * s, LOOKUPS);
    let held = |case, blocks| holder(lookup_label("holder", case, s), grown, blocks, LOOKUPS);
    vec![
        sound(FORMATTED, formatted),
        sound(GROWN, grown),
        sound(GROWING, growing),
        down(GROWN, grown),
        down(GROWING, growing),
        at(FORMATTED, formatted, 16 * s),
        at(GROWN, grown, 16 * s),
        at(OLD_BLOCKS, old, 16 * s),
        at(GROWING, growing, 14 * s),
        shown(GROWN, grown, 16 * s),
        shown(GROWING, growing, 14 * s),
        of_one(ONE_SHELF, grown),
        held(GROWN, 0..16 * s),
        held(ADDED, 14 * s..16 * s),
        held(NOT_ADDED, 0..14 * s),
        table_move(table_label("table_move", ANY_MARK), LOOKUPS),
    ]
}

fn cached_transfers(media: &Media, z: u64) -> Vec<Box<dyn Row>> {
    let words = volume::grown(z, CACHED_BYTES / (16 * z), &COUNTS);
    let blocks = 16 * words[1];
    let calls = match z {
        512 => 65_536,
        4096 => 32_768,
        _ => 2048,
    };
    let row = |(call, direction)| -> Box<dyn Row> {
        let order = order::shuffled((0..blocks).collect(), calls);
        let label = label(call, CACHED, &words);
        let row = Transfer::new(label, direction, &media.cached, words, order);
        Box::new(row.warmed(blocks as usize))
    };
    DIRECTIONS.map(row).into()
}

fn large_transfers(media: &Media, z: u64) -> Vec<Box<dyn Row>> {
    let words = volume::grown(z, LARGE_BYTES / (16 * z), &COUNTS);
    let blocks = 16 * words[1];
    let row = |(call, direction)| -> Box<dyn Row> {
        let order = order::shuffled((0..blocks).collect(), blocks as usize);
        let label = label(call, LARGE, &words);
        let row = Transfer::new(label, direction, &media.large, words, order);
        Box::new(row.in_sections(ROUNDS))
    };
    DIRECTIONS.map(row).into()
}

/// The start of a growth on all of the large medium.
fn large_growing(z: u64) -> Words {
    volume::growing(z, LARGE_BYTES / (12 * z), &MOVE_COUNTS, 0)
}

fn large_moves(media: &Media, name: &'static str, call: moves::Call, z: u64) -> Box<dyn Row> {
    let words = large_growing(z);
    let windows = 0..volume::whole_windows(&words);
    let label = label(name, MOVING, &words);
    let row = Moves::new(label, call, &media.large, words, windows);
    Box::new(row.in_sections(ROUNDS))
}

/// Checkpoint, the advance that records and restart. `model` is their label but for the call.
pub fn recordings(model: Label, medium: &Shared, words: Words) -> Vec<Box<dyn Row>> {
    let calls = [
        ("checkpoint", record::Call::Checkpoint),
        ("advance that records", record::Call::Advance),
        ("restart", record::Call::Restart),
    ];
    let row = |(name, call)| {
        let label = Label {
            call: name,
            ..model
        };
        recording(label, call, medium, words, RECORDS)
    };
    calls.map(row).into()
}

pub fn recording(
    label: Label,
    call: record::Call,
    medium: &Shared,
    words: Words,
    calls: usize,
) -> Box<dyn Row> {
    // The growth goes on after each of these windows.
    let windows = order::drawn(calls, volume::whole_windows(&words) - 1);
    Box::new(Recording::new(label, call, medium, words, windows))
}
