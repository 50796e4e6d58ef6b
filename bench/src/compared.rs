//! The rows that compare values of s. The calls with a medium use as many bytes for each s, and these fit the cache.

use crate::cases::*;
use crate::list::{
    address, flushed, holder, recording, recordings, soundness, view, DIRECTIONS, LOOKUPS, RECORDS,
};
use crate::media::Media;
use crate::moves::{self, Moves};
use crate::order;
use crate::record;
use crate::row::{Label, Row};
use crate::transfer::Transfer;
use crate::volume::{self, Words};

/// Blocks in use for read and write.
const BLOCKS: u64 = 128;
/// Windows in use for copy and advance, and how often in a round.
const WINDOWS: u64 = 8;
const REPEATS: usize = 64;

pub fn lookups(s: u64) -> Vec<Box<dyn Row>> {
    let (grown, growing) = (volume::grown(512, s, &COUNTS), half_grown(s));
    let label = |call, case| compared(lookup_label(call, case, s));
    vec![
        soundness(label("soundness", GROWING), growing, LOOKUPS),
        flushed(label("flushed", GROWING), growing, LOOKUPS),
        address(label("address", GROWN), grown, 16 * s, LOOKUPS),
        address(label("address", GROWING), growing, 14 * s, LOOKUPS),
        view(label("view", GROWN), grown, 16 * s, LOOKUPS),
        view(label("view", GROWING), growing, 14 * s, LOOKUPS),
        holder(label("holder", GROWN), grown, 0..16 * s, LOOKUPS),
    ]
}

pub fn calls(media: &Media, s: u64) -> Vec<Box<dyn Row>> {
    let words = volume::growing(512, s, &MOVE_COUNTS, 0);
    let mut rows = transfers(media, s);
    rows.push(moving(media, "copy", moves::Call::Copy, words));
    rows.push(moving(media, "advance", moves::Call::Advance, words));
    let model = compared(label("", GROWING, &words));
    rows.extend(recordings(model, &media.sparse, words));
    for (call, case, kind) in [
        ("grow", BEGUN, record::Call::Grow),
        (
            "grow_beyond_doubling",
            BEGUN,
            record::Call::GrowBeyondDoubling,
        ),
        ("format", FORMATTED, record::Call::Format),
    ] {
        let label = Label {
            call,
            case,
            ..model
        };
        rows.push(recording(label, kind, &media.sparse, words, RECORDS));
    }
    rows
}

/// Read and write of blocks from all parts of the volume.
fn transfers(media: &Media, s: u64) -> Vec<Box<dyn Row>> {
    let words = volume::grown(512, s, &COUNTS);
    let row = |(call, direction)| -> Box<dyn Row> {
        let order = order::shuffled(order::spread(BLOCKS, 16 * s), RECORDS);
        let label = compared(label(call, GROWN, &words));
        let row = Transfer::new(label, direction, &media.sparse, words, order);
        Box::new(row.warmed(BLOCKS as usize))
    };
    DIRECTIONS.map(row).into()
}

/// Windows in the middle of the growth, many times.
fn moving(media: &Media, name: &'static str, call: moves::Call, words: Words) -> Box<dyn Row> {
    let first = (volume::whole_windows(&words) - WINDOWS) / 2;
    let label = compared(label(name, GROWING, &words));
    let windows = first..first + WINDOWS;
    let row = Moves::new(label, call, &media.sparse, words, windows);
    Box::new(row.repeated(REPEATS))
}
