//! Rows of the table, and the clock.

use crate::ROUNDS;
use std::ops::Range;
use std::time::Instant;

/// Calls in a slice, where no block is moved.
pub const SLICE: usize = 512;

/// What a row is about.
#[derive(Clone, Copy)]
pub struct Label {
    pub call: &'static str,
    pub case: &'static str,
    /// Bytes in a block; 0 where they don't matter.
    pub z: u64,
    /// Rows on each disk; 0 where they don't matter.
    pub s: u64,
    /// One of the rows that compare values of s.
    pub compares_s: bool,
}

#[derive(Clone, Copy)]
pub enum Side {
    Library,
    Reference,
    Memcpy,
}

impl Side {
    pub const ALL: [Side; 3] = [Side::Library, Side::Reference, Side::Memcpy];

    /// The section of a row's inputs for a round. In all rounds together each side takes every section once. Sides that
    /// take the same section are a third of the rounds apart, so that none finds it in the cache after another.
    pub fn section(self, round: usize) -> usize {
        (round + self as usize * ROUNDS / Side::ALL.len()) % ROUNDS
    }
}

/// Something to time.
pub trait Row {
    fn label(&self) -> Label;

    /// The time of one call in ns, or nothing when the side has no such call.
    fn sample(&mut self, side: Side, section: usize) -> Option<f64>;
}

/// The median time of one call in ns. The calls are timed in slices of `step`, each too short for the system to stop many of
/// them for other work. The body makes the calls of a slice and gives 0 when all were accepted.
pub fn timed(
    calls: Range<usize>,
    step: usize,
    body: impl FnMut(Range<usize>) -> u64,
) -> Option<f64> {
    let mut body = body;
    let mut times = Vec::new();
    for first in calls.clone().step_by(step) {
        let slice = first..calls.end.min(first + step);
        let count = slice.len() as f64;
        let start = Instant::now();
        let refused = make_calls(&mut body, slice);
        let time = start.elapsed();
        assert_eq!(refused, 0, "a call was refused");
        times.push(time.as_nanos() as f64 / count);
    }
    median(&times)
}

/// Makes the calls of a slice. Instructions are counted inside this function, which is why it is never inlined.
#[inline(never)]
fn make_calls(body: &mut impl FnMut(Range<usize>) -> u64, slice: Range<usize>) -> u64 {
    body(slice)
}

/// The times of a row, for each side by its number.
pub struct Line {
    pub label: Label,
    times: [Vec<f64>; 3],
}

impl Line {
    pub fn new(label: Label) -> Line {
        Line {
            label,
            times: Default::default(),
        }
    }

    pub fn add(&mut self, side: Side, time: Option<f64>) {
        self.times[side as usize].extend(time);
    }

    pub fn library(&self) -> f64 {
        median(&self.times[Side::Library as usize]).expect("each row times the library")
    }

    pub fn reference(&self) -> Option<f64> {
        median(&self.times[Side::Reference as usize])
    }

    pub fn memcpy(&self) -> Option<f64> {
        median(&self.times[Side::Memcpy as usize])
    }
}

fn median(times: &[f64]) -> Option<f64> {
    let mut sorted = times.to_vec();
    sorted.sort_by(f64::total_cmp);
    sorted.get(sorted.len() / 2).copied()
}
