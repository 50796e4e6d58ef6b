//! Copy, and the advance that copies.

use crate::media::Shared;
use crate::row::{timed, Label, Row, Side};
use crate::volume::{self, Words, COPIED, RECORDED, WINDOW};
use reference::fast;
use reference::spot::Block;
use reference::store::Advanced;
use std::hint::black_box;
use std::ops::Range;
use streterva::raw;

#[derive(Clone, Copy)]
pub enum Call {
    Copy,
    Advance,
}

/// A moving block, with the bytes where its old and its new spot start.
struct Move {
    block: u64,
    old: usize,
    new: usize,
}

/// Times the copying of all moving blocks of consecutive windows. When a window is full its marks are cleared and the next one
/// begins by setting the state directly, which takes about one ns in a window.
pub struct Moves {
    label: Label,
    call: Call,
    medium: Shared,
    words: Words,
    first: u64,
    sections: usize,
    /// How many times a section is gone through in one sample. If more than once, it has the windows of one slice.
    repeats: usize,
    /// The moves of each window from the first on.
    moves: Vec<Vec<Move>>,
}

impl Moves {
    /// `words` is a growing state, `windows` are whole windows of its growth.
    pub fn new(
        label: Label,
        call: Call,
        medium: &Shared,
        words: Words,
        windows: Range<u64>,
    ) -> Moves {
        let moves: Vec<_> = windows.clone().map(|w| moves(&words, w)).collect();
        let z = words[0] as usize;
        for step in moves.iter().flatten() {
            medium.borrow_mut()[step.old..step.old + z].fill(0x5A);
            medium.borrow_mut()[step.new..step.new + z].fill(0x5A);
        }
        Moves {
            label,
            call,
            medium: medium.clone(),
            words,
            first: windows.start,
            sections: 1,
            repeats: 1,
            moves,
        }
    }

    /// Times one part of the windows in each round.
    pub fn in_sections(mut self, sections: usize) -> Moves {
        self.sections = sections;
        self
    }

    /// Goes through each section this many times in a sample.
    pub fn repeated(mut self, repeats: usize) -> Moves {
        self.repeats = repeats;
        self
    }

    fn pass(&self, side: Side, windows: Range<usize>, medium: &mut [u8]) -> u64 {
        let start = self.first + windows.start as u64;
        let moves = &self.moves[windows];
        match (self.call, side) {
            (Call::Copy, Side::Library) => copy_library(&self.words, start, medium, moves),
            (Call::Copy, Side::Reference) => copy_reference(&self.words, start, medium, moves),
            (Call::Advance, Side::Library) => advance_library(&self.words, start, medium, moves),
            (Call::Advance, Side::Reference) => {
                advance_reference(&self.words, start, medium, moves)
            }
            (_, Side::Memcpy) => copy_memcpy(medium, moves, self.words[0] as usize),
        }
    }
}

impl Row for Moves {
    fn label(&self) -> Label {
        self.label
    }

    fn sample(&mut self, side: Side, section: usize) -> Option<f64> {
        let mut medium = self.medium.borrow_mut();
        let medium = &mut medium[..volume::bytes(&self.words)];
        let windows = self.moves.len() / self.sections;
        let from = section % self.sections * windows;
        let step = match self.words[0] {
            512 => 8,
            4096 => 4,
            _ => 1,
        };
        let window = timed(0..self.repeats * windows, step, |slice| {
            let first = from + slice.start % windows;
            self.pass(side, first..first + slice.len(), medium)
        })?;
        Some(window / self.moves[0].len() as f64)
    }
}

/// The moves of a whole window in the order of their marks.
fn moves(words: &Words, w: u64) -> Vec<Move> {
    let (m, n) = volume::growth(words);
    let mut before = *words;
    before[WINDOW] = w;
    let step = |mark| {
        let (d0, b1) = (mark / n, mark / n + mark % n);
        let mut figures = [0; raw::HOLDER_FIGURES];
        let row = w * (m + n) + b1;
        assert_eq!(raw::holder(&before, d0, row, &mut figures), 0);
        let mut after = before;
        let marked = 1u64 << mark;
        (after[RECORDED], after[COPIED]) = (marked, marked);
        let block = figures[0];
        let (old, new) = (volume::live(&before, block), volume::live(&after, block));
        Move { block, old, new }
    };
    (0..m * n).map(step).collect()
}

/// The state at the start of a window. Block stores that are pending refuse no copy.
fn begin(words: &mut Words, w: u64) {
    (words[WINDOW], words[RECORDED], words[COPIED]) = (w, 0, 0);
}

fn copy_library(words: &Words, start: u64, medium: &mut [u8], moves: &[Vec<Move>]) -> u64 {
    let (mut words, mut refused) = (*words, 0);
    let mut figures = [0; raw::LEFT_FIGURES];
    for (w, window) in (start..).zip(moves) {
        begin(&mut words, w);
        for step in window {
            refused |= raw::copy(&mut words, medium, step.block, &mut figures);
        }
    }
    refused
}

fn copy_reference(words: &Words, start: u64, medium: &mut [u8], moves: &[Vec<Move>]) -> u64 {
    let mut words = *words;
    for (w, window) in (start..).zip(moves) {
        begin(&mut words, w);
        let mut state = volume::state(&words);
        for step in window {
            match fast::copy(state, medium, Block(step.block)) {
                Ok((next, left)) => {
                    black_box(left);
                    state = next;
                }
                Err(number) => return number,
            }
        }
    }
    0
}

fn advance_library(words: &Words, start: u64, medium: &mut [u8], moves: &[Vec<Move>]) -> u64 {
    const COPIED_ONE: u64 = 1;
    let (mut words, mut refused) = (*words, 0);
    let mut figures = [0; raw::ADVANCE_FIGURES];
    for (w, window) in (start..).zip(moves) {
        begin(&mut words, w);
        for _ in window {
            refused |= raw::advance(&mut words, medium, &mut figures);
            refused |= figures[1] ^ COPIED_ONE;
        }
    }
    refused
}

fn advance_reference(words: &Words, start: u64, medium: &mut [u8], moves: &[Vec<Move>]) -> u64 {
    let (mut words, mut refused) = (*words, 0);
    for (w, window) in (start..).zip(moves) {
        begin(&mut words, w);
        let mut state = volume::state(&words);
        for _ in window {
            match fast::advance(state, medium) {
                Ok((next, done)) => {
                    black_box((next.1, &done));
                    refused |= !matches!(done, Advanced::Copied { .. }) as u64;
                    state = next.0;
                }
                Err(number) => return number,
            }
        }
    }
    refused
}

fn copy_memcpy(medium: &mut [u8], moves: &[Vec<Move>], z: usize) -> u64 {
    for step in moves.iter().flatten() {
        let (low, high) = medium.split_at_mut(step.old.max(step.new));
        if step.old < step.new {
            high[..z].copy_from_slice(&low[step.old..step.old + z]);
        } else {
            low[step.new..step.new + z].copy_from_slice(&high[..z]);
        }
        black_box(&mut *medium);
    }
    0
}
