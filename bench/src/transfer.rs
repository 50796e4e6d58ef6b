//! Read and write, the volume's own and those of clients.

use crate::media::Shared;
use crate::medium::Medium;
use crate::row::{timed, Label, Row, Side};
use crate::volume::{self, Words};
use reference::fast;
use reference::spans::{Spans, REACH};
use reference::spot::Block;
use std::hint::black_box;
use std::ops::Range;
use streterva::raw;

#[derive(Clone, Copy)]
pub enum Direction {
    Read,
    Write,
    /// Of client 1, whose span is all that its blocks need. Client 0 has no block.
    ClientRead,
    ClientWrite,
}

/// The client of the calls, and the span table.
const CLIENT: u64 = 1;
const SPANS: [u64; raw::SPAN_WORDS] = [0, 0, 0, REACH];

/// Times reads or writes of blocks in a given order.
pub struct Transfer {
    label: Label,
    direction: Direction,
    medium: Shared,
    words: Words,
    blocks: Vec<u64>,
    /// Where the live spot of each of the blocks starts.
    spots: Vec<usize>,
    sections: usize,
    /// The calls before the timed ones that bring the medium into the cache.
    warming: usize,
    piece: Medium,
}

impl Transfer {
    pub fn new(
        label: Label,
        direction: Direction,
        medium: &Shared,
        words: Words,
        blocks: Vec<u64>,
    ) -> Transfer {
        let spots: Vec<usize> = blocks.iter().map(|&x| volume::live(&words, x)).collect();
        let z = words[0] as usize;
        for &at in &spots {
            medium.borrow_mut()[at..at + z].fill(0x5A);
        }
        Transfer {
            label,
            direction,
            medium: medium.clone(),
            words,
            blocks,
            spots,
            sections: 1,
            warming: 0,
            piece: Medium::touched(z),
        }
    }

    /// Times one part of the blocks in each round.
    pub fn in_sections(mut self, sections: usize) -> Transfer {
        self.sections = sections;
        self
    }

    /// Makes this many calls before the timed ones.
    pub fn warmed(mut self, calls: usize) -> Transfer {
        self.warming = calls;
        self
    }

    fn pass(&mut self, side: Side, range: Range<usize>) -> u64 {
        let mut medium = self.medium.borrow_mut();
        let medium = &mut medium[..volume::bytes(&self.words)];
        let (blocks, spots) = (&self.blocks[range.clone()], &self.spots[range]);
        let (words, piece) = (&self.words, &mut self.piece[..]);
        match (self.direction, side) {
            (Direction::Read, Side::Library) => read_library(words, medium, blocks, piece),
            (Direction::Read, Side::Reference) => read_reference(words, medium, blocks, piece),
            (Direction::Read, Side::Memcpy) => read_memcpy(medium, spots, piece),
            (Direction::Write, Side::Library) => write_library(words, medium, blocks, piece),
            (Direction::Write, Side::Reference) => write_reference(words, medium, blocks, piece),
            (Direction::Write, Side::Memcpy) => write_memcpy(medium, spots, piece),
            (direction, side) => client_pass(direction, side, words, medium, blocks, piece),
        }
    }
}

impl Row for Transfer {
    fn label(&self) -> Label {
        self.label
    }

    fn sample(&mut self, side: Side, section: usize) -> Option<f64> {
        if matches!(
            (self.direction, side),
            (Direction::ClientRead | Direction::ClientWrite, Side::Memcpy)
        ) {
            return None;
        }
        self.pass(side, 0..self.warming);
        let calls = self.blocks.len() / self.sections;
        let first = section % self.sections * calls;
        let step = slice_calls(self.words[0]);
        timed(first..first + calls, step, |slice| self.pass(side, slice))
    }
}

/// Calls in a slice.
pub fn slice_calls(z: u64) -> usize {
    match z {
        512 => 512,
        4096 => 128,
        _ => 16,
    }
}

fn read_library(words: &Words, medium: &[u8], blocks: &[u64], piece: &mut [u8]) -> u64 {
    let mut refused = 0;
    for &block in blocks {
        refused |= raw::read(words, medium, block, piece);
        black_box(&mut *piece);
    }
    refused
}

fn read_reference(words: &Words, medium: &[u8], blocks: &[u64], piece: &mut [u8]) -> u64 {
    let (state, mut refused) = (volume::state(words), 0);
    for &block in blocks {
        let answer = fast::read(black_box(&state), medium, Block(block), piece);
        refused |= answer.is_err() as u64;
        black_box(&mut *piece);
    }
    refused
}

/// The calls of a client. Inlined, they would cost the loops above instructions of their own.
#[inline(never)]
fn client_pass(
    direction: Direction,
    side: Side,
    words: &Words,
    medium: &mut [u8],
    blocks: &[u64],
    piece: &mut [u8],
) -> u64 {
    match (direction, side) {
        (Direction::ClientRead, Side::Library) => client_read_library(words, medium, blocks, piece),
        (Direction::ClientRead, _) => client_read_reference(words, medium, blocks, piece),
        (_, Side::Library) => client_write_library(words, medium, blocks, piece),
        (_, _) => client_write_reference(words, medium, blocks, piece),
    }
}

fn client_read_library(words: &Words, medium: &[u8], blocks: &[u64], piece: &mut [u8]) -> u64 {
    let (spans, mut refused) = (black_box(&SPANS), 0);
    for &block in blocks {
        refused |= raw::client_read(spans, CLIENT, words, medium, block, piece);
        black_box(&mut *piece);
    }
    refused
}

fn client_read_reference(words: &Words, medium: &[u8], blocks: &[u64], piece: &mut [u8]) -> u64 {
    let (state, spans, mut refused) = (volume::state(words), Spans::from_words(&SPANS), 0);
    for &block in blocks {
        let (spans, state) = (black_box(&spans), black_box(&state));
        let answer =
            fast::client_read(spans, black_box(CLIENT), state, medium, Block(block), piece);
        refused |= answer.is_err() as u64;
        black_box(&mut *piece);
    }
    refused
}

fn read_memcpy(medium: &[u8], spots: &[usize], piece: &mut [u8]) -> u64 {
    for &at in spots {
        piece.copy_from_slice(&medium[at..at + piece.len()]);
        black_box(&mut *piece);
    }
    0
}

fn write_library(words: &Words, medium: &mut [u8], blocks: &[u64], piece: &[u8]) -> u64 {
    let (mut words, mut refused) = (*words, 0);
    for &block in blocks {
        refused |= raw::write(&mut words, medium, block, piece);
        black_box(&mut *medium);
    }
    refused
}

fn write_reference(words: &Words, medium: &mut [u8], blocks: &[u64], piece: &[u8]) -> u64 {
    let (mut state, mut refused) = (volume::state(words), 0);
    for &block in blocks {
        let answer = fast::write(black_box(&mut state), medium, Block(block), piece);
        refused |= answer.is_err() as u64;
        black_box(&mut *medium);
    }
    refused
}

fn client_write_library(words: &Words, medium: &mut [u8], blocks: &[u64], piece: &[u8]) -> u64 {
    let (mut words, spans, mut refused) = (*words, black_box(&SPANS), 0);
    for &block in blocks {
        refused |= raw::client_write(spans, CLIENT, &mut words, medium, block, piece);
        black_box(&mut *medium);
    }
    refused
}

fn client_write_reference(words: &Words, medium: &mut [u8], blocks: &[u64], piece: &[u8]) -> u64 {
    let (mut state, spans, mut refused) = (volume::state(words), Spans::from_words(&SPANS), 0);
    for &block in blocks {
        let (spans, state) = (black_box(&spans), black_box(&mut state));
        let answer =
            fast::client_write(spans, black_box(CLIENT), state, medium, Block(block), piece);
        refused |= answer.is_err() as u64;
        black_box(&mut *medium);
    }
    refused
}

fn write_memcpy(medium: &mut [u8], spots: &[usize], piece: &[u8]) -> u64 {
    for &at in spots {
        medium[at..at + piece.len()].copy_from_slice(piece);
        black_box(&mut *medium);
    }
    0
}
