//! Calls without a medium: soundness, flushed, address, view, holder, table_move.

use crate::row::{timed, Label, Row, Side, SLICE};
use crate::volume::{self, Words, PENDING};
use reference::fast;
use reference::spot::{Block, Row as DiskRow};
use reference::view::Shelves;
use std::hint::black_box;
use streterva::raw;

/// Times soundness.
pub struct Soundness {
    pub label: Label,
    pub words: Words,
    pub calls: usize,
}

impl Row for Soundness {
    fn label(&self) -> Label {
        self.label
    }

    fn sample(&mut self, side: Side, _: usize) -> Option<f64> {
        let state = volume::state(&self.words);
        let calls = 0..self.calls;
        match side {
            Side::Library => timed(calls, SLICE, |slice| {
                slice.fold(0, |bad, _| bad | raw::soundness(black_box(&self.words)))
            }),
            Side::Reference => timed(calls, SLICE, |slice| {
                slice.fold(0, |bad, _| bad | !fast::sound(black_box(&state)) as u64)
            }),
            Side::Memcpy => None,
        }
    }
}

/// Times flushed. Before each call a record store and block stores are pending.
pub struct Flushed {
    pub label: Label,
    pub words: Words,
    pub calls: usize,
}

impl Row for Flushed {
    fn label(&self) -> Label {
        self.label
    }

    fn sample(&mut self, side: Side, _: usize) -> Option<f64> {
        let mut words = self.words;
        words[PENDING] = raw::MOST_PENDING;
        let mut state = volume::state(&words);
        let pending = state.pending;
        let calls = 0..self.calls;
        match side {
            Side::Library => timed(calls, SLICE, |slice| {
                slice.fold(0, |refused, _| {
                    words[PENDING] = raw::MOST_PENDING;
                    refused | raw::flushed(black_box(&mut words))
                })
            }),
            Side::Reference => timed(calls, SLICE, |slice| {
                slice.fold(0, |refused, _| {
                    state.pending = pending;
                    refused | fast::flushed(black_box(&mut state)).is_err() as u64
                })
            }),
            Side::Memcpy => None,
        }
    }
}

/// Times address for blocks in a given order.
pub struct Address {
    pub label: Label,
    pub words: Words,
    pub blocks: Vec<u64>,
}

impl Row for Address {
    fn label(&self) -> Label {
        self.label
    }

    fn sample(&mut self, side: Side, _: usize) -> Option<f64> {
        let state = volume::state(&self.words);
        match side {
            Side::Library => timed(0..self.blocks.len(), SLICE, |slice| {
                let (mut figures, mut refused) = ([0; raw::ADDRESS_FIGURES], 0);
                for &block in &self.blocks[slice] {
                    refused |= raw::address(black_box(&self.words), block, &mut figures);
                    black_box(&figures);
                }
                refused
            }),
            Side::Reference => timed(0..self.blocks.len(), SLICE, |slice| {
                let mut refused = 0;
                for &block in &self.blocks[slice] {
                    let answer = fast::address(black_box(&state), Block(block));
                    black_box(&answer);
                    refused |= answer.is_err() as u64;
                }
                refused
            }),
            Side::Memcpy => None,
        }
    }
}

/// Times view for blocks in a given order.
pub struct View {
    pub label: Label,
    pub words: Words,
    pub shelves: Shelves,
    pub blocks: Vec<u64>,
}

impl Row for View {
    fn label(&self) -> Label {
        self.label
    }

    fn sample(&mut self, side: Side, _: usize) -> Option<f64> {
        let (state, shelves) = (volume::state(&self.words), self.shelves);
        match side {
            Side::Library => timed(0..self.blocks.len(), SLICE, |slice| {
                let (first, second) = (shelves.first as usize, shelves.second as usize);
                let (mut figures, mut refused) = ([0; raw::VIEW_FIGURES], 0);
                for &block in &self.blocks[slice] {
                    let words = black_box(&self.words);
                    refused |= raw::view(words, first, second, shelves.k, block, &mut figures);
                    black_box(&figures);
                }
                refused
            }),
            Side::Reference => timed(0..self.blocks.len(), SLICE, |slice| {
                let mut refused = 0;
                for &block in &self.blocks[slice] {
                    let answer = fast::view(black_box(&state), &shelves, Block(block));
                    black_box(&answer);
                    refused |= answer.is_err() as u64;
                }
                refused
            }),
            Side::Memcpy => None,
        }
    }
}

/// Times holder for spots in a given order.
pub struct Holder {
    pub label: Label,
    pub words: Words,
    /// Disks and rows.
    pub spots: Vec<(u64, u64)>,
}

impl Row for Holder {
    fn label(&self) -> Label {
        self.label
    }

    fn sample(&mut self, side: Side, _: usize) -> Option<f64> {
        let state = volume::state(&self.words);
        match side {
            Side::Library => timed(0..self.spots.len(), SLICE, |slice| {
                let (mut figures, mut refused) = ([0; raw::HOLDER_FIGURES], 0);
                for &(disk, row) in &self.spots[slice] {
                    refused |= raw::holder(black_box(&self.words), disk, row, &mut figures);
                    black_box(&figures);
                }
                refused
            }),
            Side::Reference => timed(0..self.spots.len(), SLICE, |slice| {
                let mut refused = 0;
                for &(disk, row) in &self.spots[slice] {
                    let answer = fast::holder(black_box(&state), disk, DiskRow(row));
                    black_box(&answer);
                    refused |= answer.is_err() as u64;
                }
                refused
            }),
            Side::Memcpy => None,
        }
    }
}

/// Times table_move for marks in a given order.
pub struct TableMove {
    pub label: Label,
    /// m, n and a mark below m * n.
    pub marks: Vec<[u64; 3]>,
}

impl Row for TableMove {
    fn label(&self) -> Label {
        self.label
    }

    fn sample(&mut self, side: Side, _: usize) -> Option<f64> {
        match side {
            Side::Library => timed(0..self.marks.len(), SLICE, |slice| {
                let (mut figures, mut refused) = ([0; raw::TABLE_MOVE_FIGURES], 0);
                for &[m, n, mark] in &self.marks[slice] {
                    refused |= raw::table_move(black_box(m), n, mark, &mut figures);
                    refused |= (black_box(&figures)[1] == 0) as u64;
                }
                refused
            }),
            Side::Reference => timed(0..self.marks.len(), SLICE, |slice| {
                let mut refused = 0;
                for &[m, n, mark] in &self.marks[slice] {
                    let answer = fast::table_move(black_box(m), n, mark);
                    black_box(&answer);
                    refused |= answer.is_none() as u64;
                }
                refused
            }),
            Side::Memcpy => None,
        }
    }
}
