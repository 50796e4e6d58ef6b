//! Calls that store or read the record: checkpoint, the advance that records, restart, both grows, format.

use crate::media::Shared;
use crate::row::{timed, Label, Row, Side, SLICE};
use crate::volume::{self, Words, COPIED, PENDING, RECORDED, WINDOW};
use reference::fast;
use reference::refusal::Refusal;
use reference::state::State;
use reference::store::{Advanced, Next};
use std::hint::black_box;
use streterva::raw;

const RECORD: usize = 512;

#[derive(Clone, Copy)]
pub enum Call {
    /// With half the marks of a window copied.
    Checkpoint,
    /// With all of them copied.
    Advance,
    Restart,
    Grow,
    GrowBeyondDoubling,
    Format,
}

/// Times a call that stores or reads the record. The words of the state that the call changes are set again before each one,
/// which takes about one ns; for the grows all words are.
pub struct Recording {
    label: Label,
    call: Call,
    medium: Shared,
    /// A growing state without marks.
    words: Words,
    /// The window for each call.
    windows: Vec<u64>,
    memcpy_buffer: [u8; RECORD],
}

impl Recording {
    pub fn new(
        label: Label,
        call: Call,
        medium: &Shared,
        words: Words,
        windows: Vec<u64>,
    ) -> Recording {
        Recording {
            label,
            call,
            medium: medium.clone(),
            words,
            windows,
            memcpy_buffer: [0; RECORD],
        }
    }

    fn library(&self, windows: &[u64], medium: &mut [u8]) -> u64 {
        let words = &self.words;
        match self.call {
            Call::Checkpoint => checkpoint_library(words, windows, medium),
            Call::Advance => advance_library(words, windows, medium),
            Call::Restart => restart_library(windows.len(), medium),
            Call::Grow => grow_library(raw::grow, words, windows.len(), medium),
            Call::GrowBeyondDoubling => {
                grow_library(raw::grow_beyond_doubling, words, windows.len(), medium)
            }
            Call::Format => format_library(words, windows.len(), medium),
        }
    }

    fn reference(&self, windows: &[u64], medium: &mut [u8]) -> u64 {
        let words = &self.words;
        match self.call {
            Call::Checkpoint => checkpoint_reference(words, windows, medium),
            Call::Advance => advance_reference(words, windows, medium),
            Call::Restart => restart_reference(windows.len(), medium),
            Call::Grow => grow_reference(fast::grow, words, windows.len(), medium),
            Call::GrowBeyondDoubling => {
                grow_reference(fast::grow_beyond_doubling, words, windows.len(), medium)
            }
            Call::Format => format_reference(words, windows.len(), medium),
        }
    }

    fn memcpy(&mut self, calls: usize, medium: &mut [u8]) -> u64 {
        match self.call {
            Call::Restart => memcpy(calls, &medium[..RECORD], &mut self.memcpy_buffer),
            _ => memcpy(calls, &self.memcpy_buffer, &mut medium[..RECORD]),
        }
    }
}

impl Row for Recording {
    fn label(&self) -> Label {
        self.label
    }

    fn sample(&mut self, side: Side, _: usize) -> Option<f64> {
        let shared = self.medium.clone();
        let mut medium = shared.borrow_mut();
        let medium = &mut medium[..volume::bytes(&self.words)];
        if matches!(self.call, Call::Restart) {
            put_record(&self.words, self.windows[0], medium);
        }
        let calls = 0..self.windows.len();
        match side {
            Side::Library => timed(calls, SLICE, |slice| {
                self.library(&self.windows[slice], medium)
            }),
            Side::Reference => timed(calls, SLICE, |slice| {
                self.reference(&self.windows[slice], medium)
            }),
            Side::Memcpy => timed(calls, SLICE, |slice| self.memcpy(slice.len(), medium)),
        }
    }
}

/// Half of a window's marks.
fn half(words: &Words) -> u64 {
    let (m, n) = volume::growth(words);
    volume::marks(m * n / 2)
}

/// Stores a record with half of a window's marks.
fn put_record(words: &Words, w: u64, medium: &mut [u8]) {
    let mut words = *words;
    (words[WINDOW], words[RECORDED], words[COPIED]) = (w, 0, half(&words));
    let mut figures = [0; raw::LEFT_FIGURES];
    assert_eq!(raw::checkpoint(&mut words, medium, &mut figures), 0);
}

fn checkpoint_library(words: &Words, windows: &[u64], medium: &mut [u8]) -> u64 {
    let (mut words, mut refused) = (*words, 0);
    let mut figures = [0; raw::LEFT_FIGURES];
    let half = half(&words);
    for &w in windows {
        (words[WINDOW], words[RECORDED], words[COPIED]) = (w, 0, half);
        words[PENDING] = 0;
        refused |= raw::checkpoint(&mut words, medium, &mut figures);
    }
    refused
}

fn checkpoint_reference(words: &Words, windows: &[u64], medium: &mut [u8]) -> u64 {
    let (mut state, mut refused) = (volume::state(words), 0);
    let half = half(words);
    for &w in windows {
        (state.w, state.recorded, state.copied) = (w, 0, half);
        let answer = fast::checkpoint(state, medium);
        black_box(&answer);
        refused |= answer.is_err() as u64;
    }
    refused
}

fn advance_library(words: &Words, windows: &[u64], medium: &mut [u8]) -> u64 {
    const RECORDED_ALL: u64 = 2;
    let (mut words, mut refused) = (*words, 0);
    let mut figures = [0; raw::ADVANCE_FIGURES];
    let (m, n) = volume::growth(&words);
    for &w in windows {
        (words[WINDOW], words[RECORDED], words[COPIED]) = (w, 0, volume::marks(m * n));
        words[PENDING] = 0;
        refused |= raw::advance(&mut words, medium, &mut figures);
        refused |= figures[1] ^ RECORDED_ALL;
    }
    refused
}

fn advance_reference(words: &Words, windows: &[u64], medium: &mut [u8]) -> u64 {
    let (mut state, mut refused) = (volume::state(words), 0);
    let (m, n) = volume::growth(words);
    for &w in windows {
        (state.w, state.recorded, state.copied) = (w, 0, volume::marks(m * n));
        let answer = fast::advance(state, medium);
        black_box(&answer);
        refused |= !matches!(answer, Ok((_, Advanced::Recorded))) as u64;
    }
    refused
}

fn restart_library(calls: usize, medium: &[u8]) -> u64 {
    let (mut words, mut refused) = ([0; raw::STATE_WORDS], 0);
    let mut figures = [0; raw::LEFT_FIGURES];
    for _ in 0..calls {
        refused |= raw::restart(&mut words, medium, &mut figures);
    }
    refused
}

fn restart_reference(calls: usize, medium: &[u8]) -> u64 {
    let mut refused = 0;
    for _ in 0..calls {
        let answer = fast::restart(black_box(medium));
        black_box(&answer);
        refused |= answer.is_err() as u64;
    }
    refused
}

/// Begins the growth of `words` again and again, by either grow.
fn grow_library(
    grow: impl Fn(&mut [u64], &mut [u8], u64, &mut [u64]) -> u64,
    words: &Words,
    calls: usize,
    medium: &mut [u8],
) -> u64 {
    let t = words[2] as usize;
    let before = volume::grown(words[0], words[1], &words[3..3 + t]);
    let mut figures = [0; raw::LEFT_FIGURES];
    let mut refused = 0;
    for _ in 0..calls {
        let mut state = before;
        refused |= grow(&mut state, medium, words[3 + t], &mut figures);
    }
    refused
}

fn grow_reference(
    grow: impl Fn(State, &mut [u8], u64) -> Result<Next, Refusal>,
    words: &Words,
    calls: usize,
    medium: &mut [u8],
) -> u64 {
    let t = words[2] as usize;
    let before = volume::grown(words[0], words[1], &words[3..3 + t]);
    let before = volume::state(&before);
    let mut refused = 0;
    for _ in 0..calls {
        let answer = grow(black_box(before), medium, words[3 + t]);
        black_box(&answer);
        refused |= answer.is_err() as u64;
    }
    refused
}

fn format_library(words: &Words, calls: usize, medium: &mut [u8]) -> u64 {
    let (mut state, mut refused) = ([0; raw::STATE_WORDS], 0);
    let disks = volume::disks(words);
    for _ in 0..calls {
        refused |= raw::format(&mut state, medium, words[0], words[1], disks);
    }
    refused
}

fn format_reference(words: &Words, calls: usize, medium: &mut [u8]) -> u64 {
    let disks = volume::disks(words);
    let mut refused = 0;
    for _ in 0..calls {
        let answer = fast::format(medium, words[0], words[1], disks);
        black_box(&answer);
        refused |= answer.is_err() as u64;
    }
    refused
}

#[inline(never)]
fn memcpy(calls: usize, from: &[u8], to: &mut [u8]) -> u64 {
    for _ in 0..calls {
        to.copy_from_slice(black_box(from));
        black_box(&mut *to);
    }
    0
}
