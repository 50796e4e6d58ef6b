//! The record: a state with its recorded marks, as 512 bytes of text.

use crate::limits::{GROWTHS, RECORD};
use crate::state::{marked, State};

const COLUMN: usize = 10;
const MARKS: usize = 130;

/// The record of a state. Numbers of more than ten digits have no record;
/// of such a number only the last ten digits are written.
pub fn write(state: &State) -> [u8; RECORD] {
    let mut text = String::with_capacity(RECORD);
    for number in [state.z, state.s, state.t] {
        text += &column(number);
    }
    for i in 0..=GROWTHS {
        if i <= state.t {
            text += &column(state.counts[i as usize]);
        } else {
            text += &" ".repeat(COLUMN);
        }
    }
    text += &column(state.growing);
    text += &column(state.w);
    for mark in 0..64 {
        text.push(if marked(state.recorded, mark) {
            '1'
        } else {
            '0'
        });
    }
    text += &" ".repeat(317);
    text.push('\n');
    text.into_bytes().try_into().expect("512 bytes")
}

fn column(number: u64) -> String {
    format!("{:>10}", number % 10_000_000_000)
}

/// The sound state whose record these bytes are, with copied set to recorded.
pub fn parse(bytes: &[u8; RECORD]) -> Option<State> {
    let mut state = State::ZEROS;
    state.z = number(bytes, 0)?;
    state.s = number(bytes, 1)?;
    state.t = number(bytes, 2)?;
    for i in 0..=GROWTHS.min(state.t) as usize {
        state.counts[i] = number(bytes, 3 + i)?;
    }
    state.growing = number(bytes, 11)?;
    state.w = number(bytes, 12)?;
    for mark in 0..64 {
        if bytes[MARKS + mark] == b'1' {
            state.recorded |= 1 << mark;
        }
    }
    state.copied = state.recorded;
    (state.sound() && write(&state) == *bytes).then_some(state)
}

/// The number in a column; its form is checked by writing it again.
fn number(bytes: &[u8; RECORD], field: usize) -> Option<u64> {
    let column = &bytes[field * COLUMN..(field + 1) * COLUMN];
    let text = std::str::from_utf8(column).ok()?;
    text.trim_start_matches(' ').parse().ok()
}
