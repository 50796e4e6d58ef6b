//! The record, written and read in one pass.

use crate::limits::{GROWTHS, RECORD};
use crate::state::State;

const COLUMN: usize = 10;
const MARKS: usize = 130;
const SPACES: usize = 194;

/// Writes the record of a sound state.
pub fn write(state: &State, bytes: &mut [u8]) {
    bytes.fill(b' ');
    put(bytes, 0, state.z);
    put(bytes, 1, state.s);
    put(bytes, 2, state.t);
    for i in 0..=state.t as usize {
        put(bytes, 3 + i, state.counts[i]);
    }
    put(bytes, 11, state.growing);
    put(bytes, 12, state.w);
    for (mark, byte) in bytes[MARKS..SPACES].iter_mut().enumerate() {
        *byte = b'0' + (state.recorded >> mark & 1) as u8;
    }
    bytes[RECORD - 1] = b'\n';
}

fn put(bytes: &mut [u8], field: usize, number: u64) {
    let mut rest = number;
    for byte in bytes[field * COLUMN..][..COLUMN].iter_mut().rev() {
        *byte = b'0' + (rest % 10) as u8;
        rest /= 10;
        if rest == 0 {
            return;
        }
    }
}

/// The state in well-formed bytes, sound or not, with copied set to recorded.
pub fn parse(bytes: &[u8; RECORD]) -> Option<State> {
    let blank = |part: &[u8]| part.iter().all(|&byte| byte == b' ');
    if !blank(&bytes[SPACES..RECORD - 1]) || bytes[RECORD - 1] != b'\n' {
        return None;
    }
    let mut state = State {
        z: number(bytes, 0)?,
        s: number(bytes, 1)?,
        t: number(bytes, 2)?,
        growing: number(bytes, 11)?,
        w: number(bytes, 12)?,
        ..State::ZEROS
    };
    if state.t > GROWTHS {
        return None;
    }
    for i in 0..=GROWTHS as usize {
        if i as u64 <= state.t {
            state.counts[i] = number(bytes, 3 + i)?;
        } else if !blank(&bytes[(3 + i) * COLUMN..][..COLUMN]) {
            return None;
        }
    }
    state.recorded = marks(&bytes[MARKS..SPACES])?;
    state.copied = state.recorded;
    Some(state)
}

fn number(bytes: &[u8; RECORD], field: usize) -> Option<u64> {
    let column = &bytes[field * COLUMN..][..COLUMN];
    let start = column.iter().position(|&byte| byte != b' ')?;
    let digits = &column[start..];
    if digits[0] == b'0' && digits.len() > 1 {
        return None;
    }
    let mut number = 0;
    for byte in digits {
        let digit = byte.wrapping_sub(b'0');
        if digit > 9 {
            return None;
        }
        number = number * 10 + digit as u64;
    }
    Some(number)
}

fn marks(bytes: &[u8]) -> Option<u64> {
    let mut marks = 0;
    for (mark, byte) in bytes.iter().enumerate() {
        let bit = byte.wrapping_sub(b'0');
        if bit > 1 {
            return None;
        }
        marks |= (bit as u64) << mark;
    }
    Some(marks)
}
