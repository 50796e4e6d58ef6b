//! The date.

use std::time::{SystemTime, UNIX_EPOCH};

/// The date and time now, UTC.
pub fn now() -> String {
    let since = SystemTime::now().duration_since(UNIX_EPOCH);
    let seconds = since.expect("a clock after 1970").as_secs();
    let (year, month, day) = date(seconds / 86_400);
    let (hour, minute) = (seconds / 3600 % 24, seconds / 60 % 60);
    format!("{year}-{month:02}-{day:02} {hour:02}:{minute:02} UTC")
}

/// Year, month and day of a day counted from 1 January 1970.
fn date(days: u64) -> (u64, usize, u64) {
    let (mut year, mut rest) = (1970, days);
    while rest >= 365 + leap(year) {
        rest -= 365 + leap(year);
        year += 1;
    }
    let lengths = [31, 28 + leap(year), 31, 30, 31, 30, 31, 31, 30, 31, 30, 31];
    let mut month = 0;
    while rest >= lengths[month] {
        rest -= lengths[month];
        month += 1;
    }
    (year, month + 1, rest + 1)
}

fn leap(year: u64) -> u64 {
    let fourth = year.is_multiple_of(4) && !year.is_multiple_of(100);
    (fourth || year.is_multiple_of(400)) as u64
}
