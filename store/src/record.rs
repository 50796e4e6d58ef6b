//! The record in words: its columns, or where and why a sector is no record of a sound state.
//!
//! Document 01, "Medium, state, record". Whether a sector is such a record is decided by the proved library, in
//! [`State::restart`], which answers 13 and no more. What is here finds the reason, and has no proof: tests compare it
//! with the library.

use std::error::Error;
use std::fmt;
use std::ops::{Range, RangeInclusive};

use streterva::State;

#[cfg(test)]
mod tests;

/// The record's bytes.
pub type Sector = [u8; State::RECORD_BYTES];

/// The bytes of a column that holds a number.
const NUMBER_BYTES: usize = 10;

/// A column of the record.
#[derive(Clone, Copy, Debug, PartialEq, Eq, Hash)]
pub enum Column {
    /// Z: the bytes in a block.
    Size,
    /// s: the rows on each disk.
    Rows,
    /// t: the number of growths.
    Growths,
    /// N\[0\] to N\[7\]: a disk count.
    Count(usize),
    /// Whether a growth is under way.
    Growing,
    /// w: the windows finished.
    Window,
    /// The 64 recorded marks.
    Marks,
    /// The spaces behind the marks.
    Spaces,
    /// The line feed.
    End,
}

impl Column {
    /// Every column, in the order of the bytes.
    pub const ALL: [Column; 16] = [
        Column::Size,
        Column::Rows,
        Column::Growths,
        Column::Count(0),
        Column::Count(1),
        Column::Count(2),
        Column::Count(3),
        Column::Count(4),
        Column::Count(5),
        Column::Count(6),
        Column::Count(7),
        Column::Growing,
        Column::Window,
        Column::Marks,
        Column::Spaces,
        Column::End,
    ];

    /// Document 01's name of it: Z, s, t, N\[0\] to N\[7\], growing, w, marks, spaces, end.
    pub fn name(self) -> String {
        match self {
            Column::Size => "Z".to_string(),
            Column::Rows => "s".to_string(),
            Column::Growths => "t".to_string(),
            Column::Count(k) => format!("N[{k}]"),
            Column::Growing => "growing".to_string(),
            Column::Window => "w".to_string(),
            Column::Marks => "marks".to_string(),
            Column::Spaces => "spaces".to_string(),
            Column::End => "end".to_string(),
        }
    }

    /// Its first byte in the sector.
    pub const fn first_byte(self) -> usize {
        match self {
            Column::Size => 0,
            Column::Rows => 10,
            Column::Growths => 20,
            Column::Count(k) => 30 + k * NUMBER_BYTES,
            Column::Growing => 110,
            Column::Window => 120,
            Column::Marks => 130,
            Column::Spaces => 194,
            Column::End => 511,
        }
    }

    /// The number of its bytes.
    pub const fn length(self) -> usize {
        match self {
            Column::Marks => 64,
            Column::Spaces => 317,
            Column::End => 1,
            _ => NUMBER_BYTES,
        }
    }

    fn range(self) -> Range<usize> {
        self.first_byte()..self.first_byte() + self.length()
    }

    /// The fault at the byte that is `place` bytes into the column.
    fn fault_at(self, place: usize, reason: String) -> Fault {
        Fault { column: self, byte: self.first_byte() + place, reason }
    }

    /// The fault of the column as a whole.
    fn fault(self, reason: String) -> Fault {
        self.fault_at(0, reason)
    }
}

/// "column s", "the marks".
impl fmt::Display for Column {
    fn fmt(&self, f: &mut fmt::Formatter<'_>) -> fmt::Result {
        match self {
            Column::Marks | Column::Spaces | Column::End => write!(f, "the {}", self.name()),
            _ => write!(f, "column {}", self.name()),
        }
    }
}

/// Why a sector is no record of a sound state.
#[derive(Clone, Debug, PartialEq, Eq)]
pub struct Fault {
    /// The column that is wrong.
    pub column: Column,
    /// The first byte that is wrong, or the first byte of the column whose number is wrong. A blank column that needs a
    /// number is wrong at its last byte: up to there a number may still follow.
    pub byte: usize,
    /// What is wrong, without the place.
    pub reason: String,
}

impl fmt::Display for Fault {
    fn fmt(&self, f: &mut fmt::Formatter<'_>) -> fmt::Result {
        write!(f, "{}, byte {}: {}", self.column, self.byte, self.reason)
    }
}

impl Error for Fault {}

/// The numbers and marks of a record, as they stand in its columns.
#[derive(Clone, Copy, Debug, PartialEq, Eq)]
pub struct Columns {
    /// Z: the bytes in a block.
    pub size: u64,
    /// s: the rows on each disk.
    pub rows: u64,
    /// t: the number of growths, one under way included.
    pub growths: u64,
    /// N\[0\] to N\[7\]: the disk counts, 0 where the column is blank.
    pub counts: [u64; 8],
    /// 1 when a growth is under way, 0 when none is.
    pub growing: u64,
    /// w: the windows finished of the growth under way.
    pub window: u64,
    /// The recorded marks of window w; mark j is bit j.
    pub marks: u64,
}

impl From<&State> for Columns {
    fn from(state: &State) -> Columns {
        Columns {
            size: state.size(),
            rows: state.rows(),
            growths: state.growths(),
            counts: state.counts(),
            growing: state.words()[11],
            window: state.window(),
            marks: state.recorded(),
        }
    }
}

impl Columns {
    /// The sector with these columns; counts after N\[t\] are blank. Of a number with more than ten digits it has the
    /// last ten.
    pub fn sector(&self) -> Sector {
        let mut sector = [b' '; State::RECORD_BYTES];
        for column in Column::ALL {
            self.put(column, &mut sector[column.range()]);
        }
        sector
    }

    fn put(&self, column: Column, bytes: &mut [u8]) {
        match column {
            Column::Size => put_number(bytes, self.size),
            Column::Rows => put_number(bytes, self.rows),
            Column::Growths => put_number(bytes, self.growths),
            Column::Count(k) if self.growths < k as u64 => bytes.fill(b' '),
            Column::Count(k) => put_number(bytes, self.counts[k]),
            Column::Growing => put_number(bytes, self.growing),
            Column::Window => put_number(bytes, self.window),
            Column::Marks => put_marks(bytes, self.marks),
            Column::Spaces => bytes.fill(b' '),
            Column::End => bytes.fill(b'\n'),
        }
    }

    fn has_mark(&self, mark: u64) -> bool {
        self.marks >> mark & 1 == 1
    }

    /// The marks that are set, rising.
    fn set_marks(&self) -> impl Iterator<Item = u64> + '_ {
        (0..64).filter(|&mark| self.has_mark(mark))
    }
}

fn put_number(bytes: &mut [u8], number: u64) {
    let text = format!("{number:>NUMBER_BYTES$}");
    bytes.copy_from_slice(&text.as_bytes()[text.len() - NUMBER_BYTES..]);
}

fn put_marks(bytes: &mut [u8], marks: u64) {
    for (mark, byte) in bytes.iter_mut().enumerate() {
        *byte = b'0' + (marks >> mark & 1) as u8;
    }
}

/// The record of a sound state: its columns, with the recorded marks.
pub fn sector_of(state: &State) -> Sector {
    Columns::from(state).sector()
}

/// Reads the columns. Only the form is looked at, in the order of the bytes; the state may not be sound.
///
/// # Errors
///
/// The first fault of the form. Where t is above 7 all eight counts are numbers; if one of them is blank, the fault is
/// told of t.
pub fn columns(sector: &Sector) -> Result<Columns, Fault> {
    let size = read_number(sector, Column::Size)?;
    let rows = read_number(sector, Column::Rows)?;
    let growths = read_number(sector, Column::Growths)?;
    let mut counts = [0; 8];
    for (k, count) in counts.iter_mut().enumerate() {
        *count = read_count(sector, growths, k)?;
    }
    let growing = read_number(sector, Column::Growing)?;
    let window = read_number(sector, Column::Window)?;
    let marks = read_marks(sector)?;
    check_ending(sector)?;
    Ok(Columns { size, rows, growths, counts, growing, window, marks })
}

/// Why the sector is no record of a sound state: first the form, then soundness in document 01's order. `None` exactly
/// where the library finds such a record.
pub fn fault(sector: &Sector) -> Option<Fault> {
    columns(sector).and_then(|columns| check_soundness(&columns)).err()
}

fn read_number(sector: &Sector, column: Column) -> Result<u64, Fault> {
    let bytes = &sector[column.range()];
    let Some(start) = first_other_than_space(bytes) else {
        let reason = "the column is blank: a space where the last digit is due".to_string();
        return Err(column.fault_at(NUMBER_BYTES - 1, reason));
    };
    let digits = &bytes[start..];
    if digits[0] == b'0' && digits.get(1).is_some_and(u8::is_ascii_digit) {
        return Err(column.fault_at(start, "a leading zero".to_string()));
    }
    let Some(place) = digits.iter().position(|byte| !byte.is_ascii_digit()) else {
        return Ok(digits.iter().fold(0, |number, digit| number * 10 + u64::from(digit - b'0')));
    };
    let reason = match digits[place] {
        b' ' => "the number is not right-justified: a space after a digit".to_string(),
        other => format!("{} is no digit", shown(other)),
    };
    Err(column.fault_at(start + place, reason))
}

/// N\[k\]: a number, or blank after N\[t\].
fn read_count(sector: &Sector, growths: u64, k: usize) -> Result<u64, Fault> {
    let column = Column::Count(k);
    let bytes = &sector[column.range()];
    let first = first_other_than_space(bytes);
    if k as u64 <= growths {
        if first.is_some() {
            return read_number(sector, column);
        }
        check_growths(growths)?;
        let reason = format!("the column is blank, and t is {growths}: N[0] to N[{growths}] are numbers");
        return Err(column.fault_at(NUMBER_BYTES - 1, reason));
    }
    let Some(place) = first else {
        return Ok(0);
    };
    let found = shown(bytes[place]);
    let reason = format!("the count after N[t] is not blank: t is {growths}, and here is {found}");
    Err(column.fault_at(place, reason))
}

fn read_marks(sector: &Sector) -> Result<u64, Fault> {
    let mut marks = 0;
    for (mark, &byte) in sector[Column::Marks.range()].iter().enumerate() {
        match byte {
            b'0' => {}
            b'1' => marks |= 1 << mark,
            other => {
                let reason = format!("{} is no mark: mark {mark} is '0' or '1'", shown(other));
                return Err(Column::Marks.fault_at(mark, reason));
            }
        }
    }
    Ok(marks)
}

fn check_ending(sector: &Sector) -> Result<(), Fault> {
    let spaces = &sector[Column::Spaces.range()];
    if let Some(place) = first_other_than_space(spaces) {
        let reason = format!("{} where a space is due", shown(spaces[place]));
        return Err(Column::Spaces.fault_at(place, reason));
    }
    let end = sector[Column::End.first_byte()];
    if end != b'\n' {
        let reason = format!("{} where the line feed, 0x0A, is due", shown(end));
        return Err(Column::End.fault(reason));
    }
    Ok(())
}

fn first_other_than_space(bytes: &[u8]) -> Option<usize> {
    bytes.iter().position(|&byte| byte != b' ')
}

/// A byte as a reader sees it: 'x', or 0x and its hexadecimal number.
fn shown(byte: u8) -> String {
    match byte {
        b' ' => "a space".to_string(),
        b'!'..=b'~' => format!("'{}'", char::from(byte)),
        _ => format!("0x{byte:02X}"),
    }
}

/// The first condition of a sound state that does not hold.
fn check_soundness(columns: &Columns) -> Result<(), Fault> {
    check_size(columns.size)?;
    let rows = State::LEAST_ROWS..=State::MOST_ROWS;
    check_limits(Column::Rows, columns.rows, rows, "rows on each disk")?;
    check_growths(columns.growths)?;
    check_counts(&columns.counts[..=columns.growths as usize])?;
    match columns.growing {
        0 => check_rest(columns),
        1 => check_growth(columns),
        other => Err(Column::Growing.fault(format!("{other} is neither 0 nor 1"))),
    }
}

fn check_limits(column: Column, number: u64, limits: RangeInclusive<u64>, what: &str) -> Result<(), Fault> {
    let (least, most) = limits.into_inner();
    if number < least {
        return Err(column.fault(format!("{number} is below {least}, the fewest {what}")));
    }
    if most < number {
        return Err(column.fault(format!("{number} is above {most}, the most {what}")));
    }
    Ok(())
}

fn check_size(size: u64) -> Result<(), Fault> {
    let sizes = State::LEAST_SIZE..=State::MOST_SIZE;
    check_limits(Column::Size, size, sizes, "bytes in a block")?;
    let step = State::SIZE_STEP;
    if !size.is_multiple_of(step) {
        return Err(Column::Size.fault(format!("{size} is no multiple of {step}")));
    }
    Ok(())
}

fn check_growths(growths: u64) -> Result<(), Fault> {
    check_limits(Column::Growths, growths, 0..=State::MOST_GROWTHS, "growths")
}

/// N\[0\] to N\[t\]: strictly rising, 1 to 16.
fn check_counts(counts: &[u64]) -> Result<(), Fault> {
    for (k, &count) in counts.iter().enumerate() {
        let column = Column::Count(k);
        if k > 0 && count <= counts[k - 1] {
            let (last, before) = (k - 1, counts[k - 1]);
            let reason = format!("N[{k}] is {count} and not above N[{last}], {before}");
            return Err(column.fault(reason));
        }
        let disks = State::LEAST_DISKS..=State::MOST_DISKS;
        check_limits(column, count, disks, "disks")?;
    }
    Ok(())
}

/// "not growing means w = 0 and no marks"
fn check_rest(columns: &Columns) -> Result<(), Fault> {
    let window = columns.window;
    if window != 0 {
        let reason = format!("w is {window}, but no growth is under way");
        return Err(Column::Window.fault(reason));
    }
    match columns.set_marks().next() {
        None => Ok(()),
        Some(mark) => {
            let reason = format!("mark {mark} is set, but no growth is under way");
            Err(Column::Marks.fault_at(mark as usize, reason))
        }
    }
}

/// "growing means t > 0, w < R", and what the marks have to be.
fn check_growth(columns: &Columns) -> Result<(), Fault> {
    let t = columns.growths as usize;
    if t == 0 {
        let reason = "a growth is under way, but t is 0".to_string();
        return Err(Column::Growing.fault(reason));
    }
    let window =
        Window { number: columns.window, rows: columns.rows, old: columns.counts[t - 1], new: columns.counts[t] };
    let windows = window.rows.div_ceil(window.new);
    if windows <= window.number {
        let number = window.number;
        let reason = format!("{number} is not below the number of windows, {windows}");
        return Err(Column::Window.fault(reason));
    }
    check_marks(columns, &window)
}

/// "within the moving blocks of window w whose rows exist, and some moving block of w not recorded"
fn check_marks(columns: &Columns, window: &Window) -> Result<(), Fault> {
    if let Some(mark) = columns.set_marks().find(|&mark| !window.has_block(mark)) {
        return Err(Column::Marks.fault_at(mark as usize, window.why_no_block(mark)));
    }
    if (0..64).any(|mark| window.has_block(mark) && !columns.has_mark(mark)) {
        return Ok(());
    }
    let number = window.number;
    let reason = format!("all moving blocks of window {number} are recorded: none is left to record");
    Err(Column::Marks.fault(reason))
}

/// The window under way: `rows` on each disk, from `old` disks to `new`.
struct Window {
    number: u64,
    rows: u64,
    old: u64,
    new: u64,
}

impl Window {
    fn added(&self) -> u64 {
        self.new - self.old
    }

    /// The number of marks. Every one of them has a moving block where the window is not cut off.
    fn marks(&self) -> u64 {
        self.old * self.added()
    }

    /// The row of the block with this mark, d0·n + (b1-d0), whether it exists or not.
    fn row(&self, mark: u64) -> u64 {
        let disk = mark / self.added();
        self.number * self.new + disk + mark % self.added()
    }

    /// Whether the mark is that of a moving block whose row exists.
    fn has_block(&self, mark: u64) -> bool {
        mark < self.marks() && self.row(mark) < self.rows
    }

    fn why_no_block(&self, mark: u64) -> String {
        let (marks, old, new) = (self.marks(), self.old, self.new);
        if marks <= mark {
            return format!("there is no mark {mark}: from {old} to {new} disks the number of marks is {marks}");
        }
        let (row, rows) = (self.row(mark), self.rows);
        format!("mark {mark} is set, but its row does not exist: row {row} is not below s, {rows}")
    }
}
