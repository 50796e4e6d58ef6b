//! Faults compared with the library's answer on damaged and on made-up sectors; the words of typical faults; the
//! records that the calls store.

use std::collections::HashSet;

use streterva::{Block, Refusal, Step};

use super::*;

/// Whether the library answers 13. The sector has no disks behind it, so it is accepted nowhere.
fn is_refused(sector: &Sector) -> bool {
    match State::restart(sector) {
        Err(Refusal::NoRecord) => true,
        Err(Refusal::MediumTooShort) => false,
        other => panic!("restart answered {other:?}"),
    }
}

/// The fault, which is there exactly where the library answers 13, at a byte of its column.
fn compared(sector: &Sector) -> Option<Fault> {
    let found = fault(sector);
    let text = String::from_utf8_lossy(sector);
    assert_eq!(found.is_some(), is_refused(sector), "{found:?}: {text:?}");
    if let Some(fault) = &found {
        assert!(fault.column.range().contains(&fault.byte), "{fault}");
        assert!(!fault.reason.is_empty());
    }
    found
}

/// A volume with blocks of 512 bytes and room for 16 disks.
struct Volume {
    medium: Vec<u8>,
    state: State,
}

impl Volume {
    fn new(rows: u64, disks: u64) -> Volume {
        let mut medium = vec![0xE5; State::medium_bytes(512, rows, State::MOST_DISKS)];
        let mut state = State::format(&mut medium, 512, rows, disks).unwrap();
        state.flushed().unwrap();
        Volume { medium, state }
    }

    fn record(&self) -> Sector {
        self.medium[..State::RECORD_BYTES].try_into().unwrap()
    }

    fn grow(&mut self, count: u64) {
        let grown = self.state.grow_beyond_doubling(&mut self.medium, count);
        grown.unwrap();
        self.state.flushed().unwrap();
    }

    fn advance(&mut self) -> Step {
        let advanced = self.state.advance(&mut self.medium).unwrap();
        self.state.flushed().unwrap();
        advanced.step
    }

    fn checkpoint(&mut self) {
        self.state.checkpoint(&mut self.medium).unwrap();
        self.state.flushed().unwrap();
    }

    fn grow_wholly(&mut self, count: u64) {
        self.grow(count);
        while self.advance() != Step::Finished {}
    }
}

fn new_volume() -> Sector {
    Volume::new(5, 3).record()
}

fn seven_growths() -> Sector {
    let mut volume = Volume::new(2, 1);
    for count in 2..=8 {
        volume.grow_wholly(count);
    }
    volume.record()
}

/// Document 01's record: from 3 disks to 5, blocks 0 and 3 recorded.
fn two_marks() -> Sector {
    let mut volume = Volume::new(5, 3);
    volume.grow(5);
    volume.advance();
    volume.advance();
    volume.checkpoint();
    volume.record()
}

/// Window 1 has rows 5 and 6 of 7, so of the marks 0 to 5 it has 0 to 2; mark 0 is recorded.
fn last_window_cut_off() -> Sector {
    let mut volume = Volume::new(7, 3);
    volume.grow(5);
    while volume.advance() != Step::Recorded {}
    volume.advance();
    volume.checkpoint();
    volume.record()
}

/// The largest numbers, no count blank, and all marks but one.
fn largest() -> Sector {
    let marks = u64::MAX >> 1;
    let state = State::from_words([65_536, 1_000_000, 7, 1, 2, 3, 4, 5, 6, 8, 16, 1, 62_499, marks, marks, 0]);
    sector_of(&state.unwrap())
}

fn sound_records() -> [Sector; 5] {
    [new_volume(), seven_growths(), two_marks(), last_window_cut_off(), largest()]
}

/// The sector with this text from this byte on.
fn damaged(mut sector: Sector, byte: usize, text: &str) -> Sector {
    sector[byte..byte + text.len()].copy_from_slice(text.as_bytes());
    sector
}

fn told(sector: &Sector) -> String {
    compared(sector).unwrap().to_string()
}

#[test]
fn columns_lie_one_after_the_other() {
    let mut end = 0;
    for column in Column::ALL {
        assert_eq!(column.first_byte(), end, "{column}");
        end += column.length();
    }
    assert_eq!(end, State::RECORD_BYTES);
    let names = Column::ALL.map(Column::name).join(" ");
    assert_eq!(names, "Z s t N[0] N[1] N[2] N[3] N[4] N[5] N[6] N[7] growing w marks spaces end");
}

#[test]
fn the_record_of_document_01() {
    let numbers = "       512         5         1         3         5";
    let text = format!("{numbers}{:60}{:>10}{:>10}11{:0>62}{:317}\n", "", 1, 0, "", "");
    let record = two_marks();
    assert_eq!(record.as_slice(), text.as_bytes());
    assert_eq!(
        columns(&record),
        Ok(Columns {
            size: 512,
            rows: 5,
            growths: 1,
            counts: [3, 5, 0, 0, 0, 0, 0, 0],
            growing: 1,
            window: 0,
            marks: 0b11,
        })
    );
}

#[test]
fn sound_records_have_no_fault() {
    for record in sound_records() {
        assert_eq!(compared(&record), None);
        assert_eq!(columns(&record).unwrap().sector(), record);
    }
    assert_eq!(columns(&last_window_cut_off()).unwrap().window, 1);
    assert_eq!(columns(&seven_growths()).unwrap().growths, 7);
}

/// Every byte of every sound record.
fn places() -> impl Iterator<Item = (Sector, usize)> {
    let bytes = |record: Sector| (0..record.len()).map(move |byte| (record, byte));
    sound_records().into_iter().flat_map(bytes)
}

/// The record with one byte changed to each value.
fn changed(record: Sector, byte: usize) -> impl Iterator<Item = Sector> {
    (0..=u8::MAX).map(move |value| {
        let mut sector = record;
        sector[byte] = value;
        sector
    })
}

#[test]
fn every_byte_changed_to_every_value() {
    let sectors = places().flat_map(|(record, byte)| changed(record, byte));
    let refused = sectors.filter(|sector| compared(sector).is_some()).count();
    // Of 256 values at most ten digits and a space may stand at a place.
    assert!(refused > 245 * places().count(), "{refused}");
}

#[test]
fn a_byte_that_may_stand_nowhere_is_told_where_it_stands() {
    for (record, byte) in places() {
        let found = compared(&damaged(record, byte, "x")).unwrap();
        assert_eq!(found.byte, byte, "{found}");
    }
}

/// Byte and text of a damage to document 01's record, and what is told of it.
const FORM_FAULTS: [(usize, &str, &str); 11] = [
    (10, "       x 5", "column s, byte 17: 'x' is no digit"),
    (120, "        \u{7}0", "column w, byte 128: 0x07 is no digit"),
    (0, "      0512", "column Z, byte 6: a leading zero"),
    (0, "    512   ", "column Z, byte 7: the number is not right-justified: a space after a digit"),
    (110, "          ", "column growing, byte 119: the column is blank: a space where the last digit is due"),
    (29, "2", "column N[2], byte 59: the column is blank, and t is 2: N[0] to N[2] are numbers"),
    (29, "8", "column t, byte 20: 8 is above 7, the most growths"),
    (29, "0", "column N[1], byte 49: the count after N[t] is not blank: t is 0, and here is '5'"),
    (135, " ", "the marks, byte 135: a space is no mark: mark 5 is '0' or '1'"),
    (200, "0", "the spaces, byte 200: '0' where a space is due"),
    (511, "\r", "the end, byte 511: 0x0D where the line feed, 0x0A, is due"),
];

#[test]
fn faults_of_the_form_in_words() {
    let record = two_marks();
    for (byte, text, sentence) in FORM_FAULTS {
        assert_eq!(told(&damaged(record, byte, text)), sentence);
    }
}

#[test]
fn the_first_wrong_byte_comes_first() {
    let record = damaged(two_marks(), 511, " ");
    assert_eq!(compared(&record).unwrap().byte, 511);
    let record = damaged(record, 300, "x");
    assert_eq!(compared(&record).unwrap().byte, 300);
    let record = damaged(record, 193, "2");
    assert_eq!(compared(&record).unwrap().byte, 193);
    let record = damaged(record, 0, "  0 5x  12");
    assert_eq!(compared(&record).unwrap().byte, 3);
    let record = damaged(record, 0, "  05 x  12");
    assert_eq!(compared(&record).unwrap().byte, 2);
}

#[test]
fn the_form_comes_before_soundness() {
    let record = damaged(two_marks(), 0, "       600");
    assert_eq!(told(&record), "column Z, byte 0: 600 is no multiple of 512");
    assert_eq!(columns(&record).unwrap().size, 600);
    let record = damaged(record, 193, "x");
    assert_eq!(told(&record), "the marks, byte 193: 'x' is no mark: mark 63 is '0' or '1'");
}

/// The same with numbers that have the form.
const NUMBER_FAULTS: [(usize, &str, &str); 9] = [
    (0, "         0", "column Z, byte 0: 0 is below 512, the fewest bytes in a block"),
    (0, "     66048", "column Z, byte 0: 66048 is above 65536, the most bytes in a block"),
    (10, "         0", "column s, byte 10: 0 is below 1, the fewest rows on each disk"),
    (10, "   1000001", "column s, byte 10: 1000001 is above 1000000, the most rows on each disk"),
    (39, "0", "column N[0], byte 30: 0 is below 1, the fewest disks"),
    (39, "5", "column N[1], byte 40: N[1] is 5 and not above N[0], 5"),
    (48, "17", "column N[1], byte 40: 17 is above 16, the most disks"),
    (119, "2", "column growing, byte 110: 2 is neither 0 nor 1"),
    (129, "1", "column w, byte 120: 1 is not below the number of windows, 1"),
];

#[test]
fn numbers_that_are_not_sound_in_words() {
    let record = two_marks();
    for (byte, text, sentence) in NUMBER_FAULTS {
        assert_eq!(told(&damaged(record, byte, text)), sentence);
    }
}

/// A record, byte and text of a damage to it, and what is told.
type Damage = (fn() -> Sector, usize, &'static str, &'static str);

/// A growing, w or marks that do not fit.
const STAGE_FAULTS: [Damage; 7] = [
    (new_volume, 129, "3", "column w, byte 120: w is 3, but no growth is under way"),
    (new_volume, 119, "1", "column growing, byte 110: a growth is under way, but t is 0"),
    (two_marks, 119, "0", "the marks, byte 130: mark 0 is set, but no growth is under way"),
    (two_marks, 136, "11", "the marks, byte 136: there is no mark 6: from 3 to 5 disks the number of marks is 6"),
    (
        two_marks,
        130,
        "111111",
        "the marks, byte 130: all moving blocks of window 0 are recorded: none is left to record",
    ),
    (
        last_window_cut_off,
        133,
        "1",
        "the marks, byte 133: mark 3 is set, but its row does not exist: row 7 is not below s, 7",
    ),
    (
        last_window_cut_off,
        130,
        "111",
        "the marks, byte 130: all moving blocks of window 1 are recorded: none is left to record",
    ),
];

#[test]
fn stages_that_are_not_sound_in_words() {
    for (record, byte, text, sentence) in STAGE_FAULTS {
        assert_eq!(told(&damaged(record(), byte, text)), sentence);
    }
}

#[test]
fn soundness_in_document_01s_order() {
    let mut columns = Columns {
        size: 0,
        rows: 0,
        growths: 8,
        counts: [0, 3, 3, 4, 5, 6, 7, 17],
        growing: 2,
        window: 9,
        marks: 1 << 63,
    };
    let column = |columns: &Columns| compared(&columns.sector()).map(|fault| fault.column);
    assert_eq!(column(&columns), Some(Column::Size));
    columns.size = 512;
    assert_eq!(column(&columns), Some(Column::Rows));
    columns.rows = 6;
    assert_eq!(column(&columns), Some(Column::Growths));
    columns.growths = 7;
    assert_eq!(column(&columns), Some(Column::Count(0)));
    columns.counts[0] = 1;
    assert_eq!(column(&columns), Some(Column::Count(2)));
    columns.counts[1] = 2;
    assert_eq!(column(&columns), Some(Column::Count(7)));
    columns.counts[7] = 9;
    assert_eq!(column(&columns), Some(Column::Growing));
    columns.growing = 1;
    assert_eq!(column(&columns), Some(Column::Window));
    columns.window = 0;
    assert_eq!(column(&columns), Some(Column::Marks));
    columns.growing = 0;
    columns.window = 1;
    assert_eq!(column(&columns), Some(Column::Window));
    columns.window = 0;
    assert_eq!(column(&columns), Some(Column::Marks));
    columns.marks = 0;
    assert_eq!(column(&columns), None);
}

/// A growth under way from `old` disks to `new`.
fn growth(old: u64, new: u64, rows: u64, window: u64, marks: u64) -> Columns {
    Columns { size: 512, rows, growths: 1, counts: [old, new, 0, 0, 0, 0, 0, 0], growing: 1, window, marks }
}

/// Every pair of disk counts.
fn pairs() -> impl Iterator<Item = (u64, u64)> {
    (1..State::MOST_DISKS).flat_map(|old| (old + 1..=State::MOST_DISKS).map(move |new| (old, new)))
}

/// The marks of the moving blocks whose rows exist: for each of `old` disks the next rows from its own on.
fn moving(old: u64, new: u64, rows: u64, window: u64) -> u64 {
    let added = new - old;
    let band = (0..old).flat_map(|disk| (disk..disk + added).map(move |b1| (disk, b1)));
    band.filter(|(_, b1)| window * new + b1 < rows).map(|(disk, b1)| 1 << (disk * added + (b1 - disk))).sum()
}

#[test]
fn every_mark_of_every_growth() {
    let cut_off = pairs().flat_map(|(old, new)| (1..=new).map(move |left| (old, new, left)));
    for (old, new, left) in cut_off {
        let rows = 3 * new + left;
        let all = moving(old, new, rows, 3);
        let faults =
            (0..64).filter(|mark| compared(&growth(old, new, rows, 3, 1 << mark).sector()).is_some()).count() as u32;
        // A mark that is the only moving block's may not be set either.
        let expected = if all == 1 { 64 } else { all.count_zeros() };
        assert_eq!(faults, expected, "{old} to {new}, {left} rows");
        let found = compared(&growth(old, new, rows, 3, all).sector()).unwrap();
        assert_eq!((found.column, found.byte), (Column::Marks, 130));
        assert_eq!(compared(&growth(old, new, rows, 3, 0).sector()), None);
        let found = compared(&growth(old, new, rows, 4, 0).sector()).unwrap();
        assert_eq!(found.column, Column::Window);
    }
}

/// The sequence of SplitMix64, the same in every run.
struct Random(u64);

impl Random {
    fn next(&mut self) -> u64 {
        self.0 = self.0.wrapping_add(0x9E37_79B9_7F4A_7C15);
        let mixed = (self.0 ^ (self.0 >> 30)).wrapping_mul(0xBF58_476D_1CE4_E5B9);
        let mixed = (mixed ^ (mixed >> 27)).wrapping_mul(0x94D0_49BB_1331_11EB);
        mixed ^ (mixed >> 31)
    }

    fn below(&mut self, bound: u64) -> u64 {
        self.next() % bound
    }

    fn one_in(&mut self, count: u64) -> bool {
        self.below(count) == 0
    }

    fn pick<T: Copy>(&mut self, values: &[T]) -> T {
        values[self.below(values.len() as u64) as usize]
    }

    fn size(&mut self) -> u64 {
        if self.one_in(20) {
            return self.pick(&[0, 1, 511, 513, 600, 65_535, 65_537, 66_048, 9_999_999_744]);
        }
        512 * self.pick(&[1, 2, 3, 64, 127, 128])
    }

    fn rows(&mut self) -> u64 {
        if self.one_in(20) {
            return self.pick(&[0, 1_000_001, 9_999_999_999]);
        }
        self.pick(&[1, 2, 3, 5, 6, 7, 8, 16, 17, 31, 33, 999_999, 1_000_000])
    }

    /// Up to N\[t\] mostly rising, then 0.
    fn counts(&mut self, growths: u64) -> [u64; 8] {
        let mut counts = [0; 8];
        let mut count = self.pick(&[0, 1, 1, 1, 2, 2, 3, 5, 16, 17]);
        for place in counts.iter_mut().take(growths as usize + 1) {
            *place = count;
            count += self.pick(&[1, 1, 1, 1, 1, 1, 2, 2, 3, 5]);
            if self.one_in(60) {
                count = self.pick(&[0, 1, *place, 16, 9_999_999_900]);
            }
        }
        counts
    }

    /// A window of a growth to `new` disks, mostly one that exists.
    fn window(&mut self, rows: u64, new: u64) -> u64 {
        let windows = rows.div_ceil(new.max(1));
        let last = windows.saturating_sub(1);
        if self.one_in(20) {
            return self.pick(&[windows, windows + 1, 9_999_999_999]);
        }
        let within = self.below(windows.max(1));
        self.pick(&[0, within, last, last])
    }

    /// Marks of the window, mostly of moving blocks.
    fn marks(&mut self, old: u64, new: u64, rows: u64, window: u64) -> u64 {
        if new <= old || State::MOST_DISKS < new {
            return self.pick(&[0, 1, 1 << 63]);
        }
        let all = moving(old, new, rows, window);
        let (some, other) = (all & self.next(), 1 << self.below(64));
        self.pick(&[0, 0, some, some, some, all, some | other])
    }

    fn columns(&mut self) -> Columns {
        let (size, rows) = (self.size(), self.rows());
        let growths = if self.one_in(20) {
            self.pick(&[8, 9, 10, 9_999_999_999])
        } else {
            self.pick(&[0, 1, 1, 2, 2, 3, 4, 5, 6, 7])
        };
        let mut columns = Columns {
            size,
            rows,
            growths,
            counts: self.counts(growths),
            growing: self.pick(&[0, 0, 0, 0, 0, 0, 0, 0, 1, 1, 1, 1, 1, 1, 1, 1, 1, 2]),
            window: 0,
            marks: 0,
        };
        let t = growths.clamp(1, 7) as usize;
        let (old, new) = (columns.counts[t - 1], columns.counts[t]);
        if columns.growing == 1 || self.one_in(20) {
            columns.window = self.window(rows, new);
            columns.marks = self.marks(old, new, rows, columns.window);
        }
        columns
    }

    /// The sector, mostly as it is, or with a byte or a number that stands otherwise.
    fn sector(&mut self, columns: &Columns) -> Sector {
        let mut sector = columns.sector();
        let column = self.pick(&Column::ALL);
        match self.below(10) {
            0 => sector[column.range()].rotate_left(1),
            1 => {
                let byte = column.first_byte() + self.below(column.length() as u64) as usize;
                sector[byte] = self.pick(b" 0123456789x\n\0\xFF");
            }
            _ => {}
        }
        sector
    }
}

#[test]
fn random_sectors() {
    let mut random = Random(1);
    let mut sound = 0;
    let mut columns_told = HashSet::new();
    for _ in 0..20_000 {
        let columns = random.columns();
        match compared(&random.sector(&columns)) {
            None => sound += 1,
            Some(fault) => {
                columns_told.insert(fault.column);
            }
        }
    }
    assert!((5_000..15_000).contains(&sound), "{sound} of 20,000");
    assert_eq!(columns_told.len(), Column::ALL.len(), "{columns_told:?}");
}

#[test]
fn columns_there_and_back() {
    let mut random = Random(2);
    let mut read = 0;
    for _ in 0..20_000 {
        let written = random.columns();
        assert_eq!(columns(&written.sector()), Ok(written));
        let sector = random.sector(&written);
        if let Ok(found) = columns(&sector) {
            read += 1;
            assert_eq!(found.sector(), sector);
            assert_eq!(state_of(&found).is_sound(), !is_refused(&sector));
        }
    }
    assert!((15_000..20_000).contains(&read), "{read} of 20,000");
}

/// The state that restart makes of the columns.
fn state_of(columns: &Columns) -> State {
    let mut words = [0; 16];
    words[..3].copy_from_slice(&[columns.size, columns.rows, columns.growths]);
    words[3..11].copy_from_slice(&columns.counts);
    words[11..15].copy_from_slice(&[columns.growing, columns.window, columns.marks, columns.marks]);
    State::from_words(words).unwrap()
}

/// Makes the growth and compares the record after each call. Returns how many records with marks there were.
fn followed(volume: &mut Volume, count: u64, every: usize) -> usize {
    volume.grow(count);
    let (mut calls, mut marked) = (0, 0);
    while volume.state.is_growing() {
        volume.advance();
        calls += 1;
        if calls % every == 0 && volume.state.copied() != volume.state.recorded() {
            volume.checkpoint();
        }
        assert_eq!(sector_of(&volume.state), volume.record());
        assert_eq!(compared(&volume.record()), None);
        marked += usize::from(volume.state.recorded() != 0);
    }
    marked
}

#[test]
fn records_that_the_calls_store() {
    let mut volume = Volume::new(23, 1);
    assert_eq!(sector_of(&volume.state), volume.record());
    let mut marked = 0;
    for (count, every) in [(3, 1), (4, 2), (7, 3), (8, 1), (12, 5), (13, 1), (16, 2)] {
        marked += followed(&mut volume, count, every);
    }
    assert_eq!(volume.state.growths(), State::MOST_GROWTHS);
    assert!(marked > 100, "{marked}");
}

#[test]
fn copies_that_are_not_recorded_are_not_in_the_record() {
    let mut volume = Volume::new(5, 3);
    volume.grow(5);
    volume.state.copy(&mut volume.medium, Block(7)).unwrap();
    assert_eq!(volume.state.copied(), 1 << 3);
    assert_eq!(sector_of(&volume.state), volume.record());
    assert_eq!(columns(&volume.record()).unwrap().marks, 0);
}
