//! `examine`, `backup-record` and `restore-record`.

use std::os::unix::fs::FileExt;
use std::path::Path;

use serde::Serialize;
use streterva::{table_move, Refusal, Restarted, Row, State};
use streterva_store::record::{self, Fault, Sector};
use streterva_store::{open_blocks, open_to_look, restore, trial, Error, Form, Look, Options, Place, PAGE};

use crate::args;
use crate::failure::{self, Failure};
use crate::files::write_whole;
use crate::growth::Moves;
use crate::numbers::commas;
use crate::status::counts;
use crate::tell::{tell, Answer};

#[derive(Serialize)]
struct Examined {
    file: String,
    byte: u64,
    sound: bool,
    refused: Option<Refused>,
    record: Option<Record>,
}

/// Why a sector is refused with 13.
#[derive(Serialize)]
struct Refused {
    refusal: u64,
    column: String,
    byte: u64,
    reason: String,
}

#[derive(Serialize)]
struct Record {
    block_bytes: u64,
    rows: u64,
    growths: u64,
    counts: Vec<u64>,
    growing: bool,
    window: u64,
    windows: u64,
    marks: Vec<u64>,
    recorded_blocks: Vec<u64>,
    open_blocks: u64,
    calls_left: u64,
}

pub fn examine(arguments: &args::Examine, json: bool) -> anyhow::Result<()> {
    let (sector, path, byte) = sector_in(&arguments.file)?;
    let told = trial::restart(&sector, &path);
    let file = path.display().to_string();
    let (refused, record) = match &told {
        Ok(restarted) => (None, Some(Record::of(restarted))),
        Err(_) => (record::fault(&sector).map(Refused::of), None),
    };
    let sound = record.is_some();
    tell(&Examined { file, byte, sound, refused, record }, json)?;
    match told {
        Ok(_) => Ok(()),
        Err(error) => Err(Failure::Told(failure::status(&error.into())).into()),
    }
}

/// The sector in a folder's file `record`, in the last bytes of a file of one page, or in the first of any other.
fn sector_in(path: &Path) -> anyhow::Result<(Sector, std::path::PathBuf, u64)> {
    let place = Place::at(path)?;
    let first = (place.sector()?, place.record_path(), place.record_byte());
    let page_of_record = Place::new(path, Form::Folder).record_byte();
    let (file, bytes) = open_to_look(&first.1)?;
    if place.form() == Form::Image && bytes == PAGE as u64 && record::fault(&first.0).is_some() {
        let mut sector = [0; State::RECORD_BYTES];
        file.read_exact_at(&mut sector, page_of_record)?;
        if record::fault(&sector).is_none() {
            return Ok((sector, first.1, page_of_record));
        }
    }
    Ok(first)
}

impl Refused {
    fn of(fault: Fault) -> Refused {
        Refused {
            refusal: Refusal::NoRecord.number(),
            column: fault.column.name(),
            byte: fault.byte as u64,
            reason: fault.reason,
        }
    }
}

impl Record {
    fn of(restarted: &Restarted) -> Record {
        let state = &restarted.state;
        let marks: Vec<u64> = (0..64).filter(|mark| state.recorded() >> mark & 1 == 1).collect();
        Record {
            block_bytes: state.size(),
            rows: state.rows(),
            growths: state.growths(),
            counts: counts(state),
            growing: state.is_growing(),
            window: state.window(),
            windows: if state.is_growing() { state.rows().div_ceil(state.disks()) } else { 0 },
            recorded_blocks: marks.iter().filter_map(|mark| block_of(*mark, state)).collect(),
            marks,
            open_blocks: open_blocks(state),
            calls_left: restarted.calls_left,
        }
    }
}

/// The block of the window under way with this recorded mark: it lives at its new spot.
fn block_of(mark: u64, state: &State) -> Option<u64> {
    let Moves { from, to, .. } = Moves::newest(state)?;
    let added = to - from;
    let row = state.window() * to + mark / added + mark % added;
    let disk = table_move(from, added, mark)?.disk;
    Some(state.holder(disk, Row(row)).ok()?.0)
}

impl Answer for Examined {
    fn text(&self) -> String {
        let place = format!("{}, bytes {} to {}", self.file, self.byte, self.byte + 511);
        match (&self.record, &self.refused) {
            (Some(record), _) => format!("{place}: the record of a sound state\n{}", record.text()),
            (None, Some(wrong)) => format!(
                "{place}: refused with {}\n  column {}, byte {} of the record: {}\n",
                wrong.refusal, wrong.column, wrong.byte, wrong.reason
            ),
            (None, None) => format!("{place}: refused with 13\n"),
        }
    }
}

impl Record {
    fn text(&self) -> String {
        let counts: Vec<String> = self.counts.iter().map(u64::to_string).collect();
        let blocks: Vec<String> = self.recorded_blocks.iter().map(|block| commas(*block)).collect();
        let mut text = format!(
            "  Z        {:>11}   bytes in a block\n  s        {:>11}   rows on each disk\n  \
             t        {:>11}   growths\n  N        {:>11}   disks at format and after each growth\n",
            commas(self.block_bytes),
            commas(self.rows),
            self.growths,
            counts.join(", ")
        );
        if !self.growing {
            return text + &format!("  growing            0   blocks 0 to {} are open\n", commas(self.open_blocks - 1));
        }
        text += &format!(
            "  growing            1   blocks 0 to {} are open\n  w        {:>11}   windows finished, of {}\n  \
             marks    {:>11}   moving blocks recorded in window {}\n",
            commas(self.open_blocks - 1),
            commas(self.window),
            commas(self.windows),
            self.marks.len(),
            self.window
        );
        if !blocks.is_empty() {
            text += &format!("                         these: {}\n", blocks.join(" "));
        }
        text + &format!("  left     {:>11}   advance calls\n", commas(self.calls_left))
    }
}

#[derive(Serialize)]
struct Copied {
    volume: String,
    file: String,
    done: &'static str,
    counts: Vec<u64>,
    calls_left: u64,
}

impl Copied {
    fn new(done: &'static str, volume: &Path, file: &Path, state: &State, calls_left: u64) -> Copied {
        let (volume, file) = (volume.display().to_string(), file.display().to_string());
        Copied { volume, file, done, counts: counts(state), calls_left }
    }
}

impl Answer for Copied {
    fn text(&self) -> String {
        let counts: Vec<String> = self.counts.iter().map(u64::to_string).collect();
        let told = format!("disk counts {}, {} advance calls left", counts.join(", "), commas(self.calls_left));
        match self.done {
            "backed up" => format!("{}: the record is kept in {}: {told}\n", self.volume, self.file),
            _ => format!("{}: the record of {} is stored: {told}\n", self.volume, self.file),
        }
    }
}

pub fn backup(arguments: &args::BackupRecord, json: bool) -> anyhow::Result<()> {
    let look = Look::at_record(&arguments.volume)?;
    write_whole(&arguments.file, &look.sector, arguments.force, &look.place)?;
    tell(&Copied::new("backed up", &arguments.volume, &arguments.file, &look.state, look.calls_left), json)
}

pub fn restore_record(arguments: &args::RestoreRecord, options: &Options, json: bool) -> anyhow::Result<()> {
    let sector = kept(&arguments.file)?;
    let restarted = restore(&arguments.volume, &sector, &arguments.file, arguments.force, options)?;
    let Restarted { state, calls_left } = restarted;
    tell(&Copied::new("restored", &arguments.volume, &arguments.file, &state, calls_left), json)
}

/// The sector in a file that `backup-record` made.
fn kept(path: &Path) -> anyhow::Result<Sector> {
    let sector = Place::new(path, Form::Image).sector()?;
    let (_, bytes) = open_to_look(path)?;
    if bytes != sector.len() as u64 {
        let sentence = format!("{} has {bytes} bytes, and a record has {}", path.display(), sector.len());
        return Err(Error::Declined(sentence).into());
    }
    Ok(sector)
}
