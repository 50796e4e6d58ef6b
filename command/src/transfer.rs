//! `import` and `export`.

use std::fs::File;
use std::io::{self, IoSlice, Read, Write};
use std::ops::Range;
use std::os::fd::AsFd;
use std::path::Path;
use std::sync::mpsc::{sync_channel, Receiver, SyncSender};
use std::thread;
use std::time::Instant;

use anyhow::Context;
use serde::Serialize;
use streterva::{Block, Refusal};
use streterva_store::{open_to_look, Error, Options, Volume};

use crate::args::{self, General};
use crate::failure::Failure;
use crate::files::NewFile;
use crate::interrupt;
use crate::numbers::{commas, counted};
use crate::progress::Progress;
use crate::tell::{not_printed, tell, Answer};

/// Bytes read from a file at a time, or the most whole blocks below it.
const PART_BYTES: u64 = 1 << 20;

/// Blocks written with one call at the most; systems have a limit.
const MOST_SLICES: u64 = 512;

/// Parts that are read ahead of the saves.
const PARTS_AHEAD: usize = 4;

/// Bytes saved between two wishes to begin a flush.
const BYTES_BETWEEN_FLUSHES: u64 = 64 << 20;

#[derive(Serialize)]
struct Transferred {
    done: &'static str,
    volume: String,
    file: String,
    first: u64,
    blocks: u64,
    bytes: u64,
    seconds: f64,
    complete: bool,
}

impl Answer for Transferred {
    fn text(&self) -> String {
        let rate = commas((self.bytes as f64 / self.seconds.max(0.001)) as u64);
        let mut text = format!(
            "{} {} from block {} on, {} bytes in {:.1} s, {rate} bytes a second\n",
            self.done,
            counted(self.blocks, "block"),
            commas(self.first),
            commas(self.bytes),
            self.seconds
        );
        if !self.complete {
            text += "ended early\n";
        }
        text
    }
}

pub fn import(arguments: &args::Import, options: &Options, general: &General) -> anyhow::Result<()> {
    let (file, bytes) = open_to_look(&arguments.file)?;
    let mut volume = Volume::open(&arguments.volume, options)?;
    volume.place().is_apart_from(&arguments.file)?;
    let start = Instant::now();
    let size = volume.state().size();
    let blocks = bytes.div_ceil(size);
    fits(&volume, arguments.first, blocks)?;
    let mut progress = Progress::new(general, "saved", blocks, size);
    let saved = save_all(&mut volume, file, arguments.first, blocks, &mut progress);
    // What was stored before an error is kept too.
    volume.flush()?;
    progress.end();
    let saved = saved.with_context(|| format!("cannot import {}", arguments.file.display()))?;
    let told = Transferred {
        done: "saved",
        volume: arguments.volume.display().to_string(),
        file: arguments.file.display().to_string(),
        first: arguments.first,
        blocks: saved,
        bytes: bytes.min(saved * size),
        seconds: start.elapsed().as_secs_f64(),
        complete: saved == blocks,
    };
    tell(&told, general.json)?;
    ended_early(told.complete)
}

/// Fails where the blocks are not all open.
fn fits(volume: &Volume, first: u64, blocks: u64) -> Result<(), Error> {
    let open = volume.open_blocks();
    if blocks == 0 || first.checked_add(blocks).is_some_and(|end| end <= open) {
        return Ok(());
    }
    let detail =
        format!("{} from {first} on are needed and blocks 0 to {} are open", counted(blocks, "block"), open - 1);
    Err(Error::Refused { refusal: Refusal::BlockNotOpen, detail })
}

/// Saves the file's blocks and gives their number; fewer where the process is asked to end. The file is read by a
/// thread of its own, some parts ahead of the saves.
fn save_all(volume: &mut Volume, file: File, first: u64, blocks: u64, progress: &mut Progress) -> anyhow::Result<u64> {
    let size = volume.state().size();
    let (full, parts) = sync_channel(PARTS_AHEAD);
    let (used, empty) = sync_channel(PARTS_AHEAD);
    (0..PARTS_AHEAD).for_each(|_| used.send(vec![]).expect("the channel has room"));
    thread::spawn(move || read_parts(file, blocks * size, size, &empty, &full));
    volume.expect_much();
    let (mut saved, mut next_flush) = (0, BYTES_BETWEEN_FLUSHES);
    while saved < blocks && !interrupt::requested() {
        let part: Vec<u8> = parts.recv().expect("parts come until all are read")?;
        let mut pieces = part.chunks_exact(size as usize).zip(first + saved..);
        pieces.try_for_each(|(piece, block)| volume.write(Block(block), piece))?;
        saved += part.len() as u64 / size;
        progress.add(part.len() as u64 / size);
        // Nobody takes it once all is read.
        drop(used.send(part));
        if saved * size >= next_flush {
            volume.begin_flush();
            next_flush += BYTES_BETWEEN_FLUSHES;
        }
    }
    Ok(saved)
}

/// Reads so many bytes of the file part by part, each into a vector that was used before, until nobody wants more.
fn read_parts(
    mut file: File,
    bytes: u64,
    size: u64,
    empty: &Receiver<Vec<u8>>,
    full: &SyncSender<io::Result<Vec<u8>>>,
) {
    let most = PART_BYTES / size * size;
    let mut left = bytes;
    while let (1.., Ok(mut part)) = (left, empty.recv()) {
        part.resize(left.min(most) as usize, 0);
        left -= part.len() as u64;
        let read = fill(&mut file, &mut part, left == 0).map(|()| part);
        if full.send(read).is_err() {
            return;
        }
    }
}

/// Fills the bytes from the file; in the last part what the file does not have is zeros.
fn fill(file: &mut File, bytes: &mut [u8], last: bool) -> io::Result<()> {
    let mut filled = 0;
    while filled < bytes.len() {
        match file.read(&mut bytes[filled..])? {
            0 if last => {
                bytes[filled..].fill(0);
                return Ok(());
            }
            0 => return Err(io::Error::new(io::ErrorKind::UnexpectedEof, "it has become shorter")),
            more => filled += more,
        }
    }
    Ok(())
}

pub fn export(arguments: &args::Export, options: &Options, general: &General) -> anyhow::Result<()> {
    let to_standard_output = arguments.file == Path::new("-");
    if to_standard_output && general.json {
        let sentence = "to standard output export prints the blocks' bytes and has no --json".to_string();
        return Err(Failure::Usage(sentence).into());
    }
    let volume = Volume::open(&arguments.volume, options)?;
    let start = Instant::now();
    let (first, size) = (arguments.first, volume.state().size());
    // At least one, so that a first block that is not open is refused.
    let rest = volume.open_blocks().saturating_sub(first).max(1);
    let blocks = arguments.blocks.unwrap_or(rest);
    fits(&volume, first, blocks)?;
    let mut progress = Progress::new(general, "written", blocks, size);
    if to_standard_output {
        let mut out = File::from(io::stdout().as_fd().try_clone_to_owned().map_err(not_printed)?);
        let written = write_all(&volume, first..first + blocks, &mut out, not_printed, &mut progress);
        progress.end();
        return written;
    }
    let mut new = NewFile::begin(&arguments.file, arguments.force, volume.place())?;
    let failed = |error| Error::file("write", &arguments.file)(error).into();
    let written = write_all(&volume, first..first + blocks, new.file(), failed, &mut progress);
    progress.end();
    written?;
    new.keep()?;
    let told = Transferred {
        done: "wrote",
        volume: arguments.volume.display().to_string(),
        file: arguments.file.display().to_string(),
        first,
        blocks,
        bytes: blocks * size,
        seconds: start.elapsed().as_secs_f64(),
        complete: true,
    };
    tell(&told, general.json)
}

/// Writes these blocks from the mapped files, some at a time; `failed` makes the error where that fails.
fn write_all(
    volume: &Volume,
    blocks: Range<u64>,
    out: &mut File,
    failed: impl Fn(io::Error) -> anyhow::Error,
    progress: &mut Progress,
) -> anyhow::Result<()> {
    volume.expect_much();
    let at_a_time = (PART_BYTES / volume.state().size()).min(MOST_SLICES);
    for start in blocks.clone().step_by(at_a_time as usize) {
        interrupt::go_on()?;
        let part = start..blocks.end.min(start + at_a_time);
        let views = part.clone().map(|block| volume.view(Block(block)).map(IoSlice::new));
        write_slices(out, &mut views.collect::<Result<Vec<_>, _>>()?).map_err(&failed)?;
        progress.add(part.end - part.start);
    }
    Ok(())
}

/// Writes all slices, with as few calls as the system takes.
fn write_slices(out: &mut File, mut slices: &mut [IoSlice]) -> io::Result<()> {
    while !slices.is_empty() {
        match out.write_vectored(slices) {
            Ok(0) => return Err(io::ErrorKind::WriteZero.into()),
            Ok(written) => IoSlice::advance_slices(&mut slices, written),
            Err(error) if error.kind() == io::ErrorKind::Interrupted => {}
            Err(error) => return Err(error),
        }
    }
    Ok(())
}

fn ended_early(complete: bool) -> anyhow::Result<()> {
    match complete {
        true => Ok(()),
        false => Err(Failure::Interrupted.into()),
    }
}
