//! `check`.

use std::ops::Range;
use std::path::Path;

use serde::Serialize;
use streterva::{Block, Refusal, Row, State};
use streterva_store::{open_blocks, trial, Error, Place};

use crate::args::{self, General};
use crate::failure::Failure;
use crate::interrupt;
use crate::numbers::counted;
use crate::progress::Progress;
use crate::tell::{tell, Answer};

/// The exit status where there are faults.
const FAULTS: u8 = 4;

/// How many faults are told; all are counted.
const MOST_TOLD: usize = 20;

/// Blocks checked between two looks at the clock.
const BLOCKS_AT_A_TIME: u64 = 4096;

#[derive(Serialize)]
struct Checked {
    volume: String,
    blocks: u64,
    spots: u64,
    faults: u64,
    told: Vec<String>,
}

impl Checked {
    fn fault(&mut self, sentence: impl ToString) {
        self.faults += 1;
        if self.told.len() < MOST_TOLD {
            self.told.push(sentence.to_string());
        }
    }
}

pub fn run(arguments: &args::OneVolume, general: &General) -> anyhow::Result<()> {
    let checked = check(&arguments.volume, general)?;
    tell(&checked, general.json)?;
    match checked.faults {
        0 => Ok(()),
        _ => Err(Failure::Told(FAULTS).into()),
    }
}

/// Record, files, then blocks and spots. What is no fault of the volume, as a file that cannot be opened, ends it.
fn check(path: &Path, general: &General) -> anyhow::Result<Checked> {
    let volume = path.display().to_string();
    let mut checked = Checked { volume, blocks: 0, spots: 0, faults: 0, told: vec![] };
    let place = Place::at(path)?;
    let told = place.sector().and_then(|sector| trial::restart(&sector, &place.record_path()));
    let state = match told {
        Ok(restarted) => restarted.state,
        Err(fault @ (Error::TooShort { .. } | Error::NoVolume { .. })) => {
            checked.fault(fault);
            return Ok(checked);
        }
        Err(error) => return Err(error.into()),
    };
    place.shortcomings(&state).iter().for_each(|shortcoming| checked.fault(shortcoming));
    check_blocks(&state, &mut checked, general)?;
    check_spots(&state, &mut checked)?;
    Ok(checked)
}

/// Address of every open block is a spot whose holder is the block.
fn check_blocks(state: &State, checked: &mut Checked, general: &General) -> anyhow::Result<()> {
    let open = open_blocks(state);
    let mut progress = Progress::new(general, "checked", open, state.size());
    for first in (0..open).step_by(BLOCKS_AT_A_TIME as usize) {
        interrupt::go_on()?;
        let blocks = first..(first + BLOCKS_AT_A_TIME).min(open);
        progress.add(blocks.end - blocks.start);
        blocks_agree(state, blocks, checked);
    }
    progress.end();
    checked.blocks = open;
    Ok(())
}

fn blocks_agree(state: &State, blocks: Range<u64>, checked: &mut Checked) {
    for block in blocks {
        let told = state.address(Block(block)).and_then(|address| {
            let spot = address.spot;
            Ok((spot, state.holder(spot.disk, spot.row)?))
        });
        match told {
            Ok((_, held)) if held.0 == block => {}
            Ok((spot, held)) => checked.fault(format!(
                "block {block} is told on disk {} in row {}, where block {} is told",
                spot.disk, spot.row.0, held.0
            )),
            Err(refusal) => checked.fault(format!("block {block} is refused with {}: {refusal}", refusal.number())),
        }
    }
}

/// As many spots have a block as blocks are open; the others have none.
fn check_spots(state: &State, checked: &mut Checked) -> anyhow::Result<()> {
    let mut held = 0;
    for row in 0..state.rows() {
        if row.is_multiple_of(BLOCKS_AT_A_TIME) {
            interrupt::go_on()?;
        }
        held += (0..state.disks()).filter(|disk| has_block(state, *disk, row, checked)).count() as u64;
    }
    checked.spots = state.rows() * state.disks();
    if held != checked.blocks {
        checked.fault(format!("{held} spots have a block, and {} blocks are open", checked.blocks));
    }
    Ok(())
}

/// Whether a spot has a block. Only while a growth is under way may it have none.
fn has_block(state: &State, disk: u64, row: u64, checked: &mut Checked) -> bool {
    let told = state.holder(disk, Row(row));
    match told {
        Ok(_) => {}
        Err(Refusal::NoBlockThere) if state.is_growing() => {}
        Err(refusal) => checked.fault(format!("disk {disk}, row {row} is refused with {}", refusal.number())),
    }
    told.is_ok()
}

impl Answer for Checked {
    fn text(&self) -> String {
        let mut text = String::new();
        self.told.iter().for_each(|fault| text += &format!("{}: {fault}\n", self.volume));
        let looked = format!("{} and {}", counted(self.blocks, "block"), counted(self.spots, "spot"));
        match self.faults {
            0 => text + &format!("{}: no fault found; {looked} agree\n", self.volume),
            faults => text + &format!("{}: {}; looked at {looked}\n", self.volume, counted(faults, "fault")),
        }
    }
}
