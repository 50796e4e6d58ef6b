//! `write`, `read`, `where` and `holder`.

use std::io::{self, Read};

use serde::Serialize;
use streterva::{Block, Part, Reason, Refusal, Row, State};
use streterva_store::{detail, Error, Look, Options, Volume};

use crate::args::{self, General};
use crate::failure::Failure;
use crate::interrupt;
use crate::numbers::commas;
use crate::tell::{print, tell, Answer};

#[derive(Serialize)]
struct Saved {
    volume: String,
    block: u64,
    bytes: u64,
}

#[derive(Serialize)]
struct Found {
    block: u64,
    disk: u64,
    row: u64,
    file: String,
    byte: u64,
    why: &'static str,
    growth: u64,
    part: Option<&'static str>,
    moves: u64,
}

#[derive(Serialize)]
struct Held {
    disk: u64,
    row: u64,
    block: u64,
}

pub fn write(arguments: &args::OneBlock, options: &Options, json: bool) -> anyhow::Result<()> {
    let mut volume = Volume::open(&arguments.volume, options)?;
    let size = volume.state().size();
    let mut piece = vec![];
    interrupt::waiting(|| io::stdin().lock().take(size + 1).read_to_end(&mut piece))??;
    volume.write(Block(arguments.block), &piece)?;
    volume.flush()?;
    let volume = arguments.volume.display().to_string();
    tell(&Saved { volume, block: arguments.block, bytes: size }, json)
}

impl Answer for Saved {
    fn text(&self) -> String {
        format!("saved block {}, {} bytes\n", commas(self.block), commas(self.bytes))
    }
}

pub fn read(arguments: &args::OneBlock, options: &Options, general: &General) -> anyhow::Result<()> {
    if general.json {
        let sentence = "read prints the block's bytes and has no --json".to_string();
        return Err(Failure::Usage(sentence).into());
    }
    let volume = Volume::open(&arguments.volume, options)?;
    print(volume.view(Block(arguments.block))?)
}

pub fn find(arguments: &args::OneBlock, json: bool) -> anyhow::Result<()> {
    let look = Look::at(&arguments.volume)?;
    let state = &look.state;
    let told = state.address(Block(arguments.block)).map_err(|refusal| refused(refusal, state))?;
    let (why, growth, part) = match told.reason {
        Reason::SetOut => ("set out at format", 0, None),
        Reason::Added { growth } => ("added", growth, None),
        Reason::Moved { growth, part } => ("moved", growth, Some(part_word(part))),
    };
    let (disk, row) = (told.spot.disk, told.spot.row.0);
    let (file, byte) = look.place.spot(state, disk, row);
    let file = file.display().to_string();
    tell(&Found { block: arguments.block, disk, row, file, byte, why, growth, part, moves: told.moves }, json)
}

impl Answer for Found {
    fn text(&self) -> String {
        let why = match (self.growth, self.part) {
            (0, _) => self.why.to_string(),
            (growth, None) => format!("{} by growth {growth}", self.why),
            (growth, Some(part)) => format!("{} by growth {growth} as {part}", self.why),
        };
        format!(
            "block {} is on disk {} in row {}, at byte {} of {}: {why}, {}\n",
            commas(self.block),
            self.disk,
            commas(self.row),
            commas(self.byte),
            self.file,
            match self.moves {
                0 => "never moved".to_string(),
                1 => "moved once".to_string(),
                moves => format!("moved {moves} times"),
            }
        )
    }
}

pub fn holder(arguments: &args::Holder, json: bool) -> anyhow::Result<()> {
    let look = Look::at(&arguments.volume)?;
    let told = look.state.holder(arguments.disk, Row(arguments.row));
    let block = told.map_err(|refusal| refused(refusal, &look.state))?.0;
    tell(&Held { disk: arguments.disk, row: arguments.row, block }, json)
}

impl Answer for Held {
    fn text(&self) -> String {
        format!("disk {}, row {} has block {}\n", self.disk, commas(self.row), commas(self.block))
    }
}

fn refused(refusal: Refusal, state: &State) -> Error {
    let detail = detail(refusal, state);
    Error::Refused { refusal, detail }
}

fn part_word(part: Part) -> &'static str {
    match part {
        Part::Head => "head",
        Part::Body => "body",
        Part::Tail => "tail",
    }
}
