//! `report`: a page to look at and to print.

mod bars;
mod page;

use std::fs;
use std::io::Read;
use std::path::Path;
use std::time::SystemTime;

use anyhow::Context;
use serde::Serialize;
use streterva::{Block, Scene, State};
use streterva_store::{open_blocks, Form, Look};

use crate::args;
use crate::chart::blocks;
use crate::files::write_whole;
use crate::growth::Moves;
use crate::interrupt;
use crate::scenes::{self, Named};
use crate::status::counts;
use crate::tell::{tell, Answer};
use page::{Chart, Facts, Growth, NamedScene, Scenes};

/// Rows of the wall chart that the page shows.
const MOST_ROWS: u64 = 64;

#[derive(Serialize)]
struct Drawn {
    volume: String,
    page: String,
    bytes: u64,
}

impl Answer for Drawn {
    fn text(&self) -> String {
        format!("{}: the report is in {}\n", self.volume, self.page)
    }
}

pub fn run(arguments: &args::Report, json: bool) -> anyhow::Result<()> {
    let look = Look::at(&arguments.volume)?;
    let scenes = match &arguments.scenes {
        Some(path) => Some(scenes_of(&look.state, path)?),
        None => None,
    };
    let text = page::page(&facts(&look, scenes)?);
    let replace = arguments.force || is_report(&arguments.out);
    write_whole(&arguments.out, text.as_bytes(), replace, &look.place)?;
    let drawn = Drawn {
        volume: arguments.volume.display().to_string(),
        page: arguments.out.display().to_string(),
        bytes: text.len() as u64,
    };
    tell(&drawn, json)
}

/// Whether there is an earlier report, which may be replaced without a word.
fn is_report(path: &Path) -> bool {
    let mut start = String::new();
    let read = fs::File::open(path).and_then(|file| file.take(1024).read_to_string(&mut start));
    let is_file = path.symlink_metadata().is_ok_and(|told| told.is_file());
    is_file && read.is_ok() && start.contains(page::GENERATOR)
}

fn facts(look: &Look, scenes: Option<Scenes>) -> anyhow::Result<Facts> {
    let state = &look.state;
    let open = open_blocks(state);
    let name = look.place.path().file_name().unwrap_or(look.place.path().as_os_str());
    Ok(Facts {
        name: name.to_string_lossy().into_owned(),
        made: now(),
        form: match look.place.form() {
            Form::Image => "one image file".to_string(),
            Form::Folder => "a folder with a file for each disk".to_string(),
        },
        block_bytes: state.size(),
        rows: state.rows(),
        counts: counts(state),
        open_blocks: open,
        now: scenes::served(state, &[Scene { first: 0, count: open }])?,
        growth: growth(look),
        moved: moved(state)?,
        scenes,
        chart: chart(state),
    })
}

/// The date and time, to the minute.
fn now() -> String {
    let text = humantime::format_rfc3339_seconds(SystemTime::now()).to_string();
    format!("{} {} UTC", &text[..10], &text[11..16])
}

fn growth(look: &Look) -> Option<Growth> {
    let state = &look.state;
    let moves = Moves::newest(state)?;
    let running = state.is_growing();
    Some(Growth {
        number: state.growths(),
        from: moves.from,
        to: moves.to,
        running,
        calls_left: look.calls_left,
        calls_total: moves.calls(),
        window: if running { state.window() } else { moves.windows },
        windows: moves.windows,
        stays: moves.stays,
        arrives: moves.arrives,
        leaves: moves.leaves,
        added: moves.added,
    })
}

/// How many open blocks were moved 0, 1, .. t times.
fn moved(state: &State) -> anyhow::Result<Vec<u64>> {
    let mut moved = vec![0; state.growths() as usize + 1];
    for block in 0..open_blocks(state) {
        if block.is_multiple_of(4096) {
            interrupt::go_on()?;
        }
        moved[state.address(Block(block))?.moves as usize] += 1;
    }
    Ok(moved)
}

fn chart(state: &State) -> Chart {
    let shown = state.rows().min(MOST_ROWS);
    let rows: Vec<_> = (0..shown).map(|row| (row, blocks(state, row))).collect();
    let times = |block: &Option<u64>| match block {
        Some(block) => state.address(Block(*block)).map_or(0, |address| address.moves),
        None => 0,
    };
    let moved = rows.iter().map(|(_, cells)| cells.iter().map(times).collect()).collect();
    Chart { rows, moved, left_out: state.rows() - shown }
}

fn scenes_of(state: &State, path: &Path) -> anyhow::Result<Scenes> {
    let list = scenes::read(path)?;
    let all: Vec<Scene> = list.iter().map(|named| named.scene).collect();
    let served = scenes::served(state, &all)?;
    let each = |named: Named| {
        let Scene { first, count } = named.scene;
        let served = scenes::served(state, &[named.scene])?;
        Ok(NamedScene { first, count, name: named.name, served })
    };
    let scenes: anyhow::Result<_> = list.into_iter().map(each).collect();
    Ok(Scenes { source: path.display().to_string(), scenes: scenes.context("a scene of the list")?, served })
}
