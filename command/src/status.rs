//! `status`.

use std::io::{self, IsTerminal};
use std::time::{Duration, Instant};

use serde::Serialize;
use streterva::{Scene, State};
use streterva_store::{open_blocks, Form, Look};

use crate::args::{self, General};
use crate::growth::Moves;
use crate::interrupt;
use crate::numbers::{commas, counted, per_cent};
use crate::tell::{bar, print, tell, Answer};

/// The shortest time between two looks, in seconds.
const LEAST_INTERVAL: f64 = 0.05;

#[derive(Serialize)]
pub struct Status {
    volume: String,
    form: &'static str,
    bytes: u64,
    room: u64,
    block_bytes: u64,
    rows: u64,
    disks: u64,
    counts: Vec<u64>,
    open_blocks: u64,
    open_bytes: u64,
    growth: Option<Growth>,
    blocks_on_disk: Vec<u64>,
}

/// The growth under way.
#[derive(Serialize)]
struct Growth {
    number: u64,
    from: u64,
    to: u64,
    window: u64,
    windows: u64,
    calls_left: u64,
    calls: u64,
    per_cent: f64,
}

pub fn run(arguments: &args::Status, general: &General) -> anyhow::Result<()> {
    let told = tell(&Status::at(&arguments.volume)?, general.json);
    if !arguments.watch {
        return told;
    }
    let on_terminal = io::stdout().is_terminal() && !general.json;
    loop {
        interrupt::wait_until(Instant::now() + Duration::from_secs_f64(arguments.interval.max(LEAST_INTERVAL)));
        if interrupt::requested() {
            return Ok(());
        }
        if on_terminal {
            // To the upper left corner, and nothing below it.
            print(b"\x1b[H\x1b[J")?;
        }
        tell(&Status::at(&arguments.volume)?, general.json)?;
    }
}

impl Status {
    fn at(path: &std::path::Path) -> anyhow::Result<Status> {
        Ok(Status::of(&Look::at(path)?)?)
    }

    pub fn of(look: &Look) -> Result<Status, streterva::LoadRefusal> {
        let state = &look.state;
        let open = open_blocks(state);
        let all = Scene { first: 0, count: open };
        let served = state.load(&[all])?;
        Ok(Status {
            volume: look.place.path().display().to_string(),
            form: form_word(look.place.form()),
            bytes: look.place.bytes(state),
            room: room(look),
            block_bytes: state.size(),
            rows: state.rows(),
            disks: state.disks(),
            counts: counts(state),
            open_blocks: open,
            open_bytes: open * state.size(),
            growth: Growth::of(look),
            blocks_on_disk: served[..state.disks() as usize].to_vec(),
        })
    }
}

impl Growth {
    fn of(look: &Look) -> Option<Growth> {
        let state = &look.state;
        let moves = Moves::newest(state).filter(|_| state.is_growing())?;
        let calls = moves.calls();
        Some(Growth {
            number: state.growths(),
            from: moves.from,
            to: moves.to,
            window: state.window(),
            windows: moves.windows,
            calls_left: look.calls_left,
            calls,
            per_cent: per_cent(calls - look.calls_left, calls),
        })
    }

    fn text(&self) -> String {
        format!(
            "  growth {} from {} to {} disks: {} {} %, {} of {} advance calls left, {} of {} windows finished\n",
            self.number,
            self.from,
            self.to,
            bar(self.calls - self.calls_left, self.calls, 20),
            self.per_cent,
            commas(self.calls_left),
            commas(self.calls),
            commas(self.window),
            commas(self.windows)
        )
    }
}

impl Answer for Status {
    fn text(&self) -> String {
        let form = match self.form {
            "image" => {
                format!("an image file of {} bytes with room for {}", commas(self.bytes), counted(self.room, "disk"))
            }
            _ => format!("a folder with {}", counted(self.disks, "disk file")),
        };
        let history: Vec<String> = self.counts.iter().map(u64::to_string).collect();
        let mut text = format!(
            "{}: {form}\n  {} of {} in blocks of {} bytes, history of disk counts: {}\n  \
             blocks 0 to {} are open, {} bytes\n",
            self.volume,
            counted(self.disks, "disk"),
            counted(self.rows, "row"),
            commas(self.block_bytes),
            history.join(", "),
            commas(self.open_blocks - 1),
            commas(self.open_bytes)
        );
        match &self.growth {
            Some(growth) => text += &growth.text(),
            None => text += "  no growth is under way\n",
        }
        for (disk, blocks) in self.blocks_on_disk.iter().enumerate() {
            text += &format!("  disk {disk:>2} {} {}\n", bar(*blocks, self.rows, 40), counted(*blocks, "block"));
        }
        text
    }
}

/// N[0] to N[t].
pub fn counts(state: &State) -> Vec<u64> {
    state.counts()[..=state.growths() as usize].to_vec()
}

pub fn form_word(form: Form) -> &'static str {
    match form {
        Form::Image => "image",
        Form::Folder => "folder",
    }
}

/// The disks that the volume has room for.
pub fn room(look: &Look) -> u64 {
    let state = &look.state;
    match look.place.form() {
        Form::Image => {
            let behind_record = look.place.bytes(state).saturating_sub(State::RECORD_BYTES as u64);
            (behind_record / (state.rows() * state.size())).min(State::MOST_DISKS)
        }
        Form::Folder => State::MOST_DISKS,
    }
}
