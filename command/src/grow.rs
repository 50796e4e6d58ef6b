//! `grow`, `advance` and `run`.

use std::path::Path;
use std::time::{Duration, Instant};

use indicatif::HumanDuration;
use serde::Serialize;
use streterva::Step;
use streterva_store::{trial, Look, Options, Volume};

use crate::args::{self, General};
use crate::failure::Failure;
use crate::growth::Moves;
use crate::interrupt;
use crate::numbers::{commas, counted};
use crate::progress::Progress;
use crate::status::room;
use crate::tell::{bar, tell, Answer};

/// What a flush is taken to cost in an estimate, in seconds.
const FLUSH_SECONDS: f64 = 0.001;

#[derive(Serialize)]
struct Forecast {
    dry_run: bool,
    volume: String,
    room: u64,
    moves: Moves,
    blocks: u64,
    bytes: u64,
    calls: u64,
    flushes: u64,
    rate: u64,
    estimated_seconds: f64,
}

#[derive(Serialize)]
struct Begun {
    volume: String,
    from: u64,
    to: u64,
    blocks: u64,
    bytes: u64,
    calls_left: u64,
}

#[derive(Serialize)]
struct Advanced {
    volume: String,
    calls: u64,
    copied_blocks: u64,
    copied_bytes: u64,
    seconds: f64,
    calls_left: u64,
    finished: bool,
    interrupted: bool,
}

pub fn grow(arguments: &args::Grow, options: &Options, json: bool) -> anyhow::Result<()> {
    if arguments.dry_run {
        return tell(&forecast(arguments)?, json);
    }
    let mut volume = Volume::open(&arguments.volume, options)?;
    let (from, to, size) = (volume.state().disks(), arguments.count, volume.state().size());
    let calls_left = volume.grow(to, arguments.beyond_doubling, arguments.lengthen)?;
    volume.flush()?;
    let blocks = Moves::of(from, to, volume.state().rows()).blocks();
    let volume = arguments.volume.display().to_string();
    tell(&Begun { volume, from, to, blocks, bytes: blocks * size, calls_left }, json)
}

fn forecast(arguments: &args::Grow) -> anyhow::Result<Forecast> {
    let look = Look::at(&arguments.volume)?;
    let state = &look.state;
    let (_, calls) = trial::grow(state, arguments.count, arguments.beyond_doubling)?;
    let moves = Moves::of(state.disks(), arguments.count, state.rows());
    let (blocks, bytes) = (moves.blocks(), moves.blocks() * state.size());
    let flushes = 2 * moves.windows + 1;
    let seconds = bytes as f64 / arguments.rate as f64 + flushes as f64 * FLUSH_SECONDS;
    Ok(Forecast {
        dry_run: true,
        volume: arguments.volume.display().to_string(),
        room: room(&look),
        moves,
        blocks,
        bytes,
        calls,
        flushes,
        rate: arguments.rate,
        estimated_seconds: seconds,
    })
}

impl Answer for Forecast {
    fn text(&self) -> String {
        let Moves { from, to, windows, stays, leaves, arrives, added } = &self.moves;
        let mut text = format!(
            "{} from {from} to {to} disks would move {}, {} bytes, in {} advance calls and {}\n",
            self.volume,
            counted(self.blocks, "block"),
            commas(self.bytes),
            commas(self.calls),
            counted(*windows, "window")
        );
        let rows = stays.iter().zip(arrives).zip(added).map(|((a, b), c)| a + b + c).max().unwrap_or(0);
        text += "  disk      stay     leave    arrive     added\n";
        for disk in 0..stays.len() {
            let (stay, leave, arrive, new) = (stays[disk], leaves[disk], arrives[disk], added[disk]);
            let bar = bar(stay + arrive, rows, 20);
            text += &format!("  {disk:>4} {stay:>9} {leave:>9} {arrive:>9} {new:>9}  {bar}\n");
        }
        if self.room < *to {
            text += &format!("  the file has room for {}: grow needs --lengthen\n", counted(self.room, "disk"));
        }
        let estimate = HumanDuration(Duration::from_secs_f64(self.estimated_seconds.max(1.0)));
        text + &format!(
            "  an estimate: {estimate}, at {} bytes a second and 1 ms for each of {} flushes\n",
            commas(self.rate),
            commas(self.flushes)
        )
    }
}

impl Answer for Begun {
    fn text(&self) -> String {
        format!(
            "{}: a growth from {} to {} disks has begun: {} to copy, {} bytes, {} advance calls left\n",
            self.volume,
            self.from,
            self.to,
            counted(self.blocks, "block"),
            commas(self.bytes),
            commas(self.calls_left)
        )
    }
}

pub fn advance(arguments: &args::Advance, options: &Options, general: &General) -> anyhow::Result<()> {
    further(&arguments.volume, arguments.calls, arguments.rate, options, general)
}

pub fn run(arguments: &args::Run, options: &Options, general: &General) -> anyhow::Result<()> {
    further(&arguments.volume, u64::MAX, arguments.rate, options, general)
}

/// Makes at most so many advance calls, records the copies made, and tells it.
fn further(path: &Path, calls: u64, rate: Option<u64>, options: &Options, general: &General) -> anyhow::Result<()> {
    let mut volume = Volume::open(path, options)?;
    let start = Instant::now();
    let before = volume.calls_left();
    let size = volume.state().size();
    let copied = steps(&mut volume, calls, rate, general)?;
    volume.settle()?;
    let made = before - volume.calls_left();
    let told = Advanced {
        volume: path.display().to_string(),
        calls: made,
        copied_blocks: copied,
        copied_bytes: copied * size,
        seconds: start.elapsed().as_secs_f64(),
        calls_left: volume.calls_left(),
        finished: !volume.state().is_growing(),
        interrupted: interrupt::requested(),
    };
    tell(&told, general.json)?;
    if told.interrupted && !told.finished {
        return Err(Failure::Interrupted.into());
    }
    Ok(())
}

/// The advance calls, until the growth is finished, as many are made, or the process is asked to end. Gives the blocks
/// copied.
fn steps(volume: &mut Volume, calls: u64, rate: Option<u64>, general: &General) -> Result<u64, streterva_store::Error> {
    let size = volume.state().size();
    let mut progress = Progress::new(general, "copied", uncopied(volume).min(calls), size);
    let (start, mut copied) = (Instant::now(), 0);
    for _ in 0..calls {
        if interrupt::requested() {
            break;
        }
        match volume.advance()?.step {
            Step::Copied { .. } => {
                copied += 1;
                progress.add(1);
                if let Some(rate) = rate {
                    let due = copied as f64 * size as f64 / rate as f64;
                    interrupt::wait_until(start + Duration::from_secs_f64(due));
                }
            }
            Step::Recorded => {}
            Step::Finished => break,
        }
    }
    progress.end();
    Ok(copied)
}

/// The blocks that the growth has still to copy: the calls left without one for each window.
fn uncopied(volume: &Volume) -> u64 {
    let state = volume.state();
    let windows = state.rows().div_ceil(state.disks()) - state.window();
    volume.calls_left().saturating_sub(windows)
}

impl Answer for Advanced {
    fn text(&self) -> String {
        let (copied, seconds) = (counted(self.copied_blocks, "block"), self.seconds);
        let rate = commas((self.copied_bytes as f64 / seconds.max(0.001)) as u64);
        let end = match (self.finished, self.interrupted) {
            (true, _) => "the growth is finished".to_string(),
            (false, false) => format!("{} advance calls left", commas(self.calls_left)),
            (false, true) => format!("ended early, {} advance calls left; run goes on there", commas(self.calls_left)),
        };
        format!("{}: copied {copied} in {seconds:.1} s, {rate} bytes a second; {end}\n", self.volume)
    }
}
