//! Power cuts and killed processes on drives with a write cache, played through on files.
//!
//! A file shows what was stored in it, through a mapping or by a write; the drives of this test know which bytes of it
//! are down. A power cut leaves of each page or sector that is not down the old bytes or the new ones. A killed process
//! leaves the files as they are, and the drives as well.

mod common;

use std::collections::BTreeMap;
use std::fs::{self, File};
use std::io;
use std::mem;
use std::path::{Path, PathBuf};
use std::sync::{Arc, Mutex, MutexGuard};

use common::{all_is_kept, contents, piece, plan, put_contents, quick_folder, Checked, Random, Saves, FORMS};
use streterva::{Block, Refusal};
use streterva_store::record::{sector_of, Sector};
use streterva_store::{open_blocks, Drives, Error, Form, Options, Volume, PAGE};
use tempfile::TempDir;

/// What happens in the flushes of one call.
#[derive(Clone, Copy, Debug, PartialEq)]
enum InFlush {
    None,
    /// A power cut before one file is flushed, of which a copy is made: the flush itself goes on.
    Cut,
    /// The process ends before a file is flushed.
    Kill,
    /// Files are told to be flushed and are not.
    LeftOut,
}

/// Drives that may keep what is stored until they are flushed.
struct CachedDrives {
    cache: Mutex<Cache>,
}

struct Cache {
    /// The folder in which the volume is.
    home: PathBuf,
    /// The bytes of each file that are down. Of a file that was never flushed these are zeros: its length is made to
    /// last by the store layer itself.
    down: BTreeMap<PathBuf, Vec<u8>>,
    in_flush: InFlush,
    /// How many files are flushed before it.
    after: u64,
    random: Random,
    /// What a cut inside a flush has left, if nobody has looked at it yet.
    left: Option<TempDir>,
}

impl CachedDrives {
    /// The drives behind the files in this folder, all of whose bytes are down.
    fn of(home: &Path, random: Random) -> Arc<CachedDrives> {
        let cache = Cache {
            home: home.to_path_buf(),
            down: contents(home),
            in_flush: InFlush::None,
            after: 0,
            random,
            left: None,
        };
        let cache = Mutex::new(cache);
        Arc::new(CachedDrives { cache })
    }

    fn cache(&self) -> MutexGuard<'_, Cache> {
        self.cache.lock().expect("no flush has panicked")
    }

    fn prepare(&self, in_flush: InFlush, after: u64) {
        let mut cache = self.cache();
        cache.in_flush = in_flush;
        cache.after = after;
    }
}

impl Drives for CachedDrives {
    fn flush(&self, path: &Path, _: &File) -> io::Result<()> {
        let mut cache = self.cache();
        match cache.next_in_flush() {
            InFlush::Kill => return Err(io::Error::other("the process ends here")),
            InFlush::LeftOut => return Ok(()),
            InFlush::Cut => {
                let left = cache.cut();
                cache.left = Some(left);
            }
            InFlush::None => {}
        }
        let name = path.strip_prefix(&cache.home).expect("a file of the volume").to_path_buf();
        cache.down.insert(name, fs::read(path)?);
        Ok(())
    }
}

impl Cache {
    fn next_in_flush(&mut self) -> InFlush {
        if self.after > 0 {
            self.after -= 1;
            return InFlush::None;
        }
        match self.in_flush {
            InFlush::Cut => mem::replace(&mut self.in_flush, InFlush::None),
            other => other,
        }
    }

    /// Makes a folder with what a power cut leaves of the files now.
    fn cut(&mut self) -> TempDir {
        let unit = self.random.choose(&[512, PAGE]);
        // So many of four units land: none at 0, and all at 4.
        let landing = self.random.below(5);
        let mut files = contents(&self.home);
        for (name, bytes) in &mut files {
            let down = self.down(name, bytes.len());
            let units = down.chunks(unit).zip(bytes.chunks_mut(unit));
            let kept = units.filter(|_| self.random.below(4) >= landing);
            kept.for_each(|(old, new)| new.copy_from_slice(old));
        }
        let left = quick_folder();
        put_contents(left.path(), &files);
        left
    }

    /// What is down of a file that has so many bytes now.
    fn down(&self, name: &Path, bytes: usize) -> Vec<u8> {
        let mut down = self.down.get(name).cloned().unwrap_or_default();
        down.resize(bytes, 0);
        down
    }

    /// Whether the file with the record shows only bytes in its first page that are down.
    fn front_is_down(&self, record: &Path) -> bool {
        let name = record.strip_prefix(&self.home).expect("a file of the volume");
        let shown = fs::read(record).expect("the file can be read");
        let front = shown.len().min(PAGE);
        shown[..front] == self.down(name, shown.len())[..front]
    }
}

/// The calls of one run.
const STEPS: u64 = 200;

/// The numbers of a volume, and the disk counts that it grows through.
#[derive(Clone, Copy)]
struct Shape {
    size: u64,
    rows: u64,
    counts: &'static [u64],
}

const fn shape(size: u64, rows: u64, counts: &'static [u64]) -> Shape {
    Shape { size, rows, counts }
}

const SHAPES: [Shape; 4] =
    [shape(512, 24, &[3, 5, 6]), shape(4096, 9, &[2, 4]), shape(1024, 20, &[1, 2, 4, 7]), shape(8192, 6, &[3, 4, 5])];

/// Shapes whose disks do not fill pages, for images alone; the first one begins shorter than a page.
const ODD_SHAPES: [Shape; 3] =
    [shape(512, 2, &[1, 2, 3, 5, 9]), shape(512, 13, &[3, 5, 6]), shape(1536, 7, &[2, 4, 5])];

#[derive(Clone, Copy, Debug)]
enum Call {
    Save(u64),
    Read(u64),
    Flush,
    BeginFlush,
    Grow(u64),
    Advance,
    Copy(u64),
    Checkpoint,
}

/// What has happened in a run.
#[derive(Debug, Default)]
struct Tally {
    cuts_between_calls: u64,
    cuts_inside_flushes: u64,
    cuts_while_growing: u64,
    kills_between_calls: u64,
    kills_inside_flushes: u64,
    saves_checked: u64,
}

/// A volume and somebody who knows what has to be in it.
struct Run<'a> {
    random: Random,
    shape: Shape,
    leave_out: bool,
    /// Whether the growths go by copies and checkpoints instead of advance calls.
    own_order: bool,
    home: TempDir,
    drives: Arc<CachedDrives>,
    /// None only between the end of one process and the opening by the next.
    volume: Option<Volume>,
    saves: Saves,
    /// The record that is down.
    record: Sector,
    version: u64,
    /// Calls to be made next, the last one first.
    due: Vec<Call>,
    tally: &'a mut Tally,
}

impl Run<'_> {
    fn new(form: Form, seed: u64, leave_out: bool, tally: &mut Tally) -> Run<'_> {
        let mut random = Random::new(seed);
        let shape = match form {
            Form::Image => random.choose(&[&SHAPES[..], &ODD_SHAPES].concat()),
            Form::Folder => random.choose(&SHAPES),
        };
        let mut plan = plan(form, shape.size, shape.rows, shape.counts[0]);
        plan.room = random.choose(&[plan.room, shape.counts[1]]);
        let home = quick_folder();
        let drives = CachedDrives::of(home.path(), random.another());
        let path = home.path().join("volume");
        let volume = Volume::create(&path, &plan, &on(&drives)).expect("nothing is there");
        Run {
            shape,
            leave_out,
            own_order: random.one_in(3),
            random,
            home,
            drives,
            record: sector_of(volume.state()),
            volume: Some(volume),
            saves: Saves::default(),
            version: 0,
            due: vec![],
            tally,
        }
    }

    fn volume(&mut self) -> &mut Volume {
        self.volume.as_mut().expect("the volume is open")
    }

    /// Makes one call, with power cuts inside it and behind it; the process may be killed.
    fn step(&mut self) -> Checked {
        let in_flush = self.draw_in_flush();
        let call = self.due.pop().unwrap_or_else(|| self.draw_call());
        let before = sector_of(self.volume().state());
        // An image is one file, so that nothing is flushed beside it.
        let others = u64::from(self.volume().place().form() == Form::Folder);
        self.drives.prepare(in_flush, self.random.below(1 + others));
        let told = self.make(call);
        // The flush of a call comes before its own store.
        let left = self.drives.cache().left.take();
        if let Some(left) = left {
            self.tally.cuts_inside_flushes += 1;
            if self.power_cut(left, &[self.record, before])? {
                return Ok(());
            }
        }
        match told {
            Ok(()) => self.note(call, before)?,
            Err(Error::File { tried: "flush", .. }) if in_flush == InFlush::Kill => {
                self.tally.kills_inside_flushes += 1;
                return self.go_on(None, &[self.record, before]);
            }
            Err(Error::Refused { refusal: Refusal::CopyNotRecorded, .. }) => self.due = vec![call, Call::Checkpoint],
            Err(Error::Refused { refusal: Refusal::NothingToRecord, .. }) => {}
            Err(error) => return Err(format!("{call:?}: {error}")),
        }
        self.end_between_calls()
    }

    fn draw_in_flush(&mut self) -> InFlush {
        match self.random.below(16) {
            0..=3 => InFlush::Cut,
            4 => InFlush::Kill,
            5..=9 if self.leave_out => InFlush::LeftOut,
            _ => InFlush::None,
        }
    }

    fn draw_call(&mut self) -> Call {
        let state = *self.volume().state();
        let block = self.random.below(open_blocks(&state));
        let next = self.shape.counts.get(state.growths() as usize + 1);
        match (self.random.below(24), state.is_growing(), next) {
            (0..=6, _, _) => Call::Save(block),
            (7..=8, _, _) => Call::Flush,
            (9, _, _) => Call::Read(block),
            (10, _, _) => Call::BeginFlush,
            (11..=12, true, _) => Call::Copy(block),
            (13..=14, true, _) => Call::Checkpoint,
            (_, true, _) if self.own_order => Call::Copy(block),
            (_, true, _) => Call::Advance,
            (11..=12, false, Some(&count)) => Call::Grow(count),
            _ => Call::Save(block),
        }
    }

    fn make(&mut self, call: Call) -> Result<(), Error> {
        self.version += 1;
        let (size, version) = (self.shape.size, self.version);
        let volume = self.volume.as_mut().expect("the volume is open");
        match call {
            Call::Save(block) => volume.write(Block(block), &piece(size, block, version)),
            Call::Read(_) => Ok(()),
            Call::Flush => volume.flush(),
            Call::BeginFlush => {
                volume.begin_flush();
                Ok(())
            }
            Call::Grow(count) => volume.grow(count, true, true).map(drop),
            Call::Advance => volume.advance().map(drop),
            Call::Copy(block) => copy_from(volume, block),
            Call::Checkpoint => volume.checkpoint().map(drop),
        }
    }

    /// Notes what a call has changed. Blocks that are no longer pending were flushed, by whatever call.
    fn note(&mut self, call: Call, before: Sector) -> Checked {
        let volume = self.volume.as_ref().expect("the volume is open");
        match call {
            Call::Save(block) => self.saves.writing(block, self.version),
            Call::Read(block) => self.saves.check_newest(volume, block)?,
            _ => {}
        }
        if !volume.state().blocks_are_pending() {
            self.saves.flushed();
        }
        let now = sector_of(volume.state());
        if !volume.state().record_is_pending() {
            self.record = now;
        } else if now != before {
            // A record is stored only where the one before is down.
            self.record = before;
        }
        Ok(())
    }

    /// Between two calls the power may fail, and the process may be killed.
    fn end_between_calls(&mut self) -> Checked {
        let allowed = [self.record];
        if self.random.one_in(12) {
            if !self.leave_out && !self.front_is_down() {
                return Err("a store to the first page is in the file before a flush".to_string());
            }
            let left = self.drives.cache().cut();
            self.tally.cuts_between_calls += 1;
            return self.power_cut(left, &allowed).map(drop);
        }
        if self.random.one_in(40) {
            self.tally.kills_between_calls += 1;
            return self.go_on(None, &allowed);
        }
        Ok(())
    }

    fn front_is_down(&mut self) -> bool {
        let record = self.volume().place().record_path();
        self.drives.cache().front_is_down(&record)
    }

    /// Looks at what a power cut has left, and tells whether the run goes on with it.
    fn power_cut(&mut self, left: TempDir, allowed: &[Sector]) -> Result<bool, String> {
        let files = contents(left.path());
        self.look_at(left.path(), allowed)?;
        if !self.random.one_in(3) {
            return Ok(false);
        }
        // As the cut left them: looking has completed the growth.
        let again = quick_folder();
        put_contents(again.path(), &files);
        self.go_on(Some(again), allowed)?;
        Ok(true)
    }

    /// Whether the volume opens on the machine's own drives with all that was saved, now and after its growth is
    /// completed.
    fn look_at(&mut self, left: &Path, allowed: &[Sector]) -> Checked {
        let mut volume = opened(left, &Options::default(), allowed)?;
        self.tally.cuts_while_growing += u64::from(volume.state().is_growing());
        self.tally.saves_checked += self.saves.number_kept() as u64;
        all_is_kept(&mut volume, &self.saves)
    }

    /// The process ends and the next one opens the volume: after a power cut what it left, or else the files as they
    /// are.
    fn go_on(&mut self, left: Option<TempDir>, allowed: &[Sector]) -> Checked {
        self.volume = None;
        if let Some(left) = left {
            self.drives = CachedDrives::of(left.path(), self.random.another());
            self.home = left;
        }
        self.drives.prepare(InFlush::None, 0);
        let volume = opened(self.home.path(), &on(&self.drives), allowed)?;
        self.saves.cut();
        self.saves.check(&volume)?;
        self.due.clear();
        self.record = sector_of(volume.state());
        self.volume = Some(volume);
        Ok(())
    }
}

/// How a volume is opened on these drives.
fn on(drives: &Arc<CachedDrives>) -> Options {
    Options { drives: drives.clone() }
}

/// Copies the first block from this one on that can be copied now, if there is one.
fn copy_from(volume: &mut Volume, first: u64) -> Result<(), Error> {
    for block in first..volume.open_blocks() {
        match volume.copy(Block(block)) {
            Err(Error::Refused { refusal: Refusal::NotMoving | Refusal::AlreadyCopied, .. }) => {}
            told => return told.map(drop),
        }
    }
    Ok(())
}

/// Opens the volume in this folder, which has one of these records.
fn opened(folder: &Path, options: &Options, allowed: &[Sector]) -> Result<Volume, String> {
    let volume = Volume::open(&folder.join("volume"), options);
    let volume = volume.map_err(|error| format!("the volume does not open: {error}"))?;
    if allowed.contains(&sector_of(volume.state())) {
        return Ok(volume);
    }
    Err(format!("the record is neither the one that was down nor a later one: {:?}", volume.state()))
}

/// Calls, power cuts and kills with this seed, until something is lost.
fn run(form: Form, seed: u64, leave_out: bool, tally: &mut Tally) -> Checked {
    let mut run = Run::new(form, seed, leave_out, tally);
    (0..STEPS).try_for_each(|_| run.step())?;
    run.drives.prepare(InFlush::None, 0);
    let mut volume = run.volume.take().expect("the volume is open");
    all_is_kept(&mut volume, &run.saves)
}

fn nothing_is_lost(form: Form) {
    let mut tally = Tally::default();
    for seed in 0..28 {
        run(form, seed, false, &mut tally).unwrap_or_else(|loss| panic!("{form:?}, seed {seed}: {loss}"));
    }
    println!("{form:?}: {tally:?}");
    assert!(tally.cuts_between_calls >= 300 && tally.cuts_inside_flushes >= 100, "{tally:?}");
    assert!(tally.cuts_while_growing >= 300 && tally.saves_checked >= 5000, "{tally:?}");
    assert!(tally.kills_between_calls >= 50 && tally.kills_inside_flushes >= 25, "{tally:?}");
}

#[test]
fn nothing_is_lost_of_an_image() {
    nothing_is_lost(Form::Image);
}

#[test]
fn nothing_is_lost_of_a_folder() {
    nothing_is_lost(Form::Folder);
}

/// Where this saw no loss, the tests above could see none.
#[test]
fn flushes_that_are_left_out_lose_saves() {
    for form in FORMS {
        let losses_with = |leave_out: bool| -> Vec<String> {
            let mut tally = Tally::default();
            (0..8).filter_map(|seed| run(form, seed, leave_out, &mut tally).err()).collect()
        };
        let losses = losses_with(true);
        println!("{form:?}: {losses:#?}");
        assert!(losses.iter().any(|loss| loss.contains("is lost")), "{form:?}: {losses:?}");
        assert!(losses_with(false).is_empty());
    }
}
