use std::fs;
use std::ops::Range;
use std::path::Path;
use std::sync::Arc;

use streterva::{Advanced, Block, Refusal, State, Step};

use crate::drives::{flush_all, Drives, MachineDrives};
use crate::error::Error;
use crate::mapping;
use crate::medium::{Files, Medium};
use crate::place::{disk_bytes, keep_name, Form, Opened, Place};
use crate::trial;

/// How a volume is opened.
#[derive(Clone)]
pub struct Options {
    /// What flushes the drives.
    pub drives: Arc<dyn Drives>,
}

impl Default for Options {
    fn default() -> Options {
        let drives = Arc::new(MachineDrives);
        Options { drives }
    }
}

/// A volume on files, open for reading and writing, and locked against other openers.
///
/// The calls are the library's; the medium that they are lent is the mapped files. A call that is refused with 18 or 19
/// is followed by a flush of the drives, `flushed` and the call again, so that callers never see the two. A save is
/// kept from the next [`Volume::flush`] on. A volume that is dropped without it is left as a power cut would leave it.
pub struct Volume {
    files: Files,
    medium: Medium,
    state: State,
    calls_left: u64,
    /// The disks of a folder with stores since the last flush; disk d is bit d.
    stored_to: u64,
    options: Options,
    /// Whether a flush has failed: what is down is unknown then.
    flush_failed: bool,
}

impl Volume {
    /// Opens the volume at this path, which is an image file or a folder.
    pub fn open(path: &Path, options: &Options) -> Result<Volume, Error> {
        let place = Place::at(path)?;
        place.has_record()?;
        let record = Opened::existing(&place.record_path())?;
        let restarted = trial::restart(&place.sector()?, &record.path)?;
        if let Some(shortcoming) = place.shortcomings(&restarted.state).into_iter().next() {
            return Err(shortcoming);
        }
        let disks = match place.form() {
            Form::Image => vec![],
            Form::Folder => {
                in_whole_pages(&restarted.state)?;
                let all = (0..restarted.state.disks()).map(|disk| place.disk_path(disk));
                all.map(|disk| Opened::existing(&disk)).collect::<Result<_, _>>()?
            }
        };
        let files = Files { place, record, disks };
        Volume::restarted(files, &restarted.state, options)
    }

    /// Restart takes nothing to be pending. A process that was killed may have left stores that are not down, so the
    /// drives are flushed first.
    fn restarted(files: Files, told: &State, options: &Options) -> Result<Volume, Error> {
        let all: Vec<&Opened> = files.disks.iter().chain([&files.record]).collect();
        flush_all(&*options.drives, &all)?;
        let medium = Medium::of(&files, told)?;
        let restarted = State::restart(medium.bytes())?;
        let (state, calls_left) = (restarted.state, restarted.calls_left);
        Ok(Volume::with(files, medium, state, calls_left, options))
    }

    pub(crate) fn with(files: Files, medium: Medium, state: State, calls_left: u64, options: &Options) -> Volume {
        let (stored_to, flush_failed) = (0, false);
        let options = options.clone();
        Volume { files, medium, state, calls_left, stored_to, options, flush_failed }
    }

    /// The state.
    pub fn state(&self) -> &State {
        &self.state
    }

    /// Where the volume is.
    pub fn place(&self) -> &Place {
        &self.files.place
    }

    /// The advance calls left, as the last call that tells them told.
    pub fn calls_left(&self) -> u64 {
        self.calls_left
    }

    /// The open blocks are those below this number.
    pub fn open_blocks(&self) -> u64 {
        open_blocks(&self.state)
    }

    /// Shows a block where it stands in the mapped files.
    pub fn view(&self, block: Block) -> Result<&[u8], Error> {
        let shown = self.state.view(self.medium.bytes(), &[], self.state.disks(), block);
        shown.map_err(|refusal| self.refused(refusal))
    }

    /// Fills the piece with the block.
    pub fn read(&self, block: Block, piece: &mut [u8]) -> Result<(), Error> {
        let read = self.state.read(self.medium.bytes(), block, piece);
        read.map_err(|refusal| self.refused(refusal))
    }

    /// Stores the piece as the block. It is kept from the next [`Volume::flush`] on.
    pub fn write(&mut self, block: Block, piece: &[u8]) -> Result<(), Error> {
        if let Ok(address) = self.state.address(block) {
            self.expect_stores(address.spot.disk, address.spot.row.0, 1);
        }
        self.store(|state, medium| state.write(medium, block, piece))?;
        self.stored_to |= 1 << self.state.address(block)?.spot.disk;
        Ok(())
    }

    /// Begins a growth to `count` disks and tells the advance calls left. An image file has to have room for them, or
    /// with `lengthen` is made longer; in a folder the files of the added disks are made, where they do not exist yet.
    pub fn grow(&mut self, count: u64, beyond_doubling: bool, lengthen: bool) -> Result<u64, Error> {
        trial::grow(&self.state, count, beyond_doubling)?;
        // Before files are made for it: where the flush fails there is no growth.
        self.flush()?;
        match self.files.place.form() {
            Form::Image => self.make_room_in_image(count, lengthen)?,
            Form::Folder => self.add_disks(count)?,
        }
        self.calls_left = self.store(|state, medium| match beyond_doubling {
            false => state.grow(medium, count),
            true => state.grow_beyond_doubling(medium, count),
        })?;
        Ok(self.calls_left)
    }

    /// Takes the growth one step. A copy is lost at the end of the process if no checkpoint records it.
    pub fn advance(&mut self) -> Result<Advanced, Error> {
        if self.state.copied() == 0 {
            let rows = self.state.disks();
            self.added_disks().for_each(|disk| self.expect_stores(disk, self.state.window() * rows, rows));
        }
        let advanced = self.store(|state, medium| state.advance(medium))?;
        self.calls_left = advanced.calls_left;
        if let Step::Copied { .. } = advanced.step {
            self.stored_to_added_disks();
        }
        Ok(advanced)
    }

    /// Copies one block of the window under way, and tells the advance calls left.
    pub fn copy(&mut self, block: Block) -> Result<u64, Error> {
        self.calls_left = self.store(|state, medium| state.copy(medium, block))?;
        self.stored_to_added_disks();
        Ok(self.calls_left)
    }

    /// Records the copies made and tells the advance calls left.
    pub fn checkpoint(&mut self) -> Result<u64, Error> {
        self.calls_left = self.store(|state, medium| state.checkpoint(medium))?;
        Ok(self.calls_left)
    }

    /// Records copies that are not recorded yet, if there are any, and flushes: what was done so far is kept.
    pub fn settle(&mut self) -> Result<(), Error> {
        if self.state.copied() != self.state.recorded() {
            self.checkpoint()?;
        }
        self.flush()
    }

    /// Flushes the drives behind the stores that are pending, and calls `flushed`. Where a flush fails, nobody can say
    /// what is down; then every later store and flush fails too.
    pub fn flush(&mut self) -> Result<(), Error> {
        if self.flush_failed {
            let sentence = "a flush of the drives has failed, so nothing more is stored; open the volume again";
            return Err(Error::Declined(sentence.to_string()));
        }
        let flushed = self.flush_pending();
        self.flush_failed = flushed.is_err();
        flushed?;
        self.stored_to = 0;
        Ok(self.state.flushed()?)
    }

    fn flush_pending(&mut self) -> Result<(), Error> {
        let mut stored_to = vec![];
        if self.state.record_is_pending() {
            self.medium.write_record(&self.files)?;
            stored_to.push(&self.files.record);
        }
        if self.state.blocks_are_pending() {
            self.medium.write_behind_record(&self.files)?;
            match self.files.place.form() {
                Form::Image => stored_to = vec![&self.files.record],
                Form::Folder => {
                    let disks = self.files.disks.iter().zip(0..);
                    stored_to.extend(disks.filter(|(_, d)| self.stored_to >> d & 1 == 1).map(|(disk, _)| disk));
                }
            }
        }
        flush_all(&*self.options.drives, &stored_to)
    }

    /// Prepares work that goes through many blocks one after the other, where files are mapped in large pages. It only
    /// saves time.
    pub fn expect_much(&self) {
        let disk = disk_bytes(&self.state);
        if self.files.place.form() == Form::Image || disk.is_multiple_of(mapping::LARGE_PAGE as u64) {
            self.medium.expect_much();
        }
    }

    /// Asks the kernel to begin writing what is stored, so that a later flush has less to wait for.
    pub fn begin_flush(&self) {
        match self.files.place.form() {
            Form::Image => mapping::begin_writing(&self.files.record.file),
            Form::Folder => self.files.disks.iter().for_each(|disk| mapping::begin_writing(&disk.file)),
        }
    }

    /// Makes a call that stores; where it waits for a flush, after one.
    fn store<T>(&mut self, call: impl Fn(&mut State, &mut [u8]) -> Result<T, Refusal>) -> Result<T, Error> {
        if self.flush_failed {
            self.flush()?;
        }
        match call(&mut self.state, self.medium.bytes_mut()) {
            Err(Refusal::FlushBlocks | Refusal::FlushRecord) => self.flush()?,
            told => return told.map_err(|refusal| self.refused(refusal)),
        }
        let told = call(&mut self.state, self.medium.bytes_mut());
        told.map_err(|refusal| self.refused(refusal))
    }

    fn refused(&self, refusal: Refusal) -> Error {
        let detail = detail(refusal, &self.state);
        Error::Refused { refusal, detail }
    }

    /// The disks that the newest growth adds; copies go to them alone.
    fn added_disks(&self) -> Range<u64> {
        let newest = self.state.growths() as usize;
        let old = newest.checked_sub(1).map_or(0, |before| self.state.counts()[before]);
        old..self.state.disks()
    }

    fn stored_to_added_disks(&mut self) {
        self.stored_to = self.added_disks().fold(self.stored_to, |all, disk| all | 1 << disk);
    }

    /// Prepares stores to these rows of a disk, where its file cannot be mapped in large pages. It only saves time.
    fn expect_stores(&self, disk: u64, row: u64, rows: u64) {
        let from_first_disk = disk * disk_bytes(&self.state);
        if let Some(opened) = self.files.disks.get(disk as usize) {
            if !from_first_disk.is_multiple_of(mapping::LARGE_PAGE as u64) {
                let size = self.state.size();
                mapping::expect_stores(&opened.file, row * size, rows * size);
            }
        }
    }

    fn make_room_in_image(&mut self, count: u64, lengthen: bool) -> Result<(), Error> {
        let image = &mut self.files.record;
        let state = &self.state;
        let before = State::medium_bytes(state.size(), state.rows(), state.disks()) as u64;
        let needed = State::medium_bytes(state.size(), state.rows(), count) as u64;
        if image.bytes < needed && !lengthen {
            let room = (image.bytes - State::RECORD_BYTES as u64) / disk_bytes(state);
            let detail = format!("{} has room for {room} disks", image.path.display());
            return Err(Error::Refused { refusal: Refusal::MediumTooShort, detail });
        }
        let length = image.bytes;
        let made = image.lengthen(needed).and_then(|()| set_aside(image, before, needed - before));
        if made.is_err() && image.bytes > length && image.file.set_len(length).is_ok() {
            image.bytes = length;
        }
        made?;
        self.medium.map_image(image)
    }

    /// Opens or makes the files of the added disks and maps them. Those that were made are removed where one fails.
    fn add_disks(&mut self, count: u64) -> Result<(), Error> {
        self.files.place.no_two_alike(count)?;
        let mut added = vec![];
        let there = self.files.disks.len() as u64;
        let opened = (there..count).try_for_each(|disk| {
            let path = self.files.place.disk_path(disk);
            added.push(Opened::existing_or_new(&path)?);
            Ok(())
        });
        // All of them are locked before one that is there is made longer.
        let made = opened.and_then(|()| added.iter_mut().try_for_each(|new| make_disk(new, &self.state)));
        if let Err(error) = made {
            added.iter().filter(|new| new.made).for_each(|new| drop(fs::remove_file(&new.path)));
            return Err(error);
        }
        keep_name(&self.files.place.record_path())?;
        added.iter().try_for_each(|disk| self.medium.map_disk(disk, &self.state))?;
        self.files.disks.append(&mut added);
        Ok(())
    }
}

/// The open blocks of a sound state are those below this number: while a growth is under way, those that it found.
pub fn open_blocks(state: &State) -> u64 {
    let finished = state.growths() - u64::from(state.is_growing());
    state.counts()[finished as usize] * state.rows()
}

/// What the sentence of a refusal does not tell.
pub fn detail(refusal: Refusal, state: &State) -> String {
    match refusal {
        Refusal::BlockNotOpen => format!("blocks 0 to {} are open", open_blocks(state) - 1),
        Refusal::PieceSize => format!("a block has {} bytes", state.size()),
        Refusal::NoSuchSpot => format!("there are disks 0 to {} and rows 0 to {}", state.disks() - 1, state.rows() - 1),
        _ => String::new(),
    }
}

/// Gives the file of a disk its length and its space on the drive.
pub(crate) fn make_disk(disk: &mut Opened, state: &State) -> Result<(), Error> {
    let bytes = disk_bytes(state);
    disk.lengthen(bytes)?;
    set_aside(disk, 0, bytes)
}

/// Sets space aside in a file, and makes that and its length last. A block device has its space.
pub(crate) fn set_aside(opened: &Opened, from: u64, bytes: u64) -> Result<(), Error> {
    let told = opened.file.metadata().map_err(Error::file("read", &opened.path))?;
    if told.is_file() {
        let allocated = mapping::allocate(&opened.file, from, bytes);
        allocated.map_err(Error::file("set space aside in", &opened.path))?;
    }
    opened.keep()
}

/// The disks of a folder are mapped one behind the other, so each has to fill its pages.
pub(crate) fn in_whole_pages(state: &State) -> Result<(), Error> {
    let (rows, size) = (state.rows(), state.size());
    if disk_bytes(state).is_multiple_of(mapping::PAGE as u64) {
        return Ok(());
    }
    Err(Error::Declined(format!(
        "in a folder rows times block size has to be a multiple of {}, and {rows} times {size} is not",
        mapping::PAGE
    )))
}
