use std::collections::HashSet;
use std::fs::{self, File, OpenOptions};
use std::io::{self, Seek, SeekFrom};
use std::os::unix::fs::{FileExt, FileTypeExt, MetadataExt};
use std::path::{Path, PathBuf};

use streterva::State;

use crate::error::Error;
use crate::mapping::PAGE;
use crate::record::Sector;

/// The two forms in which a volume lies on files.
#[derive(Clone, Copy, Debug, PartialEq, Eq)]
pub enum Form {
    /// One image file, or one block device: the medium as document 01 has it, with room for more disks.
    Image,
    /// A folder with a file `record`, whose last 512 bytes are the record, and `disk-00` .. for the disks: files, or
    /// links to block devices.
    Folder,
}

/// Where a volume is, or is to be.
#[derive(Clone, Debug)]
pub struct Place {
    path: PathBuf,
    form: Form,
}

/// How often a record is read anew while a process that has the volume stores it.
const READS: u32 = 100;

impl Place {
    /// The place of this form at this path.
    pub fn new(path: &Path, form: Form) -> Place {
        let path = path.to_path_buf();
        Place { path, form }
    }

    /// The place at this path: a folder, or else an image file.
    pub fn at(path: &Path) -> Result<Place, Error> {
        let told = fs::metadata(path).map_err(Error::file("open", path))?;
        let form = if told.is_dir() { Form::Folder } else { Form::Image };
        Ok(Place::new(path, form))
    }

    /// The image file or the folder.
    pub fn path(&self) -> &Path {
        &self.path
    }

    /// Which of the two forms it has.
    pub fn form(&self) -> Form {
        self.form
    }

    /// The file that has the record.
    pub fn record_path(&self) -> PathBuf {
        match self.form {
            Form::Image => self.path.clone(),
            Form::Folder => self.path.join("record"),
        }
    }

    /// The byte of that file at which the record begins.
    pub fn record_byte(&self) -> u64 {
        match self.form {
            Form::Image => 0,
            Form::Folder => (PAGE - State::RECORD_BYTES) as u64,
        }
    }

    /// The file of a disk, in a folder.
    pub fn disk_path(&self, disk: u64) -> PathBuf {
        self.path.join(format!("disk-{disk:02}"))
    }

    /// The file that has a spot of this volume, and the byte at which the spot begins in it.
    pub fn spot(&self, state: &State, disk: u64, row: u64) -> (PathBuf, u64) {
        let from_disk = row * state.size();
        match self.form {
            Form::Image => (self.path.clone(), State::RECORD_BYTES as u64 + disk * disk_bytes(state) + from_disk),
            Form::Folder => (self.disk_path(disk), from_disk),
        }
    }

    /// Fails where the place is a folder without a file for the record.
    pub(crate) fn has_record(&self) -> Result<(), Error> {
        let there = self.record_path().symlink_metadata();
        if self.form == Form::Folder && there.is_err_and(|error| error.kind() == io::ErrorKind::NotFound) {
            let (path, fault) = (self.path.clone(), None);
            return Err(Error::NoVolume { path, fault });
        }
        Ok(())
    }

    /// The record sector, without a lock: it is read until two reads agree, since another process may be storing it.
    pub fn sector(&self) -> Result<Sector, Error> {
        self.has_record()?;
        let path = self.record_path();
        let (file, bytes) = open_to_look(&path)?;
        let needed = self.record_byte() + State::RECORD_BYTES as u64;
        if bytes < needed {
            return Err(Error::TooShort { path, bytes, needed });
        }
        let read = || {
            let mut sector = [0; State::RECORD_BYTES];
            file.read_exact_at(&mut sector, self.record_byte())?;
            Ok(sector)
        };
        agreeing(read).map_err(Error::file("read", &path))
    }

    /// What is wrong with the files for the disks of a sound state: those that are missing or too short, in their
    /// order, and two names of one file.
    pub fn shortcomings(&self, state: &State) -> Vec<Error> {
        match self.form {
            Form::Image => {
                let needed = State::medium_bytes(state.size(), state.rows(), state.disks());
                long_enough(&self.path, needed as u64).err().into_iter().collect()
            }
            Form::Folder => {
                let short =
                    (0..state.disks()).filter_map(|disk| long_enough(&self.disk_path(disk), disk_bytes(state)).err());
                short.chain(self.no_two_alike(state.disks()).err()).collect()
            }
        }
    }

    /// Fails where the path names a file of the volume itself, by this name or another.
    pub fn is_apart_from(&self, path: &Path) -> Result<(), Error> {
        let Ok(told) = fs::metadata(path) else { return Ok(()) };
        let disks = (0..State::MOST_DISKS).map(|disk| self.disk_path(disk));
        let mut own = disks.chain([self.record_path()]).filter_map(|own| fs::metadata(own).ok());
        match own.any(|own| identity(&own) == identity(&told)) {
            true => Err(Error::Declined(format!("{} is a file of the volume itself", path.display()))),
            false => Ok(()),
        }
    }

    /// Fails where two names of this folder, with so many disks, are those of one file or device.
    pub(crate) fn no_two_alike(&self, disks: u64) -> Result<(), Error> {
        let mut seen = HashSet::new();
        let names = (0..disks).map(|disk| self.disk_path(disk)).chain([self.record_path()]);
        for path in names {
            let Ok(told) = fs::metadata(&path) else { continue };
            if !seen.insert(identity(&told)) {
                let sentence = format!("{} is a second name of another file of the volume", path.display());
                return Err(Error::Declined(sentence));
            }
        }
        Ok(())
    }

    /// The bytes of the image file, or of the files of a folder that exist.
    pub fn bytes(&self, state: &State) -> u64 {
        let length = |path: PathBuf| open_to_look(&path).map_or(0, |(_, bytes)| bytes);
        match self.form {
            Form::Image => length(self.path.clone()),
            Form::Folder => (0..state.disks()).map(|disk| length(self.disk_path(disk))).sum(),
        }
    }
}

/// The bytes of one disk.
pub(crate) fn disk_bytes(state: &State) -> u64 {
    state.rows() * state.size()
}

fn agreeing(read: impl Fn() -> io::Result<Sector>) -> io::Result<Sector> {
    let mut last = read()?;
    for _ in 0..READS {
        let next = read()?;
        if next == last {
            return Ok(next);
        }
        last = next;
    }
    Err(io::Error::other("its record changes all the time"))
}

fn long_enough(path: &Path, needed: u64) -> Result<(), Error> {
    let (_, bytes) = open_to_look(path)?;
    if bytes < needed {
        let path = path.to_path_buf();
        return Err(Error::TooShort { path, bytes, needed });
    }
    Ok(())
}

/// A file or block device, opened for reading, and its length.
pub fn open_to_look(path: &Path) -> Result<(File, u64), Error> {
    is_file_or_device(path)?;
    let file = File::open(path).map_err(Error::file("open", path))?;
    let bytes = length(&file).map_err(Error::file("read", path))?;
    Ok((file, bytes))
}

/// Fails where the path names something else, as a pipe, of which even opening would wait.
fn is_file_or_device(path: &Path) -> Result<(), Error> {
    let kind = fs::metadata(path).map_err(Error::file("open", path))?.file_type();
    if kind.is_file() || kind.is_block_device() {
        return Ok(());
    }
    let error = io::Error::other("it is neither a file nor a block device");
    Err(Error::file("open", path)(error))
}

/// Block devices have a length of 0 in their metadata, so the end is sought.
fn length(file: &File) -> io::Result<u64> {
    let mut file = file;
    let end = file.seek(SeekFrom::End(0))?;
    file.rewind()?;
    Ok(end)
}

/// A file of a volume, opened for reading and writing and locked against other openers.
pub(crate) struct Opened {
    pub path: PathBuf,
    pub file: File,
    pub bytes: u64,
    /// Whether this process made it just now.
    pub made: bool,
}

impl Opened {
    /// Opens a file that is there.
    pub fn existing(path: &Path) -> Result<Opened, Error> {
        is_file_or_device(path)?;
        let opened = OpenOptions::new().read(true).write(true).open(path);
        let file = opened.map_err(Error::file("open", path))?;
        Opened::locked(path, file, false)
    }

    /// Opens a file that is there, or makes an empty one.
    pub fn existing_or_new(path: &Path) -> Result<Opened, Error> {
        let opened = OpenOptions::new().read(true).write(true).create_new(true).open(path);
        match opened {
            Ok(file) => Opened::locked(path, file, true),
            Err(error) if error.kind() == io::ErrorKind::AlreadyExists => Opened::existing(path),
            Err(error) => Err(Error::file("make", path)(error)),
        }
    }

    fn locked(path: &Path, file: File, made: bool) -> Result<Opened, Error> {
        lock(&file, path)?;
        let bytes = length(&file).map_err(Error::file("read", path))?;
        let path = path.to_path_buf();
        Ok(Opened { path, file, bytes, made })
    }

    /// Makes a file as long as this; a block device has to be.
    pub fn lengthen(&mut self, needed: u64) -> Result<(), Error> {
        if self.bytes >= needed {
            return Ok(());
        }
        let told = self.file.metadata().map_err(Error::file("read", &self.path))?;
        if !told.is_file() {
            let (path, bytes) = (self.path.clone(), self.bytes);
            return Err(Error::TooShort { path, bytes, needed });
        }
        self.file.set_len(needed).map_err(Error::file("lengthen", &self.path))?;
        self.bytes = needed;
        Ok(())
    }

    /// Empties a file; a block device keeps what it has.
    pub fn empty(&mut self) -> Result<(), Error> {
        let told = self.file.metadata().map_err(Error::file("read", &self.path))?;
        if told.is_file() {
            self.file.set_len(0).map_err(Error::file("empty", &self.path))?;
            self.bytes = 0;
        }
        Ok(())
    }

    /// Makes the file's length and its allocated space last.
    pub fn keep(&self) -> Result<(), Error> {
        self.file.sync_all().map_err(Error::file("flush", &self.path))
    }
}

/// What tells one file or device from another, whatever its names are.
fn identity(told: &fs::Metadata) -> (bool, u64, u64) {
    match told.file_type().is_block_device() {
        true => (true, told.rdev(), 0),
        false => (false, told.dev(), told.ino()),
    }
}

/// Locks a file against other openers, for as long as it is open.
fn lock(file: &File, path: &Path) -> Result<(), Error> {
    file.try_lock().map_err(|refused| match refused {
        fs::TryLockError::Error(error) => Error::file("lock", path)(error),
        fs::TryLockError::WouldBlock => Error::Locked { path: path.to_path_buf() },
    })
}

/// Makes the names in the folder of this file last.
pub(crate) fn keep_name(path: &Path) -> Result<(), Error> {
    let folder = match path.parent() {
        Some(parent) if !parent.as_os_str().is_empty() => parent,
        _ => Path::new("."),
    };
    let told = File::open(folder).and_then(|folder| folder.sync_all());
    told.map_err(Error::file("flush", folder))
}
