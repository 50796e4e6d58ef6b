use std::os::unix::fs::FileExt;

use streterva::State;

use crate::error::Error;
use crate::mapping::{Mapping, PAGE};
use crate::place::{disk_bytes, Form, Opened, Place};

/// The files of a volume, opened.
pub(crate) struct Files {
    pub place: Place,
    /// The file that has the record: the image, or the file `record` of a folder.
    pub record: Opened,
    /// The files of the disks of a folder, in their order; none of an image.
    pub disks: Vec<Opened>,
}

/// One medium out of the files of a volume. The record is in the front of the mapping, and so are the bytes of an image
/// file up to the end of its first page; all others are the mapped files' own.
pub(crate) struct Medium {
    mapping: Mapping,
    /// The medium's bytes in the mapping.
    from: usize,
    end: usize,
    /// The bytes behind the record in an image's first page, as the file has them.
    behind_record: Vec<u8>,
}

impl Medium {
    /// Maps the files; there may be more disks later, as many as the limits allow for this state.
    pub fn of(files: &Files, state: &State) -> Result<Medium, Error> {
        let record = &files.record;
        let most = State::medium_bytes(state.size(), state.rows(), State::MOST_DISKS);
        let behind = most.max(record.bytes as usize);
        let aligned = match files.place.form() {
            Form::Image => 0,
            Form::Folder => PAGE,
        };
        let mapping = Mapping::reserve(behind, aligned).map_err(Error::file("map", &record.path))?;
        let mut medium = Medium { mapping, from: 0, end: 0, behind_record: vec![] };
        let front = (record.bytes as usize).min(PAGE);
        let read = record.file.read_exact_at(&mut medium.mapping.bytes_mut()[..front], 0);
        read.map_err(Error::file("read", &record.path))?;
        match files.place.form() {
            Form::Image => {
                medium.behind_record = medium.mapping.bytes()[State::RECORD_BYTES..front].to_vec();
                medium.map_image(record)?;
            }
            Form::Folder => {
                medium.from = PAGE - State::RECORD_BYTES;
                medium.end = PAGE;
                files.disks.iter().try_for_each(|disk| medium.map_disk(disk, state))?;
            }
        }
        Ok(medium)
    }

    /// Maps the whole image file behind the front, anew where it has become longer.
    pub fn map_image(&mut self, image: &Opened) -> Result<(), Error> {
        let bytes = image.bytes as usize;
        let behind = bytes.saturating_sub(PAGE);
        let mapped = self.mapping.map(PAGE, &image.file, PAGE as u64, behind);
        mapped.map_err(Error::file("map", &image.path))?;
        // What an image shorter than a page gets in its first page are zeros, in the file as in the front.
        self.behind_record.resize(bytes.min(PAGE) - State::RECORD_BYTES, 0);
        self.end = bytes;
        Ok(())
    }

    /// Maps the file of the next disk of a folder behind what is mapped.
    pub fn map_disk(&mut self, disk: &Opened, state: &State) -> Result<(), Error> {
        let bytes = disk_bytes(state) as usize;
        let mapped = self.mapping.map(self.end, &disk.file, 0, bytes);
        mapped.map_err(Error::file("map", &disk.path))?;
        self.end += bytes;
        Ok(())
    }

    pub fn expect_much(&self) {
        self.mapping.expect_much();
    }

    pub fn bytes(&self) -> &[u8] {
        &self.mapping.bytes()[self.from..self.end]
    }

    pub fn bytes_mut(&mut self) -> &mut [u8] {
        &mut self.mapping.bytes_mut()[self.from..self.end]
    }

    /// Writes the record from the front to its file: by one call and in one page, so that a process that is killed
    /// leaves the old record or the new one.
    pub fn write_record(&self, files: &Files) -> Result<(), Error> {
        let sector = &self.bytes()[..State::RECORD_BYTES];
        let written = files.record.file.write_all_at(sector, files.place.record_byte());
        written.map_err(Error::file("write", &files.record.path))
    }

    /// Writes what was stored behind the record in an image's first page to the file.
    pub fn write_behind_record(&mut self, files: &Files) -> Result<(), Error> {
        let from = State::RECORD_BYTES;
        let stored = &self.mapping.bytes()[from..from + self.behind_record.len()];
        if stored != self.behind_record {
            let written = files.record.file.write_all_at(stored, from as u64);
            written.map_err(Error::file("write", &files.record.path))?;
            self.behind_record = stored.to_vec();
        }
        Ok(())
    }
}
