use std::fs;
use std::path::{Path, PathBuf};

use streterva::State;

use crate::error::Error;
use crate::mapping::PAGE;
use crate::medium::{Files, Medium};
use crate::place::{keep_name, Form, Opened, Place};
use crate::trial;
use crate::volume::{in_whole_pages, make_disk, set_aside, Options, Volume};

/// What a new volume is to be.
#[derive(Clone, Copy, Debug)]
pub struct Plan {
    /// Z: bytes in a block.
    pub size: u64,
    /// s: rows on each disk.
    pub rows: u64,
    /// The disks at format.
    pub disks: u64,
    /// The form.
    pub form: Form,
    /// For how many disks an image file has room.
    pub room: u64,
    /// Whether files that are there may be overwritten.
    pub force: bool,
}

impl Volume {
    /// Makes a volume; its record is down when this returns. Where it fails, files that were made for it are removed.
    pub fn create(path: &Path, plan: &Plan, options: &Options) -> Result<Volume, Error> {
        let state = trial::format(plan.size, plan.rows, plan.disks)?;
        fits_form(plan, &state)?;
        let place = Place::new(path, plan.form);
        if !plan.force {
            nothing_there(&place, plan)?;
        }
        let mut made = Made { place: &place, plan, files: vec![], folder: false };
        let created = made.files(&state).and_then(|files| formatted(files, plan, &state, options));
        if created.is_err() {
            made.remove();
        }
        created
    }
}

fn fits_form(plan: &Plan, state: &State) -> Result<(), Error> {
    match plan.form {
        Form::Image if plan.room < plan.disks || plan.room > State::MOST_DISKS => Err(Error::Declined(format!(
            "room for {} disks is asked for; it may be {} to {}",
            plan.room,
            plan.disks,
            State::MOST_DISKS
        ))),
        Form::Image => Ok(()),
        Form::Folder => in_whole_pages(state),
    }
}

/// Fails where a file that the volume needs is there already.
fn nothing_there(place: &Place, plan: &Plan) -> Result<(), Error> {
    let disks = match plan.form {
        Form::Image => 0,
        Form::Folder => plan.disks,
    };
    let mut needed = (0..disks).map(|disk| place.disk_path(disk)).chain([place.record_path()]);
    match needed.any(|path| path.symlink_metadata().is_ok()) {
        true => Err(there(place)),
        false => Ok(()),
    }
}

fn there(place: &Place) -> Error {
    let is_volume = place.sector().is_ok_and(|sector| trial::restart(&sector, place.path()).is_ok());
    let what = if is_volume { "has a volume already" } else { "exists already and is no volume" };
    Error::Declined(format!("{} {what}; --force overwrites it", place.path().display()))
}

/// The files of a new volume, and which of them were made for it, to be removed where the rest fails.
struct Made<'a> {
    place: &'a Place,
    plan: &'a Plan,
    files: Vec<PathBuf>,
    folder: bool,
}

impl Made<'_> {
    /// Opens all files, and changes them once all are locked: nothing is emptied that another process has.
    fn files(&mut self, state: &State) -> Result<Files, Error> {
        let (place, plan) = (self.place, self.plan);
        let mut record;
        let mut disks = vec![];
        match plan.form {
            Form::Image => {
                record = self.file(&place.record_path())?;
                record.empty()?;
                record.lengthen(State::medium_bytes(plan.size, plan.rows, plan.room) as u64)?;
                set_aside(&record, 0, State::medium_bytes(plan.size, plan.rows, plan.disks) as u64)?;
            }
            Form::Folder => {
                self.folder()?;
                record = self.file(&place.record_path())?;
                let paths = (0..plan.disks).map(|disk| place.disk_path(disk));
                disks = paths.map(|path| self.file(&path)).collect::<Result<_, _>>()?;
                record.empty()?;
                record.lengthen(PAGE as u64)?;
                set_aside(&record, 0, PAGE as u64)?;
                disks.iter_mut().try_for_each(|disk| disk.empty().and_then(|()| make_disk(disk, state)))?;
            }
        }
        keep_name(&place.record_path())?;
        keep_name(place.path())?;
        Ok(Files { place: place.clone(), record, disks })
    }

    fn folder(&mut self) -> Result<(), Error> {
        let path = self.place.path();
        if !path.is_dir() {
            fs::create_dir(path).map_err(Error::file("make", path))?;
            self.folder = true;
        }
        self.place.no_two_alike(self.plan.disks)
    }

    /// Opens or makes a file. Without force it has to be new: another process may have made it just now.
    fn file(&mut self, path: &Path) -> Result<Opened, Error> {
        let opened = Opened::existing_or_new(path)?;
        match (opened.made, self.plan.force) {
            (true, _) => self.files.push(path.to_path_buf()),
            (false, true) => {}
            (false, false) => return Err(there(self.place)),
        }
        Ok(opened)
    }

    fn remove(&self) {
        self.files.iter().for_each(|path| drop(fs::remove_file(path)));
        if self.folder {
            drop(fs::remove_dir(self.place.path()));
        }
    }
}

fn formatted(files: Files, plan: &Plan, state: &State, options: &Options) -> Result<Volume, Error> {
    let mut medium = Medium::of(&files, state)?;
    let state = State::format(medium.bytes_mut(), plan.size, plan.rows, plan.disks)?;
    let mut volume = Volume::with(files, medium, state, 0, options);
    volume.flush()?;
    Ok(volume)
}
