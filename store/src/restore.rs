use std::os::unix::fs::FileExt;
use std::path::Path;

use streterva::Restarted;

use crate::error::Error;
use crate::mapping::PAGE;
use crate::place::{keep_name, Form, Opened, Place};
use crate::record::Sector;
use crate::trial;
use crate::volume::{in_whole_pages, set_aside, Options};

/// Stores a record sector, which was kept in the file `from`, as the record of the volume at this path, and tells what
/// restart makes of it. It has to be a sound state's, and the files long enough for its disks. Another record that is
/// sound is overwritten only with `force`: of two records of one volume the older one tells wrong spots.
pub fn restore(path: &Path, sector: &Sector, from: &Path, force: bool, options: &Options) -> Result<Restarted, Error> {
    let restarted = trial::restart(sector, from)?;
    let place = Place::at(path)?;
    if place.form() == Form::Folder {
        in_whole_pages(&restarted.state)?;
    }
    if let Some(shortcoming) = place.shortcomings(&restarted.state).into_iter().next() {
        return Err(shortcoming);
    }
    let mut record = match place.form() {
        Form::Image => Opened::existing(path)?,
        Form::Folder => Opened::existing_or_new(&place.record_path())?,
    };
    match place.sector() {
        Ok(there) if there == *sector => return Ok(restarted),
        Ok(there) if !force && trial::restart(&there, path).is_ok() => return Err(another(&place)),
        _ => {}
    }
    if place.form() == Form::Folder {
        record.lengthen(PAGE as u64)?;
        set_aside(&record, 0, PAGE as u64)?;
        keep_name(&record.path)?;
    }
    let written = record.file.write_all_at(sector, place.record_byte());
    written.map_err(Error::file("write", &record.path))?;
    let flushed = options.drives.flush(&record.path, &record.file);
    flushed.map_err(Error::file("flush", &record.path))?;
    Ok(restarted)
}

fn another(place: &Place) -> Error {
    Error::Declined(format!(
        "{} has another record that is sound, and the older of the two tells wrong spots; --force stores it all the \
         same",
        place.path().display()
    ))
}
