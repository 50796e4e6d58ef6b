//! Calls on a medium that is a record with zeros behind it and takes no memory, to learn what they answer: the state of
//! a record sector alone, and whether format or grow would be refused.
//!
//! The header of the library says what each call reads and writes of a medium: restart reads the record; format and
//! grow write the record and read nothing. So only the front is touched.

use std::io;
use std::path::Path;

use streterva::{Refusal, Restarted, State};

use crate::error::Error;
use crate::mapping::Mapping;
use crate::record::{self, Sector};

/// What restart tells of this record with all its disks behind it; refused with 13, with what is wrong in the file.
pub fn restart(sector: &Sector, path: &Path) -> Result<Restarted, Error> {
    if State::restart(sector) != Err(Refusal::MediumTooShort) {
        let (path, fault) = (path.to_path_buf(), record::fault(sector));
        return Err(Error::NoVolume { path, fault });
    }
    let told = record::columns(sector).expect("the library reads these columns");
    let disks = told.counts[told.growths as usize];
    let mut medium = zeros(State::medium_bytes(told.size, told.rows, disks))?;
    medium.bytes_mut()[..sector.len()].copy_from_slice(sector);
    Ok(State::restart(medium.bytes())?)
}

/// Whether format takes these numbers.
pub fn format(size: u64, rows: u64, disks: u64) -> Result<State, Error> {
    let most = State::medium_bytes(State::MOST_SIZE, State::MOST_ROWS, State::MOST_DISKS);
    let mut medium = zeros(State::medium_bytes(size, rows, disks).min(most))?;
    Ok(State::format(medium.bytes_mut(), size, rows, disks)?)
}

/// The state after grow, or with `beyond_doubling` after the grow without 20, and its advance calls left; as if all
/// stores were down and the medium had room.
pub fn grow(state: &State, count: u64, beyond_doubling: bool) -> Result<(State, u64), Error> {
    let mut words = state.words();
    words[15] = 0;
    let mut grown = State::from_words(words).expect("nothing is pending");
    let room = count.clamp(state.disks(), State::MOST_DISKS);
    let mut medium = zeros(State::medium_bytes(state.size(), state.rows(), room))?;
    let left = match beyond_doubling {
        false => grown.grow(medium.bytes_mut(), count)?,
        true => grown.grow_beyond_doubling(medium.bytes_mut(), count)?,
    };
    Ok((grown, left))
}

fn zeros(bytes: usize) -> Result<Mapping, Error> {
    let failed = |error: io::Error| Error::Declined(format!("cannot reserve {bytes} bytes of address space: {error}"));
    Mapping::zeros(bytes).map_err(failed)
}
