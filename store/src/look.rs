use std::path::Path;

use streterva::State;

use crate::error::Error;
use crate::place::Place;
use crate::record::Sector;
use crate::trial;

/// What the record of a volume tells, without the lock: another process may have the volume and go on with it.
#[derive(Clone, Debug)]
pub struct Look {
    /// Where the volume is.
    pub place: Place,
    /// The record.
    pub sector: Sector,
    /// The state that restart makes of it.
    pub state: State,
    /// The advance calls left.
    pub calls_left: u64,
}

impl Look {
    /// Looks at the volume at this path. Its files have to be long enough.
    pub fn at(path: &Path) -> Result<Look, Error> {
        let look = Look::at_record(path)?;
        match look.place.shortcomings(&look.state).into_iter().next() {
            Some(shortcoming) => Err(shortcoming),
            None => Ok(look),
        }
    }

    /// The same of the record alone, whatever the files of the disks are.
    pub fn at_record(path: &Path) -> Result<Look, Error> {
        let place = Place::at(path)?;
        let sector = place.sector()?;
        let told = trial::restart(&sector, &place.record_path())?;
        let (state, calls_left) = (told.state, told.calls_left);
        Ok(Look { place, sector, state, calls_left })
    }
}
