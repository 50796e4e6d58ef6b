use std::error;
use std::fmt;
use std::io;
use std::path::{Path, PathBuf};

use streterva::Refusal;

use crate::record::Fault;

/// Why something was not done. Nothing was written then, but where a flush or a store failed.
#[derive(Debug)]
pub enum Error {
    /// A call was refused, with what the sentence of its number does not tell.
    Refused {
        /// Which refusal.
        refusal: Refusal,
        /// More of it, such as which blocks are open; may be empty.
        detail: String,
    },
    /// The store layer itself declines, with a sentence.
    Declined(String),
    /// A file is too short for the volume that its record tells of.
    TooShort {
        /// The file.
        path: PathBuf,
        /// The bytes it has.
        bytes: u64,
        /// The bytes it needs.
        needed: u64,
    },
    /// There is no record of a sound state.
    NoVolume {
        /// The file that should have it.
        path: PathBuf,
        /// What is wrong in it; nothing where the file is missing in its folder.
        fault: Option<Fault>,
    },
    /// Another process has the volume.
    Locked {
        /// The file that is locked.
        path: PathBuf,
    },
    /// A file could not be opened, read or written.
    File {
        /// The file.
        path: PathBuf,
        /// What was tried, as in "cannot ..".
        tried: &'static str,
        /// What the system said.
        error: io::Error,
    },
}

impl Error {
    /// For `map_err`: what was tried with which file.
    pub fn file(tried: &'static str, path: &Path) -> impl FnOnce(io::Error) -> Error {
        let path = path.to_path_buf();
        move |error| Error::File { path, tried, error }
    }

    /// A refusal with nothing to add.
    pub fn refused(refusal: Refusal) -> Error {
        let detail = String::new();
        Error::Refused { refusal, detail }
    }
}

impl From<Refusal> for Error {
    fn from(refusal: Refusal) -> Error {
        Error::refused(refusal)
    }
}

impl fmt::Display for Error {
    fn fmt(&self, f: &mut fmt::Formatter<'_>) -> fmt::Result {
        match self {
            Error::Refused { refusal, detail } => {
                write!(f, "refused with {}: {refusal}", refusal.number())?;
                if !detail.is_empty() {
                    write!(f, ": {detail}")?;
                }
                Ok(())
            }
            Error::Declined(sentence) => f.write_str(sentence),
            Error::TooShort { path, bytes, needed } => {
                write!(f, "{} is too short: it has {bytes} bytes and needs {needed}", path.display())
            }
            Error::NoVolume { path, fault } => {
                write!(f, "{} has no volume", path.display())?;
                match fault {
                    Some(fault) => write!(f, ": its record is refused with 13: {fault}"),
                    None => f.write_str(": it is a folder without a file record"),
                }
            }
            Error::Locked { path } => write!(f, "{} is in use by another process", path.display()),
            Error::File { path, tried, error } => write!(f, "cannot {tried} {}: {error}", path.display()),
        }
    }
}

impl error::Error for Error {}
