//! A volume of Streterva on real files: one image file, or a folder with a file for each disk.
//!
//! [`Volume`] opens the files, maps them, so that the library's calls are lent one medium, and keeps the order of
//! stores that drives with a write cache need. [`Look`] reads the record alone.

#![deny(missing_docs)]
#![deny(unsafe_code)]

mod create;
mod drives;
mod error;
mod look;
#[allow(unsafe_code)]
mod mapping;
mod medium;
mod place;
pub mod record;
mod restore;
pub mod trial;
mod volume;

pub use create::Plan;
pub use drives::{Drives, MachineDrives};
pub use error::Error;
pub use look::Look;
pub use mapping::{end_on_bus_errors, MAPPED_FILE_FAILED, PAGE};
pub use place::{open_to_look, Form, Place};
pub use restore::restore;
pub use volume::{detail, open_blocks, Options, Volume};
