use std::fs::File;
use std::io;
use std::path::Path;
use std::thread;

use crate::error::Error;
use crate::place::Opened;

/// What flushes the drives behind files: everything stored in a file is down when it returns. Tests put others in its
/// place.
pub trait Drives: Send + Sync {
    /// Flushes the drive behind one file.
    fn flush(&self, path: &Path, file: &File) -> io::Result<()>;
}

/// The drives of this machine. On Linux fdatasync takes what was stored through a mapping too, and has the drive empty
/// its write cache.
pub struct MachineDrives;

impl Drives for MachineDrives {
    fn flush(&self, _: &Path, file: &File) -> io::Result<()> {
        file.sync_data()
    }
}

/// Flushes the drives behind several files side by side.
pub(crate) fn flush_all(drives: &dyn Drives, files: &[&Opened]) -> Result<(), Error> {
    let flush = |opened: &Opened| {
        let flushed = drives.flush(&opened.path, &opened.file);
        flushed.map_err(Error::file("flush", &opened.path))
    };
    if let [only] = files {
        return flush(only);
    }
    thread::scope(|scope| {
        let running: Vec<_> = files.iter().map(|opened| scope.spawn(|| flush(opened))).collect();
        running.into_iter().try_for_each(|thread| thread.join().expect("a flush does not panic"))
    })
}
