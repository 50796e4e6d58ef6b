//! Files that the command makes beside a volume: written whole or not at all.

use std::fs::File;
use std::io::{self, Write};
use std::path::{Path, PathBuf};

use streterva_store::{Error, Place};
use tempfile::NamedTempFile;

/// A file under way: it has its name only when it is kept.
pub struct NewFile {
    path: PathBuf,
    replace: bool,
    file: NamedTempFile,
}

impl NewFile {
    /// Begins a file in the folder of this path. Without `replace` nothing may be there, with it only a file, and never
    /// one of the volume.
    pub fn begin(path: &Path, replace: bool, volume: &Place) -> Result<NewFile, Error> {
        volume.is_apart_from(path)?;
        match path.symlink_metadata() {
            Ok(_) if !replace => return Err(there(path)),
            Ok(told) if !told.is_file() => {
                let sentence = format!("{} is no file, and only a file is overwritten", path.display());
                return Err(Error::Declined(sentence));
            }
            _ => {}
        }
        let folder = match path.parent() {
            Some(parent) if !parent.as_os_str().is_empty() => parent,
            _ => Path::new("."),
        };
        let file = NamedTempFile::new_in(folder).map_err(Error::file("make", path))?;
        let path = path.to_path_buf();
        Ok(NewFile { path, replace, file })
    }

    /// Gives the file its name.
    pub fn keep(self) -> Result<(), Error> {
        readable_by_all(self.file.as_file()).map_err(Error::file("make", &self.path))?;
        let kept = match self.replace {
            true => self.file.persist(&self.path),
            false => self.file.persist_noclobber(&self.path),
        };
        match kept {
            Ok(_) => Ok(()),
            Err(failed) if failed.error.kind() == io::ErrorKind::AlreadyExists => Err(there(&self.path)),
            Err(failed) => Err(Error::file("make", &self.path)(failed.error)),
        }
    }

    /// The file, to be written to.
    pub fn file(&mut self) -> &mut File {
        self.file.as_file_mut()
    }
}

/// Writes a file of these bytes, whole or not at all, and flushes it.
pub fn write_whole(path: &Path, bytes: &[u8], replace: bool, volume: &Place) -> Result<(), Error> {
    let mut new = NewFile::begin(path, replace, volume)?;
    let written = new.file().write_all(bytes).and_then(|()| new.file().sync_all());
    written.map_err(Error::file("write", path))?;
    new.keep()
}

fn there(path: &Path) -> Error {
    Error::Declined(format!("{} exists already; --force overwrites it", path.display()))
}

/// A temporary file is its owner's alone; a kept one has the rights that a new file has.
fn readable_by_all(file: &File) -> io::Result<()> {
    use std::os::unix::fs::PermissionsExt;
    file.set_permissions(PermissionsExt::from_mode(0o644))
}
