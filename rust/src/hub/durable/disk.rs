//! The operations on files that durable workqueues need. Tests put a disk in memory in their place.
use crate::ffi;
use std::any::Any;
use std::ffi::OsStr;
use std::fs::{self, File};
use std::io::{self, Write};
use std::path::{Path, PathBuf};

/// Opens the folder of this path, which is that of a journal.
pub(crate) type Opens = Box<dyn Fn(&Path) -> io::Result<Box<dyn Folder>> + Send>;

/// A folder with a journal.
pub(crate) trait Folder {
    /// All of a file.
    fn read(&self, name: &OsStr) -> io::Result<Vec<u8>>;

    /// A file that is empty, whether or not there was one of this name.
    fn create(&self, name: &OsStr) -> io::Result<Box<dyn Output>>;

    /// Locks a file, which is made if there is none, until what is returned is dropped. An error of kind `WouldBlock`
    /// says that somebody else has it locked.
    fn lock(&self, name: &OsStr) -> io::Result<Box<dyn Any + Send>>;

    fn rename(&self, from: &OsStr, to: &OsStr) -> io::Result<()>;

    /// A second name of a file.
    fn link(&self, from: &OsStr, to: &OsStr) -> io::Result<()>;

    fn remove(&self, name: &OsStr) -> io::Result<()>;

    /// Syncs what became of names.
    fn sync(&self) -> io::Result<()>;
}

/// A file that is written.
pub(crate) trait Output: Write + Send {
    /// Syncs what was written, as `fdatasync()` does.
    fn sync_data(&self) -> io::Result<()>;

    /// Syncs all of the file, as `fsync()` does.
    fn sync_all(&self) -> io::Result<()>;
}

impl Output for File {
    fn sync_data(&self) -> io::Result<()> {
        File::sync_data(self)
    }

    fn sync_all(&self) -> io::Result<()> {
        File::sync_all(self)
    }
}

struct InFolder {
    path: PathBuf,
    handle: File,
}

/// The folder of the file system.
pub(crate) fn open(path: &Path) -> io::Result<Box<dyn Folder>> {
    Ok(Box::new(InFolder { path: path.to_owned(), handle: File::open(path)? }))
}

impl Folder for InFolder {
    fn read(&self, name: &OsStr) -> io::Result<Vec<u8>> {
        fs::read(self.path.join(name))
    }

    fn create(&self, name: &OsStr) -> io::Result<Box<dyn Output>> {
        Ok(Box::new(File::create(self.path.join(name))?))
    }

    fn lock(&self, name: &OsStr) -> io::Result<Box<dyn Any + Send>> {
        let file = File::options().append(true).create(true).open(self.path.join(name))?;
        ffi::lock(&file)?;
        Ok(Box::new(file))
    }

    fn rename(&self, from: &OsStr, to: &OsStr) -> io::Result<()> {
        fs::rename(self.path.join(from), self.path.join(to))
    }

    fn link(&self, from: &OsStr, to: &OsStr) -> io::Result<()> {
        fs::hard_link(self.path.join(from), self.path.join(to))
    }

    fn remove(&self, name: &OsStr) -> io::Result<()> {
        fs::remove_file(self.path.join(name))
    }

    fn sync(&self) -> io::Result<()> {
        self.handle.sync_all()
    }
}
