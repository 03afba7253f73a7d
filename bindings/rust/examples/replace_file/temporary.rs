//! The file that new contents are written to before they take a file's place.

use super::system;
use std::fs::{self, File, OpenOptions};
use std::io;
use std::os::unix::fs::OpenOptionsExt;
use std::path::{Path, PathBuf};

/// Its name is this, the number of its process, a dot and a number.
pub const PREFIX: &str = ".arrow-types.";

/// How many names are tried.
const NAMES: u32 = 1_000;

/// A temporary file, locked as long as it is written. It is removed when this is dropped, unless it got another name.
pub struct Temporary {
    path: PathBuf,
    file: File,
    folder: File,
    stays: bool,
}

impl Temporary {
    /// A new file in a folder, of a name that no file there has, and of this mode less the process's umask.
    pub fn create(folder: &Path, mode: u32) -> io::Result<Temporary> {
        let opened = File::open(folder)?;
        let (path, file) = create(folder, mode)?;
        // Where there are no locks, another run names the file if it finds it, and does not remove it.
        let _ = system::lock(&file);
        Ok(Temporary {
            path,
            file,
            folder: opened,
            stays: false,
        })
    }

    pub fn path(&self) -> &Path {
        &self.path
    }

    pub fn file(&self) -> &File {
        &self.file
    }

    pub fn folder(&self) -> &File {
        &self.folder
    }

    /// It has got another name, and is not to be removed.
    pub fn keep(&mut self) {
        self.stays = true;
    }
}

impl Drop for Temporary {
    fn drop(&mut self) {
        if !self.stays {
            let _ = fs::remove_file(&self.path);
        }
    }
}

fn create(folder: &Path, mode: u32) -> io::Result<(PathBuf, File)> {
    let mut options = OpenOptions::new();
    options.write(true).create_new(true).mode(mode);
    for number in 0..NAMES {
        let path = folder.join(format!("{PREFIX}{}.{number}", std::process::id()));
        match options.open(&path) {
            Err(error) if error.kind() == io::ErrorKind::AlreadyExists => {}
            created => return created.map(|file| (path, file)),
        }
    }
    Err(io::Error::other("every name for a temporary file is taken"))
}
