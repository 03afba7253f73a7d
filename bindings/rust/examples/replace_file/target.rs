//! The file that is to be replaced, held open from before it is read, so that a change by another program is seen.

use super::refusal::{Refusal, failing};
use super::system::{self, O_NONBLOCK};
use super::{LOCKING, OPENING, READING, REPLACING, leftovers};
use std::fs::{self, File, FileType, Metadata};
use std::io::{self, Read};
use std::os::unix::fs::{FileExt, FileTypeExt, MetadataExt, OpenOptionsExt};
use std::path::{Path, PathBuf};

/// A file that is to be replaced, or made where there is none.
pub struct Target {
    path: PathBuf,
    old: Option<Old>,
    by_force: bool,
}

/// The old file: open, and what was known of it before it was read.
pub struct Old {
    pub file: File,
    pub state: Metadata,
    /// Whether another program has it locked.
    is_locked: bool,
}

impl Target {
    /// Opens a plain file, and nothing else, to be read and replaced. Where the path is a link, it is what that leads to. One
    /// that is read-only or has other names (hard links), which would keep the old contents, is replaced by force alone.
    pub fn open(path: &Path, by_force: bool) -> Result<Target, Refusal> {
        // Opening a pipe or a device does something to that, so it is asked for first.
        check_plain(&fs::metadata(path).map_err(failing(OPENING))?)?;
        let path = followed(path).map_err(failing(OPENING))?;
        let old = Some(Old::open(&path)?);
        Ok(Target {
            path,
            old,
            by_force,
        })
    }

    /// The same, or a place where there is no file.
    pub fn open_or_new(path: &Path, by_force: bool) -> Result<Target, Refusal> {
        if !path.is_symlink() && is_nothing(path) {
            return Ok(Target {
                path: path.to_owned(),
                old: None,
                by_force,
            });
        }
        Target::open(path, by_force)
    }

    pub fn path(&self) -> &Path {
        &self.path
    }

    pub fn folder(&self) -> &Path {
        match self.path.parent() {
            Some(folder) if folder != Path::new("") => folder,
            _ => Path::new("."),
        }
    }

    pub fn old(&self) -> Option<&Old> {
        self.old.as_ref()
    }

    /// How many bytes the old file has.
    pub fn length(&self) -> Option<u64> {
        self.old().map(|old| old.state.len())
    }

    /// Reads part of the old file once more. Where it is not there any more, the file has changed.
    pub fn read_again(&self, part: &mut [u8], start: u64) -> Result<(), Refusal> {
        let read = self
            .old
            .as_ref()
            .map(|old| old.file.read_exact_at(part, start));
        match read {
            Some(Err(error)) if error.kind() != io::ErrorKind::UnexpectedEof => {
                Err(Refusal::new(READING, error))
            }
            Some(Ok(())) => Ok(()),
            _ => Err(Refusal::changed(READING)),
        }
    }

    /// Whether the file may be replaced, as far as can be told before anything is written.
    pub fn check_replaceable(&self) -> Result<(), Refusal> {
        match &self.old {
            Some(old) if old.is_locked => {
                Err(Refusal::new(LOCKING, "another program has locked it"))
            }
            Some(old) if !self.by_force => check_rights(&self.path, &old.state),
            _ => Ok(()),
        }
    }

    /// Whether the path still leads to the old file, as it was before it was read; or to nothing still.
    pub fn check_unchanged(&self) -> Result<(), Refusal> {
        let now = fs::symlink_metadata(&self.path);
        let Some(old) = &self.old else {
            let cause = "another program has made it meanwhile";
            return now.map_or(Ok(()), |_| Err(Refusal::new(REPLACING, cause)));
        };
        match now {
            Ok(now) if state(&now) == state(&old.state) => Ok(()),
            _ => Err(Refusal::changed(REPLACING)),
        }
    }

    /// Removes what earlier runs, ended by force, left in the file's folder; answers what stays of it.
    pub fn remove_leftovers(&self) -> Vec<PathBuf> {
        leftovers::remove(self.folder())
    }
}

/// Reads the old file, or nothing where there is none.
impl Read for &Target {
    fn read(&mut self, buffer: &mut [u8]) -> io::Result<usize> {
        self.old
            .as_ref()
            .map_or(Ok(0), |old| (&old.file).read(buffer))
    }
}

impl Old {
    /// Opens a file that is a plain one, unless another has come into its place.
    fn open(path: &Path) -> Result<Old, Refusal> {
        let mut options = File::options();
        options.read(true).custom_flags(O_NONBLOCK);
        let file = options.open(path).map_err(failing(OPENING))?;
        // Where there are no locks, what changed is seen all the same.
        let locked = system::lock(&file);
        let is_locked = locked.is_err_and(|error| error.kind() == io::ErrorKind::WouldBlock);
        let state = file.metadata().map_err(failing(OPENING))?;
        check_plain(&state)?;
        Ok(Old {
            file,
            state,
            is_locked,
        })
    }
}

/// What a link leads to, and any other path itself. A link that leads nowhere is refused.
fn followed(path: &Path) -> io::Result<PathBuf> {
    if path.is_symlink() {
        fs::canonicalize(path)
    } else {
        Ok(path.to_owned())
    }
}

fn is_nothing(path: &Path) -> bool {
    fs::metadata(path).is_err_and(|error| error.kind() == io::ErrorKind::NotFound)
}

fn check_plain(found: &Metadata) -> Result<(), Refusal> {
    if found.is_file() {
        return Ok(());
    }
    let kind = kind(found.file_type());
    let cause = format!("it is a {kind} and no plain file");
    Err(Refusal::new(OPENING, cause))
}

fn kind(found: FileType) -> &'static str {
    if found.is_dir() {
        "folder"
    } else if found.is_fifo() {
        "pipe"
    } else if found.is_socket() {
        "socket"
    } else {
        "device"
    }
}

/// A file with other names would no longer be theirs, and one that nobody, or not this user, may write to is not to be
/// written to.
fn check_rights(path: &Path, state: &Metadata) -> Result<(), Refusal> {
    let refused = |cause: String| Err(Refusal::new(REPLACING, cause).forcible());
    if state.nlink() > 1 {
        let names = state.nlink();
        let cause = "which would keep the old contents";
        return refused(format!("it has {names} names (hard links), {cause}"));
    }
    if state.mode() & 0o222 == 0 {
        return refused("it is read-only".to_owned());
    }
    match system::check_may_write(path) {
        Ok(()) => Ok(()),
        Err(error) => refused(format!("it may not be written to: {error}")),
    }
}

/// What is another number once a file has changed, or is another file.
fn state(found: &Metadata) -> [i64; 7] {
    [
        found.dev() as i64,
        found.ino() as i64,
        found.size() as i64,
        found.mtime(),
        found.mtime_nsec(),
        found.ctime(),
        found.ctime_nsec(),
    ]
}
