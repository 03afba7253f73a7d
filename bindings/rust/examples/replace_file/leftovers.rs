//! Temporary files of runs that were ended by force.

use super::system::{self, O_NONBLOCK};
use super::temporary::PREFIX;
use std::ffi::OsStr;
use std::fs::{self, File};
use std::io;
use std::os::unix::fs::OpenOptionsExt;
use std::path::{Path, PathBuf};

/// Removes them from a folder; answers those that stay, since their process may still run or they can't be removed. A file
/// that a run is writing is none of them.
pub fn remove(folder: &Path) -> Vec<PathBuf> {
    let entries = fs::read_dir(folder).into_iter().flatten().flatten();
    let of_runs = entries.filter_map(|entry| {
        let process = process_of(&entry.file_name())?;
        let is_file = entry.file_type().is_ok_and(|found| found.is_file());
        is_file.then(|| (entry.path(), process))
    });
    of_runs
        .filter(|(path, process)| stays(path, *process))
        .map(|(path, _)| path)
        .collect()
}

/// The process that a temporary file of this name is of.
fn process_of(name: &OsStr) -> Option<u32> {
    let numbers = name.to_str()?.strip_prefix(PREFIX)?;
    let (process, number) = numbers.split_once('.')?;
    let process: u32 = process.parse().ok()?;
    let number: u32 = number.parse().ok()?;
    (numbers == format!("{process}.{number}")).then_some(process)
}

/// Whether a file was left and stays. Who writes it has it locked; whoever else gets the lock may remove it, if the process
/// in its name is gone.
fn stays(path: &Path, process: u32) -> bool {
    let file = File::options()
        .read(true)
        .custom_flags(O_NONBLOCK)
        .open(path);
    match file.and_then(|file| system::lock(&file).map(|()| file)) {
        Ok(_locked) if is_gone(process) => fs::remove_file(path).is_err(),
        Ok(_) => true,
        Err(error) if error.kind() == io::ErrorKind::WouldBlock => false,
        Err(_) => is_gone(process),
    }
}

/// This process writes no temporary file any more: one of its number is that of an earlier process of the same number.
fn is_gone(process: u32) -> bool {
    process == std::process::id() || !Path::new(&format!("/proc/{process}")).exists()
}
