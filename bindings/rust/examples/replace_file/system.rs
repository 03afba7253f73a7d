//! What the standard library has not, or not in the Rust that this crate asks for: advisory locks, extended attributes, and
//! whether a file may be written to. Calls of Linux.

use std::collections::BTreeMap;
use std::ffi::{CStr, CString, c_char, c_int, c_void};
use std::fs::File;
use std::io;
use std::os::fd::AsRawFd;
use std::os::unix::ffi::OsStrExt;
use std::path::Path;

/// Opens a pipe without waiting for somebody who writes to it.
pub const O_NONBLOCK: c_int = 0o4000;

const AT_FDCWD: c_int = -100;
const AT_EACCESS: c_int = 0x200;
const W_OK: c_int = 2;
const LOCK_EX: c_int = 2;
const LOCK_NB: c_int = 4;

/// The most bytes that an attribute has, or the list of a file's attributes.
const MAX_ATTRIBUTE: usize = 65_536;

/// Extended attributes by their names. An access list is one of them.
pub type Attributes = BTreeMap<CString, Vec<u8>>;

unsafe extern "C" {
    fn faccessat(folder: c_int, path: *const c_char, mode: c_int, flags: c_int) -> c_int;
    fn flock(file: c_int, operation: c_int) -> c_int;
    fn flistxattr(file: c_int, names: *mut c_char, size: usize) -> isize;
    fn fgetxattr(file: c_int, name: *const c_char, value: *mut c_void, size: usize) -> isize;
    fn fsetxattr(
        file: c_int,
        name: *const c_char,
        value: *const c_void,
        size: usize,
        flags: c_int,
    ) -> c_int;
    fn fremovexattr(file: c_int, name: *const c_char) -> c_int;
}

/// The length that a call answers, or the error that -1 stands for.
fn checked(answer: isize) -> io::Result<usize> {
    usize::try_from(answer).map_err(|_| io::Error::last_os_error())
}

/// Whether the process may write to a file: an error if not.
pub fn check_may_write(path: &Path) -> io::Result<()> {
    let path = CString::new(path.as_os_str().as_bytes())?;
    // SAFETY: the path ends with a zero and lives until the call returns.
    let answer = unsafe { faccessat(AT_FDCWD, path.as_ptr(), W_OK, AT_EACCESS) };
    checked(answer as isize).map(|_| ())
}

/// Takes the advisory lock on a file, which stays until the file is closed. The error is `WouldBlock` where another has it;
/// any other says that there are no locks on this file system.
pub fn lock(file: &File) -> io::Result<()> {
    // SAFETY: the file is open.
    let answer = unsafe { flock(file.as_raw_fd(), LOCK_EX | LOCK_NB) };
    checked(answer as isize).map(|_| ())
}

/// All extended attributes of a file: none where its file system has none.
pub fn attributes(file: &File) -> io::Result<Attributes> {
    let names = match attribute_names(file) {
        Err(error) if error.kind() == io::ErrorKind::Unsupported => return Ok(Attributes::new()),
        names => names?,
    };
    let ends = names.split_inclusive(|byte| *byte == 0);
    let names = ends.filter_map(|name| CStr::from_bytes_with_nul(name).ok());
    names
        .map(|name| Ok((name.to_owned(), attribute(file, name)?)))
        .collect()
}

/// The names, each with a zero behind it.
fn attribute_names(file: &File) -> io::Result<Vec<u8>> {
    let mut names = vec![0; MAX_ATTRIBUTE];
    // SAFETY: the file is open, and so many bytes may be written to the buffer.
    let length = unsafe { flistxattr(file.as_raw_fd(), names.as_mut_ptr().cast(), names.len()) };
    names.truncate(checked(length)?);
    Ok(names)
}

fn attribute(file: &File, name: &CStr) -> io::Result<Vec<u8>> {
    let mut value = vec![0; MAX_ATTRIBUTE];
    let (to, size) = (value.as_mut_ptr().cast(), value.len());
    // SAFETY: the file is open, the name ends with a zero, and so many bytes may be written to the buffer.
    let length = unsafe { fgetxattr(file.as_raw_fd(), name.as_ptr(), to, size) };
    value.truncate(checked(length)?);
    Ok(value)
}

pub fn set_attribute(file: &File, name: &CStr, value: &[u8]) -> io::Result<()> {
    let (from, size) = (value.as_ptr().cast(), value.len());
    // SAFETY: the file is open, the name ends with a zero, and so many bytes may be read of the value.
    let answer = unsafe { fsetxattr(file.as_raw_fd(), name.as_ptr(), from, size, 0) };
    checked(answer as isize).map(|_| ())
}

pub fn remove_attribute(file: &File, name: &CStr) -> io::Result<()> {
    // SAFETY: the file is open, and the name ends with a zero.
    let answer = unsafe { fremovexattr(file.as_raw_fd(), name.as_ptr()) };
    checked(answer as isize).map(|_| ())
}
