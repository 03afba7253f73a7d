//! What ends a command with the status 2.

use std::fmt;
use std::io;
use std::path::{Path, PathBuf};

/// Reading or writing failed, or there is no such command.
#[derive(Debug)]
pub enum Failure {
    Usage,
    Input(io::Error),
    Output(io::Error),
    /// A file that could not be read, or replaced.
    File(PathBuf, String),
}

impl Failure {
    pub fn of_file(path: &Path, error: impl fmt::Display) -> Failure {
        Failure::File(path.to_owned(), error.to_string())
    }
}

/// What writing to standard output gives.
pub fn written<T>(result: io::Result<T>) -> Result<T, Failure> {
    result.map_err(Failure::Output)
}

impl fmt::Display for Failure {
    fn fmt(&self, formatter: &mut fmt::Formatter<'_>) -> fmt::Result {
        match self {
            Failure::Usage => {
                formatter.write_str("there is no such command; `arrow-types --help` has them all")
            }
            Failure::Input(error) => write!(formatter, "reading standard input: {error}"),
            Failure::Output(error) => write!(formatter, "writing standard output: {error}"),
            Failure::File(path, error) => write!(formatter, "{}: {error}", path.display()),
        }
    }
}
