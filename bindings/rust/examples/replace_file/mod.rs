//! A file replaced at one stroke: whoever opens it, at any time, finds the old contents or the new ones, whole. What
//! another program writes to it meanwhile is not lost, and nobody gets rights that he did not have: the file is replaced,
//! or it is refused and is as it was. bindings/README.md says what counts as changed and what is refused.

#![allow(dead_code, reason = "each program uses its own part")]

mod leftovers;
mod refusal;
mod rights;
pub mod system;
mod target;
mod temporary;

pub use refusal::{Refusal, failing};
pub use target::Target;

use std::fs;
use std::io::Write;
use temporary::Temporary;

/// How many bytes are held before a file is made for them. So nothing stands in the folder until a short file is read and
/// taken whole.
const HELD: usize = 1 << 20;

/// How many bytes are copied at a time.
const CHUNK: usize = 65_536;

// What a refusal may be about.
pub const READING: &str = "reading it";
const OPENING: &str = "opening it";
const LOCKING: &str = "locking it";
const WRITING: &str = "writing the new file";
const REPLACING: &str = "replacing it";
const SYNCING: &str = "syncing its folder";

/// The new contents of a file: held, and in a temporary file beside it if they are many. If they are not put in place the
/// temporary file is removed.
pub struct Replacement<'a> {
    target: &'a Target,
    held: Vec<u8>,
    temporary: Option<Temporary>,
}

impl<'a> Replacement<'a> {
    /// One with no contents yet.
    pub fn of(target: &'a Target) -> Replacement<'a> {
        Replacement {
            target,
            held: Vec::new(),
            temporary: None,
        }
    }

    pub fn write(&mut self, bytes: &[u8]) -> Result<(), Refusal> {
        self.held.extend(bytes);
        if self.held.len() < HELD {
            return Ok(());
        }
        self.write_held().map(|_| ())
    }

    /// Writes the first bytes of the old file, so many as were read of it.
    pub fn copy_start(&mut self, count: u64) -> Result<(), Refusal> {
        let mut chunk = vec![0; CHUNK];
        for start in (0..count).step_by(CHUNK) {
            let length = (count - start).min(CHUNK as u64) as usize;
            self.target.read_again(&mut chunk[..length], start)?;
            self.write(&chunk[..length])?;
        }
        Ok(())
    }

    /// Puts the contents in the file's place, synced. Owner, group, mode, access list and extended attributes stay.
    pub fn put_in_place(self) -> Result<(), Refusal> {
        self.put_in_place_after(|| ())
    }

    /// The same, with what happens when all is written and nothing renamed yet: for tests.
    pub fn put_in_place_after(mut self, meanwhile: impl FnOnce()) -> Result<(), Refusal> {
        let target = self.target;
        let temporary = self.write_held()?;
        if let Some(old) = target.old() {
            rights::take_over(temporary.file(), old)?;
        }
        temporary.file().sync_all().map_err(failing(WRITING))?;
        meanwhile();
        target.check_unchanged()?;
        fs::rename(temporary.path(), target.path()).map_err(failing(REPLACING))?;
        temporary.keep();
        let synced = temporary.folder().sync_all();
        synced.map_err(|error| Refusal::new(SYNCING, error).though_written())
    }

    /// Writes what is held to the temporary file, which is made now if there is none.
    fn write_held(&mut self) -> Result<&mut Temporary, Refusal> {
        let temporary = match self.temporary.take() {
            Some(temporary) => temporary,
            None => temporary_beside(self.target)?,
        };
        let written = temporary.file().write_all(&self.held);
        written.map_err(failing(WRITING))?;
        self.held.clear();
        Ok(self.temporary.insert(temporary))
    }
}

/// A temporary file for a file that may be replaced. One that gets the rights of an old file has none for others till then.
fn temporary_beside(target: &Target) -> Result<Temporary, Refusal> {
    target.check_replaceable()?;
    let mode = if target.old().is_some() { 0o600 } else { 0o666 };
    Temporary::create(target.folder(), mode).map_err(failing(WRITING))
}
