//! The lines of an input, without their newlines, each given as soon as it is read. Of one that is too long for a type text
//! the start is given, once and at once, and the rest is skipped.

use arrow_types::MAX_TEXT;
use std::io::{self, Read};

/// The bytes that are asked for at a time.
const CHUNK: usize = 65_536;

pub struct InputLines<'a, R> {
    input: &'a mut R,
    chunk: Vec<u8>,
    begun: Begun,
}

impl<'a, R: Read> InputLines<'a, R> {
    pub fn of(input: &'a mut R) -> InputLines<'a, R> {
        InputLines {
            input,
            chunk: vec![0; CHUNK],
            begun: Begun::default(),
        }
    }

    /// Reads what is there, waiting where nothing is, and gives the lines in it: how many bytes there were. These are 0 at the
    /// end, which is that of the last line too, if there is one.
    pub fn read(&mut self, mut give: impl FnMut(&[u8])) -> io::Result<usize> {
        let count = read_some(self.input, &mut self.chunk)?;
        if count == 0 {
            self.begun.finish(&mut give);
        } else {
            self.begun.take(&self.chunk[..count], &mut give);
        }
        Ok(count)
    }

    /// Whether a line has begun that is not given yet.
    pub fn has_begun(&self) -> bool {
        !self.begun.line.is_empty() && !self.begun.given
    }
}

/// Reads what is there, and waits where nothing is: 0 at the end.
fn read_some(input: &mut impl Read, chunk: &mut [u8]) -> io::Result<usize> {
    loop {
        match input.read(chunk) {
            Err(error) if error.kind() == io::ErrorKind::Interrupted => {}
            result => return result,
        }
    }
}

/// What is there of the line whose end is not read yet.
#[derive(Default)]
struct Begun {
    /// No more of it than makes it too long.
    line: Vec<u8>,
    /// Whether it is given already, since it is too long.
    given: bool,
}

impl Begun {
    fn take(&mut self, bytes: &[u8], give: &mut impl FnMut(&[u8])) {
        for part in bytes.split_inclusive(|byte| *byte == b'\n') {
            match part.strip_suffix(b"\n") {
                None => self.take_part(part, give),
                Some(line) if self.line.is_empty() => give(line),
                Some(end) => self.take_end(end, give),
            }
        }
    }

    /// A part of a line whose end is still to come.
    fn take_part(&mut self, part: &[u8], give: &mut impl FnMut(&[u8])) {
        let room = MAX_TEXT + 1 - self.line.len();
        self.line.extend(&part[..part.len().min(room)]);
        if self.line.len() > MAX_TEXT && !self.given {
            give(&self.line);
            self.given = true;
        }
    }

    /// The end of a line that has begun.
    fn take_end(&mut self, end: &[u8], give: &mut impl FnMut(&[u8])) {
        self.take_part(end, give);
        if !self.given {
            give(&self.line);
        }
        self.line.clear();
        self.given = false;
    }

    /// The end of the input, which is that of its last line, if there is one.
    fn finish(&mut self, give: &mut impl FnMut(&[u8])) {
        if !self.line.is_empty() {
            self.take_end(b"", give);
        }
    }
}
