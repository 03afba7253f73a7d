//! The monthly count: exact counts of the lines of the input, byte for byte as `type_counts` reports them.

use crate::failure::{Failure, written};
use crate::input_lines::InputLines;
use arrow_types::DataType;
use std::fmt;
use std::io::{Read, Write};

/// So many lines are counted; one more is refused.
const MAX_LINES: u32 = 1_000_000;

/// What is printed of more lines.
const TOO_MANY_LINES: &str = "no 24\n";

/// Counts lines until the input ends, or has more of them than are counted: whether there is a report.
pub fn run(input: &mut impl Read, output: &mut impl Write) -> Result<bool, Failure> {
    let mut lines = InputLines::of(input);
    let mut tally = Tally::default();
    loop {
        let count = lines.read(|line| tally.add(line)).map_err(Failure::Input)?;
        if tally.lines + u32::from(lines.has_begun()) > MAX_LINES {
            say(output, TOO_MANY_LINES)?;
            return Ok(false);
        }
        if count == 0 {
            say(output, &tally.to_string())?;
            return Ok(true);
        }
    }
}

fn say(output: &mut impl Write, text: &str) -> Result<(), Failure> {
    written(
        output
            .write_all(text.as_bytes())
            .and_then(|()| output.flush()),
    )
}

/// The counts so far.
struct Tally {
    lines: u32,
    ok: u32,
    /// By the refusal's number, from 1.
    refused: [u32; 16],
    /// By the kind's number, from 0.
    kinds: [u32; 41],
    deep: usize,
}

impl Default for Tally {
    fn default() -> Tally {
        Tally {
            lines: 0,
            ok: 0,
            refused: [0; 16],
            kinds: [0; 41],
            deep: 0,
        }
    }
}

impl Tally {
    fn add(&mut self, line: &[u8]) {
        self.lines += 1;
        match DataType::try_from(line) {
            Err(refused) => self.refused[refused.number() as usize - 1] += 1,
            Ok(read) => {
                self.ok += 1;
                for field in read.root().subtree() {
                    self.kinds[field.kind().number() as usize] += 1;
                }
                self.deep = self.deep.max(read.depth());
            }
        }
    }
}

impl fmt::Display for Tally {
    fn fmt(&self, formatter: &mut fmt::Formatter<'_>) -> fmt::Result {
        writeln!(formatter, "lines {}\nok {}", self.lines, self.ok)?;
        numbered(formatter, "no", 1, &self.refused)?;
        numbered(formatter, "kind", 0, &self.kinds)?;
        writeln!(formatter, "deep {}", self.deep)
    }
}

/// A line for each count but 0, with its number.
fn numbered(
    formatter: &mut fmt::Formatter<'_>,
    word: &str,
    first: usize,
    counts: &[u32],
) -> fmt::Result {
    let found = (first..).zip(counts).filter(|(_, count)| **count != 0);
    for (number, count) in found {
        writeln!(formatter, "{word} {number} {count}")?;
    }
    Ok(())
}
