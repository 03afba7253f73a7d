//! The line program: an answer for each line of the input, byte for byte as `type_lines` gives it. Answers are written
//! before each read, so that whoever waits for one before it writes the next line gets it.

use crate::failure::{Failure, written};
use crate::input_lines::InputLines;
use crate::progress::Progress;
use arrow_types::DataType;
use std::io::{Read, Write};

/// Answers lines until the input ends: whether all were taken.
pub fn run(
    input: &mut impl Read,
    output: &mut impl Write,
    mut progress: Progress,
) -> Result<bool, Failure> {
    let mut lines = InputLines::of(input);
    let mut bytes = 0;
    let mut answering = Answering::default();
    loop {
        let count = lines
            .read(|line| answering.answer(line))
            .map_err(Failure::Input)?;
        answering.write_to(output)?;
        if count == 0 {
            return Ok(!answering.refused);
        }
        bytes += count as u64;
        progress.at(bytes);
    }
}

#[derive(Default)]
struct Answering {
    /// The answers that are not written yet.
    answers: Vec<u8>,
    /// Whether a line was refused.
    refused: bool,
}

impl Answering {
    fn answer(&mut self, line: &[u8]) {
        let answer = match answer(line) {
            Ok(taken) => taken,
            Err(refused) => {
                self.refused = true;
                refused
            }
        };
        self.answers.extend(answer.as_bytes());
        self.answers.push(b'\n');
    }

    fn write_to(&mut self, output: &mut impl Write) -> Result<(), Failure> {
        written(
            output
                .write_all(&self.answers)
                .and_then(|()| output.flush()),
        )?;
        self.answers.clear();
        Ok(())
    }
}

/// The answer to a line that is taken, or to one that is refused.
fn answer(line: &[u8]) -> Result<String, String> {
    let read = DataType::try_from(line)
        .map_err(|refused| format!("no {} {}", refused.number(), refused.place()))?;
    let printed = read
        .print()
        .map_err(|refused| format!("no {}", refused.number()))?;
    Ok(format!(
        "ok {} {} {printed}",
        read.row_count(),
        read.depth()
    ))
}
