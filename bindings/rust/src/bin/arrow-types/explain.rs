//! A text explained to a person: its tree, or why and where it is refused.

use crate::failure::{Failure, written};
use crate::hints::hints;
use crate::paint::Paint;
use crate::tree::tree;
use arrow_types::DataType;
use std::ffi::OsStr;
use std::io::Write;
use std::os::unix::ffi::OsStrExt;
use std::path::Path;

/// What is to be explained: a text, or each line of a file.
#[derive(Clone, Copy)]
pub enum Source<'a> {
    Text(&'a OsStr),
    File(&'a Path),
    /// A text, since there is no file of that name.
    NoFile(&'a OsStr),
}

impl Source<'_> {
    /// A file if there is one of that name, else a text.
    pub fn named(argument: &OsStr) -> Source<'_> {
        let path = Path::new(argument);
        if path.exists() && !path.is_dir() {
            Source::File(path)
        } else {
            Source::NoFile(argument)
        }
    }
}

/// Explains: whether every text was taken.
pub fn run(source: Source<'_>, paint: Paint, output: &mut impl Write) -> Result<bool, Failure> {
    match source {
        Source::Text(text) => explain_text(text.as_bytes(), paint, output),
        Source::File(path) => explain_file(path, paint, output),
        Source::NoFile(text) => {
            let taken = explain_text(text.as_bytes(), paint, output)?;
            if !taken && is_word(text.as_bytes()) {
                written(output.write_all(b"There is no file of that name.\n"))?;
            }
            Ok(taken)
        }
    }
}

/// Whether a text could be meant for a file's name.
fn is_word(text: &[u8]) -> bool {
    !text.iter().any(|byte| b" (\"'".contains(byte))
}

fn explain_file(path: &Path, paint: Paint, output: &mut impl Write) -> Result<bool, Failure> {
    let bytes = std::fs::read(path).map_err(|error| Failure::of_file(path, error))?;
    let mut all_taken = true;
    for (number, line) in (1..).zip(bytes.split_inclusive(|byte| *byte == b'\n')) {
        let text = line.strip_suffix(b"\n").unwrap_or(line);
        written(writeln!(output, "line {number}:"))?;
        all_taken &= explain_text(text, paint, output)?;
    }
    Ok(all_taken)
}

/// Writes what is said of a text: whether it was taken.
fn explain_text(text: &[u8], paint: Paint, output: &mut impl Write) -> Result<bool, Failure> {
    let said = explain(text, paint);
    let taken = said.is_ok();
    let said = said.unwrap_or_else(|refused| refused);
    written(
        output
            .write_all(said.as_bytes())
            .and_then(|()| output.flush()),
    )?;
    Ok(taken)
}

/// What is said of a text that is taken, or of one that is refused by the reader or the printer.
fn explain(text: &[u8], paint: Paint) -> Result<String, String> {
    let read = DataType::try_from(text).map_err(|refused| {
        let head = format!("refused with {}: {refused}", refused.number());
        let picture = refused.picture(text);
        format!("{}\n{picture}\n{}", paint.refusal(&head), hints(text))
    })?;
    let tree = tree(&read, paint);
    match read.print() {
        Ok(_) => Ok(tree),
        Err(refused) => {
            let head = format!("not printed, {}: {refused}", refused.number());
            Err(format!("{tree}{}\n", paint.refusal(&head)))
        }
    }
}
