//! Type texts turned into records of the archive, and back.

use crate::failure::{Failure, written};
use crate::hints::hints;
use arrow_types::{DataType, Spelling};
use std::io::{self, Read, Write};

/// The bytes of a record's length.
const LENGTH: usize = 4;

/// Turns each line of the input into a record, one behind the other: whether every line was taken. If one was not, nothing is
/// written.
pub fn archive(input: &mut impl Read, output: &mut impl Write) -> Result<bool, Failure> {
    let mut bytes = Vec::new();
    input.read_to_end(&mut bytes).map_err(Failure::Input)?;
    match records(&bytes) {
        Ok(records) => {
            written(output.write_all(&records).and_then(|()| output.flush()))?;
            Ok(true)
        }
        Err(refusal) => {
            say(&format!("nothing is written: {refusal}"));
            Ok(false)
        }
    }
}

/// Every line's record, or why the first that has none does not.
fn records(bytes: &[u8]) -> Result<Vec<u8>, String> {
    let mut records = Vec::new();
    for (number, line) in (1..).zip(bytes.split_inclusive(|byte| *byte == b'\n')) {
        let text = line.strip_suffix(b"\n").unwrap_or(line);
        let read = DataType::try_from(text).map_err(|refused| {
            let picture = refused.picture(text);
            let said = format!("line {number}: {refused}\n{picture}\n{}", hints(text));
            said.trim_end().to_owned()
        })?;
        records.extend(read.to_archive());
    }
    Ok(records)
}

/// Prints each record of the input as a text on a line of its own: whether every record was taken. It stops at the first that
/// was not, behind those before it.
pub fn unarchive(
    input: &mut impl Read,
    spelling: Spelling,
    output: &mut impl Write,
) -> Result<bool, Failure> {
    let mut place = 0;
    for number in 1.. {
        let record = next_record(input).map_err(Failure::Input)?;
        if record.is_empty() {
            break;
        }
        match text(&record, spelling) {
            Ok(text) => written(writeln!(output, "{text}"))?,
            Err(refusal) => {
                written(output.flush())?;
                say(&format!("record {number}, at byte {place}: {refusal}"));
                return Ok(false);
            }
        }
        place += record.len();
    }
    written(output.flush())?;
    Ok(true)
}

/// The bytes of the next record by its length, or what there is of them; none at the end.
fn next_record(input: &mut impl Read) -> io::Result<Vec<u8>> {
    let mut record = Vec::new();
    input.take(LENGTH as u64).read_to_end(&mut record)?;
    if let Ok(length) = record.as_slice().try_into() {
        let rest = u64::from(u32::from_le_bytes(length)).saturating_sub(LENGTH as u64);
        input.take(rest).read_to_end(&mut record)?;
    }
    Ok(record)
}

/// The text of a record, which must stand on one line, or why there is none.
fn text(record: &[u8], spelling: Spelling) -> Result<String, String> {
    let read = DataType::from_archive(record).map_err(|refused| refused.to_string())?;
    let printed = read.print_with(spelling);
    let printed = printed.map_err(|refused| format!("not printed: {refused}"))?;
    if printed.contains('\n') {
        return Err("a name has a line's end in it, and would stand on two lines".to_owned());
    }
    Ok(printed)
}

/// Where standard error can't be written, the status is left.
fn say(refusal: &str) {
    let _ = writeln!(io::stderr(), "arrow-types: {refusal}");
}
