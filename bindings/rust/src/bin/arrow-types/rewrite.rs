//! A file of type texts, one to a line, rewritten in place as the printer spells them.

use crate::failure::Failure;
use crate::hints::hints;
use crate::progress::Progress;
use crate::replace_file::{READING, Refusal, Replacement, Target, failing};
use arrow_types::{DataType, Field, RewriteError, Spelling, rewrite_with};
use std::fmt;
use std::io::{self, BufRead, BufReader, Read, Write};
use std::path::Path;

/// How much of a line is read: more than a type text has, and as much behind that as is shown where one is too long.
const LONGEST_LINE: u64 = 65_536;

/// The bytes that are asked for at a time.
const CHUNK: usize = 65_536;

/// How a file is rewritten.
#[derive(Clone, Copy, Default)]
pub struct Options {
    pub spelling: Spelling,
    /// Also one that is read-only or has hard links.
    pub by_force: bool,
}

/// Rewrites a file: whether every text could be rewritten. If one could not, the file stays as it is.
pub fn run(path: &Path, options: Options, output: &mut impl Write) -> Result<bool, Failure> {
    let failed = |refusal| Failure::of_file(path, said(refusal));
    let target = Target::open(path, options.by_force).map_err(failed)?;
    let counts = match rewrite_lines(&target, options.spelling) {
        Ok(counts) => counts,
        Err(Stop::File(refusal)) => return Err(failed(refusal)),
        Err(Stop::Line(refusal)) => {
            say_refusal(path, &refusal);
            return Ok(false);
        }
    };
    for left in target.remove_leftovers() {
        let left = left.display();
        say(format_args!("{left}: an earlier run left it, and it stays"));
    }
    report(path, counts, output).map_err(|error| {
        Failure::of_file(path, format!("done, but writing standard output: {error}"))
    })?;
    Ok(true)
}

fn said(refusal: Refusal) -> String {
    if refusal.is_forcible() {
        format!("{refusal} without --force")
    } else {
        refusal.to_string()
    }
}

fn say_refusal(path: &Path, refusal: &str) {
    let path = path.display();
    say(format_args!("{path}: nothing is written: {refusal}"));
}

/// Where standard error can't be written, the status is left.
fn say(text: fmt::Arguments<'_>) {
    let _ = writeln!(io::stderr(), "arrow-types: {text}");
}

fn report(path: &Path, counts: Counts, output: &mut impl Write) -> io::Result<()> {
    let Counts { lines, changed, .. } = counts;
    let path = path.display();
    writeln!(output, "{path}: {changed} of {lines} lines rewritten")?;
    output.flush()
}

/// Why a file is not rewritten: a line that can't be, or the file.
enum Stop {
    Line(String),
    File(Refusal),
}

impl From<Refusal> for Stop {
    fn from(refusal: Refusal) -> Stop {
        Stop::File(refusal)
    }
}

/// How many lines were read, of how many bytes, and how many of them have changed.
#[derive(Clone, Copy, Default)]
struct Counts {
    lines: u64,
    bytes: u64,
    changed: u64,
}

/// Rewrites every line, up to the first that can't be. A file of which no line changes is not touched.
fn rewrite_lines(target: &Target, spelling: Spelling) -> Result<Counts, Stop> {
    let mut progress = Progress::of(target.length());
    let mut reader = BufReader::with_capacity(CHUNK, target);
    let mut line = Vec::new();
    let mut rewriting = Rewriting {
        spelling,
        counts: Counts::default(),
        replacement: Replacement::of(target),
    };
    while next_line(&mut reader, &mut line).map_err(failing(READING))? {
        rewriting.take(&line)?;
        progress.at(rewriting.counts.bytes);
    }
    rewriting.finish()
}

/// What was read of a file, and what is to take its place: nothing, up to the first line that changes.
struct Rewriting<'a> {
    spelling: Spelling,
    counts: Counts,
    replacement: Replacement<'a>,
}

impl Rewriting<'_> {
    fn take(&mut self, line: &[u8]) -> Result<(), Stop> {
        let text = line.strip_suffix(b"\n").unwrap_or(line);
        let counts = &mut self.counts;
        counts.lines += 1;
        let printed = rewrite_with(text, self.spelling).map_err(|error| {
            let why = refusal(text, self.spelling, error);
            Stop::Line(format!("line {}: {why}", counts.lines))
        })?;
        let changes = printed.as_bytes() != text;
        if changes && counts.changed == 0 {
            self.replacement.copy_start(counts.bytes)?;
        }
        counts.changed += u64::from(changes);
        counts.bytes += line.len() as u64;
        if counts.changed > 0 {
            self.replacement.write(printed.as_bytes())?;
            self.replacement.write(&line[text.len()..])?;
        }
        Ok(())
    }

    fn finish(self) -> Result<Counts, Stop> {
        if self.counts.changed > 0 {
            self.replacement.put_in_place()?;
        }
        Ok(self.counts)
    }
}

/// Reads a line with its end, or the start of one that is too long: whether there is one. A last line may have no end.
fn next_line(reader: &mut impl BufRead, line: &mut Vec<u8>) -> io::Result<bool> {
    line.clear();
    let count = reader.take(LONGEST_LINE).read_until(b'\n', line)?;
    Ok(count > 0)
}

/// What is said of a text that can't be rewritten.
fn refusal(text: &[u8], spelling: Spelling, error: RewriteError) -> String {
    match error {
        RewriteError::Read(refused) => {
            let said = format!("{refused}\n{}\n{}", refused.picture(text), hints(text));
            said.trim_end().to_owned()
        }
        RewriteError::Print(_) => error.to_string(),
        RewriteError::ReadBack(_) | RewriteError::Different => loss(text, spelling, error),
    }
}

/// What would be lost of a type: a zone is named first of all. Where the printed text does not read back it is shown.
fn loss(text: &[u8], spelling: Spelling, error: RewriteError) -> String {
    let before = DataType::try_from(text).ok();
    let printed = before.as_ref().map(|before| before.print_with(spelling));
    let printed = printed.and_then(Result::ok).unwrap_or_default();
    let after = printed.parse().ok();
    let lost = match lost_zone(before.as_ref(), after.as_ref()) {
        Some(zone) => format!("the zone {zone:?} would be lost: "),
        None => String::new(),
    };
    match error {
        RewriteError::ReadBack(refused) => {
            format!("{lost}{error}\n{}", refused.picture(&printed))
        }
        error => format!("{lost}{error}"),
    }
}

/// The first zone that is not found again.
fn lost_zone<'a>(before: Option<&'a DataType>, after: Option<&DataType>) -> Option<&'a str> {
    let mut found = zones(after);
    zones(before).find(|zone| found.next() != Some(zone))
}

/// The zones of a type, in order, if there is one.
fn zones(data_type: Option<&DataType>) -> impl Iterator<Item = &str> {
    let roots = data_type.into_iter().map(DataType::root);
    roots.flat_map(Field::subtree).filter_map(Field::zone)
}
