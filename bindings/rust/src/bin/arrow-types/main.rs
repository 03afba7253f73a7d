//! The command `arrow-types`: the line program with an exit status, a text explained to a person, a file rewritten, and types put
//! into the archive record and taken from it.

mod archive;
mod count;
mod explain;
mod failure;
mod hints;
mod input_lines;
mod lines;
mod paint;
mod progress;
#[path = "../../../examples/replace_file/mod.rs"]
mod replace_file;
mod rewrite;
mod tree;

use crate::failure::Failure;
use arrow_types::Spelling;
use explain::Source;
use paint::Paint;
use progress::Progress;
use rewrite::Options;
use std::ffi::{OsStr, OsString};
use std::io::{self, IsTerminal, Write};
use std::process::ExitCode;

const HELP: &str = "\
Reads and prints the type texts of Apache Arrow.

    arrow-types lines                  a type text on each line of standard input:
                                       an answer for each, as type_lines gives it
    arrow-types count                  exact counts of the same, as type_counts reports them
    arrow-types explain TEXT           what a type text says, or why and where it is refused
    arrow-types explain FILE           the same for each line of a file
    arrow-types rewrite FILE           each line of a file rewritten in place, microseconds as us
    arrow-types rewrite --micro FILE   the same, microseconds as \u{b5}s: for a file that is compared
                                       with what arrow-schema prints
    arrow-types rewrite --force FILE   the same, also if FILE is read-only or has other names (hard
                                       links), which keep the old contents; also with --micro
    arrow-types archive                a type text on each line of standard input: their records of
                                       the archive, one behind the other
    arrow-types unarchive              records of the archive: a type text on a line for each
    arrow-types unarchive --micro      the same, microseconds as \u{b5}s
    arrow-types --help, --version

What explain is given is a file if there is one of that name, else a text; `explain --file FILE`
and `explain --text TEXT` say which it is.

rewrite writes nothing if a line is refused or would become another type, as where a time zone
would be lost. The new file takes the old one's place at one stroke, with its owner, group, mode,
access list and extended attributes. FILE is refused, and stays as it is, if one of these can't be
kept; if it is no plain file; if another program has it locked; if it changed, by device, inode,
size or times, from when it was opened until it would be replaced; and without --force if it is
read-only or has other names. A FILE that needs no change is not touched.

archive writes nothing if a line is refused; unarchive stops at the first record that is refused,
and says which it is.

lines and rewrite take files of any size. Where they take long they say at a terminal, on standard
error, how far they have got.

The exit status is 0; 1 if a text was refused or lines are too many to count; 2 if reading or
writing failed, a file was refused, or the command is not one of these.
";

/// A command that did what it is for: whether every text was taken.
type Ending = Result<bool, Failure>;

fn main() -> ExitCode {
    let arguments: Vec<OsString> = std::env::args_os().skip(1).collect();
    let arguments: Vec<&OsStr> = arguments.iter().map(OsString::as_os_str).collect();
    match run(&arguments) {
        Ok(true) => ExitCode::SUCCESS,
        Ok(false) => ExitCode::from(1),
        Err(failure) => {
            // Where standard error can't be written either, the status is left.
            let _ = writeln!(io::stderr(), "arrow-types: {failure}");
            ExitCode::from(2)
        }
    }
}

fn run(arguments: &[&OsStr]) -> Ending {
    let words: Vec<&str> = arguments
        .iter()
        .map(|argument| argument.to_str().unwrap_or("?"))
        .collect();
    match words.as_slice() {
        ["-h" | "--help"]
        | [
            "lines" | "count" | "explain" | "rewrite" | "archive" | "unarchive",
            "-h" | "--help",
        ] => say(HELP),
        ["--version"] => say(concat!("arrow-types ", env!("CARGO_PKG_VERSION"), "\n")),
        ["lines"] => lines(),
        ["count"] => count::run(&mut io::stdin().lock(), &mut io::stdout().lock()),
        ["explain", "--text" | "--file"] => Err(Failure::Usage),
        ["explain", "--text", _] => explain(Source::Text(arguments[2])),
        ["explain", "--file", _] => explain(Source::File(arguments[2].as_ref())),
        ["explain", _] => explain(Source::named(arguments[1])),
        ["rewrite", ..] => rewrite(&arguments[1..]),
        ["archive"] => archive::archive(&mut io::stdin().lock(), &mut io::stdout().lock()),
        ["unarchive"] => unarchive(Spelling::Us),
        ["unarchive", "--micro"] => unarchive(Spelling::Micro),
        _ => Err(Failure::Usage),
    }
}

fn unarchive(spelling: Spelling) -> Ending {
    let mut stdout = io::BufWriter::new(io::stdout().lock());
    archive::unarchive(&mut io::stdin().lock(), spelling, &mut stdout)
}

fn lines() -> Ending {
    let mut output = io::stdout().lock();
    // Answers at a terminal show by themselves how far they have got.
    let progress = if output.is_terminal() {
        Progress::none()
    } else {
        Progress::of(None)
    };
    lines::run(&mut io::stdin().lock(), &mut output, progress)
}

fn explain(source: Source<'_>) -> Ending {
    let stdout = io::stdout();
    let paint = Paint::of(&stdout);
    explain::run(source, paint, &mut stdout.lock())
}

/// Options, each once at the most, and a file.
fn rewrite(arguments: &[&OsStr]) -> Ending {
    let mut options = Options::default();
    let mut rest = arguments;
    while let [option, others @ ..] = rest {
        match option.to_str() {
            Some("--micro") if options.spelling == Spelling::Us => {
                options.spelling = Spelling::Micro
            }
            Some("--force") if !options.by_force => options.by_force = true,
            _ => break,
        }
        rest = others;
    }
    match rest {
        [file] => rewrite::run(file.as_ref(), options, &mut io::stdout().lock()),
        _ => Err(Failure::Usage),
    }
}

fn say(text: &str) -> Ending {
    let mut stdout = io::stdout().lock();
    failure::written(
        stdout
            .write_all(text.as_bytes())
            .and_then(|()| stdout.flush()),
    )?;
    Ok(true)
}
