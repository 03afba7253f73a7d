//! A service's loop: rewrites the head of a slot file, one type text to a line for each column, as arrow-schema prints
//! types, with `µs`, and sees to it that no time zone is lost.
//!
//!     cargo run --release --offline --example slot_file -- INPUT OUTPUT
//!
//! It reports the zones of each column before and after and writes the new head to OUTPUT. If a text is refused, or would
//! become another type, it says so, writes nothing and ends with the status 1. Of a text that is refused it shows where.
//! OUTPUT, which may be INPUT, is replaced at one stroke: where writing fails, or another program has written to it since
//! the start, it is as it was.

mod replace_file;

use arrow_types::{DataType, Field, RewriteError, Spelling, rewrite_with};
use replace_file::{Refusal, Replacement, Target};
use std::io::{self, Write};
use std::path::Path;
use std::process::ExitCode;

fn main() -> ExitCode {
    let arguments: Vec<String> = std::env::args().skip(1).collect();
    let [input, output] = arguments.as_slice() else {
        eprintln!("usage: slot_file INPUT OUTPUT");
        return ExitCode::from(2);
    };
    let mut report = String::new();
    let (last, mut status) = match rewrite_file(input, output, &mut report) {
        Ok(columns) => (
            format!("{columns} columns rewritten, no zone lost\n"),
            ExitCode::SUCCESS,
        ),
        Err(message) => (format!("{message}\n"), ExitCode::FAILURE),
    };
    report += &last;
    if let Err(error) = io::stdout().write_all(report.as_bytes()) {
        eprintln!("{last}writing standard output: {error}");
        status = ExitCode::FAILURE;
    }
    status
}

/// Rewrites a head: how many columns it has.
fn rewrite_file(input: &str, output: &str, report: &mut String) -> Result<usize, String> {
    let refused = |refusal: Refusal| format!("{output}: {refusal}");
    // Before INPUT is read, which may be the same file: what is written to it from now on is seen.
    let target = Target::open_or_new(Path::new(output), false).map_err(refused)?;
    let head =
        std::fs::read(input).map_err(|error| format!("nothing is written: {input}: {error}"))?;
    let head = head.strip_suffix(b"\n").unwrap_or(&head);
    let mut rewritten = String::new();
    let mut columns = 0;
    for text in head.split(|byte| *byte == b'\n') {
        columns += 1;
        // The head is compared with the one that arrow-schema prints, so it is in that spelling.
        let printed = rewrite_with(text, Spelling::Micro).map_err(|error| {
            format!("nothing is written: column {columns}: {}", why(text, error))
        })?;
        let (had, has) = (zones(text), zones(printed.as_bytes()));
        *report += &format!("column {columns}: {had} -> {has}\n");
        rewritten += &printed;
        rewritten += "\n";
    }
    let mut replacement = Replacement::of(&target);
    replacement.write(rewritten.as_bytes()).map_err(refused)?;
    replacement.put_in_place().map_err(refused)?;
    for left in target.remove_leftovers() {
        *report += &format!("{}: an earlier run left it, and it stays\n", left.display());
    }
    Ok(columns)
}

/// Why a text is not rewritten, and where it is refused.
fn why(text: &[u8], error: RewriteError) -> String {
    match error {
        RewriteError::Read(refused) => format!("{refused}\n{}", refused.picture(text)),
        error => error.to_string(),
    }
}

/// The zones of a text's type, in order.
fn zones(text: &[u8]) -> String {
    let read = DataType::try_from(text).ok();
    let fields = read.iter().flat_map(|read| read.root().subtree());
    let zones: Vec<&str> = fields.filter_map(Field::zone).collect();
    if zones.is_empty() {
        return "no zone".to_owned();
    }
    zones.join(", ")
}
