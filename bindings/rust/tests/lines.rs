//! `arrow-types lines`: its answers, its exit status, and what it does where reading or writing fails.
//! tests/lines/run.py of the repository gives it all that `type_lines` is given.

mod program;

use program::{arrow_types, file, full, memory, outcome, unread};
use std::fs::{self, File};
use std::io::{BufRead, BufReader, Read, Write};
use std::path::Path;
use std::process::Stdio;

/// What the program does with an input.
fn lines(name: &str, input: &[u8]) -> (Option<i32>, String, String) {
    let input = File::open(file(name, input)).unwrap();
    outcome(arrow_types(&["lines"]).stdin(input))
}

#[test]
fn every_line_is_taken() {
    let (status, answers, errors) = lines("taken", b"FixedSizeList(4, Int32)\nInt8");
    assert_eq!(answers, "ok 2 2 FixedSizeList(4 x Int32)\nok 1 1 Int8\n");
    assert_eq!((status, errors.as_str()), (Some(0), ""));
    assert_eq!(lines("none", b""), (Some(0), String::new(), String::new()));
}

#[test]
fn a_line_is_refused() {
    let input = "Int8\nRunEndEncoded(Int32, Utf8)\nStruct(\"北\": Int8)\n\nInt16\n";
    let (status, answers, errors) = lines("refused", input.as_bytes());
    assert_eq!(
        answers,
        "ok 1 1 Int8\nno 13 13\nno 18\nno 5 0\nok 1 1 Int16\n"
    );
    assert_eq!((status, errors.as_str()), (Some(1), ""));
}

#[test]
fn lines_of_any_length() {
    let space = |count: usize| " ".repeat(count);
    let input = format!(
        "Int8{}\n{}Int8\n{}",
        space(16_380),
        space(16_381),
        space(200_000)
    );
    let (status, answers, _) = lines("long", input.as_bytes());
    assert_eq!(answers, "ok 1 1 Int8\nno 1 16384\nno 1 16384\n");
    assert_eq!(status, Some(1));
}

/// More memory than the program takes, in kB, for an input of any size.
const MEMORY: u64 = 16_384;

/// Lines that are taken, lines whose answers are longer than they are, and one line.
#[test]
fn memory_is_bounded() {
    for (name, line, count) in [
        ("memory", "Timestamp(Second, Some(\"CET\"))\n", 1_000_000),
        ("memory_of_empty_lines", "\n", 3_000_000),
        ("memory_of_a_line", " ", 100_000_000),
    ] {
        let path = file(name, line.repeat(count));
        let input = File::open(&path).unwrap();
        let ((status, _, errors), most) = memory(arrow_types(&["lines"]).stdin(input));
        assert_eq!(status, Some(i32::from(name != "memory")));
        assert_eq!(errors, "");
        assert!(most < MEMORY, "{most} kB");
        fs::remove_file(path).unwrap();
    }
}

/// Whoever waits for an answer before it writes the next line gets it.
#[test]
fn answers_at_once() {
    let mut command = arrow_types(&["lines"]);
    let mut child = command
        .stdin(Stdio::piped())
        .stdout(Stdio::piped())
        .spawn()
        .unwrap();
    let mut questions = child.stdin.take().unwrap();
    let mut answers = BufReader::new(child.stdout.take().unwrap());
    for _ in 0..100 {
        questions.write_all(b"Timestamp(Second)\n").unwrap();
        let mut answer = String::new();
        answers.read_line(&mut answer).unwrap();
        assert_eq!(answer, "ok 1 1 Timestamp(s)\n");
    }
    questions.write_all(b"Int").unwrap();
    drop(questions);
    let mut rest = String::new();
    answers.read_to_string(&mut rest).unwrap();
    assert_eq!(rest, "no 8 0\n");
    assert_eq!(child.wait().unwrap().code(), Some(1));
}

#[test]
fn no_room_for_the_answers() {
    let input = File::open(file("full", b"Int8\n")).unwrap();
    let (status, _, errors) = outcome(arrow_types(&["lines"]).stdin(input).stdout(full()));
    assert_eq!(status, Some(2));
    assert!(errors.starts_with("arrow-types: writing standard output: No space left on device"));
    assert_eq!(errors.lines().count(), 1);
}

/// Neither a message nor a status other than 2 where standard error can't be written either.
#[test]
fn no_room_for_the_message() {
    let input = File::open(file("both_full", b"Int8\n")).unwrap();
    let mut command = arrow_types(&["lines"]);
    let status = command.stdin(input).stdout(full()).stderr(full()).status();
    assert_eq!(status.unwrap().code(), Some(2));
}

#[test]
fn nobody_reads_the_answers() {
    let input = File::open(file("pipe", "Int8\n".repeat(100_000))).unwrap();
    let (status, errors) = unread(arrow_types(&["lines"]).stdin(input));
    assert!(errors.starts_with("arrow-types: writing standard output: Broken pipe"));
    assert_eq!(status, Some(2));
}

#[test]
fn no_input_to_read() {
    let folder = File::open(Path::new(env!("CARGO_TARGET_TMPDIR"))).unwrap();
    let (status, answers, errors) = outcome(arrow_types(&["lines"]).stdin(folder));
    assert_eq!((status, answers.as_str()), (Some(2), ""));
    assert!(errors.starts_with("arrow-types: reading standard input: Is a directory"));
}

#[test]
fn help_and_version() {
    for arguments in [
        &["--help"][..],
        &["-h"],
        &["lines", "--help"],
        &["explain", "-h"],
        &["rewrite", "--help"],
    ] {
        let (status, help, errors) = outcome(&mut arrow_types(arguments));
        assert_eq!((status, errors.as_str()), (Some(0), ""));
        for command in ["lines", "explain TEXT", "explain FILE", "rewrite FILE"] {
            assert!(help.contains(&format!("arrow-types {command} ")), "{help}");
        }
        assert!(help.contains("exit status"));
    }
    let (status, version, _) = outcome(&mut arrow_types(&["--version"]));
    let expected = format!("arrow-types {}\n", env!("CARGO_PKG_VERSION"));
    assert_eq!((status, version), (Some(0), expected));
    let (status, _, _) = outcome(arrow_types(&["--help"]).stdout(full()));
    assert_eq!(status, Some(2));
}

#[test]
fn other_commands() {
    for arguments in [
        &[][..],
        &["line"],
        &["lines", "file"],
        &["explain"],
        &["explain", "--text"],
        &["explain", "a", "b"],
        &["rewrite"],
        &["rewrite", "--micro"],
        &["rewrite", "--force"],
        &["rewrite", "--micro", "--force"],
        &["rewrite", "--force", "--force", "a"],
        &["rewrite", "a", "--force"],
        &["rewrite", "a", "b"],
    ] {
        let (status, output, errors) = outcome(&mut arrow_types(arguments));
        assert_eq!((status, output.as_str()), (Some(2), ""), "{arguments:?}");
        assert!(errors.contains("arrow-types --help"), "{errors}");
    }
}
