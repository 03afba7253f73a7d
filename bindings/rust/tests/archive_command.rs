//! `arrow-types archive` and `arrow-types unarchive`: type texts turned into records, one behind the other, and back.

mod program;

use arrow_types::DataType;
use program::{Outcome, arrow_types, file, full, outcome, unread};
use std::fs::File;
use std::path::Path;
use std::process::Command;

fn given(command: &str, name: &str, input: &[u8]) -> Command {
    let mut command = arrow_types(&[command]);
    command.stdin(File::open(file(name, input)).unwrap());
    command
}

/// The records of lines, which are all taken.
fn archived(name: &str, lines: &str) -> Vec<u8> {
    let output = given("archive", name, lines.as_bytes()).output().unwrap();
    assert_eq!(String::from_utf8_lossy(&output.stderr), "");
    assert_eq!(output.status.code(), Some(0));
    output.stdout
}

fn unarchived(name: &str, records: &[u8]) -> Outcome {
    outcome(&mut given("unarchive", name, records))
}

fn example(name: &str) -> String {
    let examples = Path::new(env!("CARGO_MANIFEST_DIR")).join("examples");
    std::fs::read_to_string(examples.join(name)).unwrap()
}

#[test]
fn the_sample_and_back() {
    let lines = example("slot_file.txt");
    let records = archived("sample", &lines);
    let images: Vec<Vec<u8>> = lines
        .lines()
        .map(|line| line.parse::<DataType>().unwrap().to_archive())
        .collect();
    assert_eq!(records, images.concat());

    let micro = example("slot_file.rewritten");
    let plain = micro.replace("µs", "us");
    assert_ne!(micro, plain);
    assert_eq!(
        unarchived("back", &records),
        (Some(0), plain, String::new())
    );
    let mut command = arrow_types(&["unarchive", "--micro"]);
    command.stdin(File::open(file("micro", &records)).unwrap());
    assert_eq!(outcome(&mut command), (Some(0), micro, String::new()));
}

#[test]
fn no_lines_and_no_end_of_the_last() {
    assert_eq!(archived("none", ""), b"");
    assert_eq!(archived("no_end", "Int8"), archived("end", "Int8\n"));
    let nothing = (Some(0), String::new(), String::new());
    assert_eq!(unarchived("nothing", b""), nothing);
}

/// Nothing is written, also of the lines before.
#[test]
fn a_line_is_refused() {
    let lines = "Int8\nStruct(\"a\" Int8)\nInt9\n";
    let refused = outcome(&mut given("archive", "refused", lines.as_bytes()));
    let said = "arrow-types: nothing is written: line 2: a token stands where one of another sort is needed, at byte 11\n \
                | Struct(\"a\" Int8)\n |            ^\n";
    assert_eq!(refused, (Some(1), String::new(), said.to_owned()));
    let (status, written, said) = outcome(&mut given("archive", "empty", b"Int8\n\nInt8\n"));
    assert_eq!((status, written.as_str()), (Some(1), ""));
    assert!(said.contains("line 2: the text ends"), "{said}");
    let (_, _, said) = outcome(&mut given("archive", "return", b"Int8\r\n"));
    assert!(said.contains("carriage return"), "{said}");
}

/// The records before it are printed.
#[test]
fn a_record_is_refused() {
    let good = archived("good", "Int8\nList(Int8)\n");
    let refuses = |name: &str, more: &[u8], why: &str| {
        let records = [&*good, more, &good].concat();
        let said = format!("arrow-types: record 3, at byte 55: {why}\n");
        let printed = "Int8\nList(Int8)\n".to_owned();
        assert_eq!(unarchived(name, &records), (Some(1), printed, said));
    };
    let int8 = &good[..17];
    let with = |at: usize, byte: u8| {
        let mut record = int8.to_vec();
        record[at] = byte;
        record
    };
    let length = "a length does not fit what is there";
    refuses("short", &with(0, 16), length);
    refuses("zero", &with(0, 0), length);
    refuses("past", &with(3, 1), length);
    refuses("kind", &with(4, 41), "there is no such kind");
    refuses("role", &with(6, 1), "text and rows are no sound tree");
    let cyrillic = archived("cyrillic", "Struct(\"дом\": Int8)");
    let why = "not printed: a name or zone to print in double quotes has a character above U+017F";
    refuses("above", &cyrillic, why);
    let lines = DataType::from_parts("a\nb", LIST_OF_A_LINES_END)
        .unwrap()
        .to_archive();
    let why = "a name has a line's end in it, and would stand on two lines";
    refuses("two_lines", &lines, why);
}

/// A List whose item has the whole text for its name.
#[rustfmt::skip]
const LIST_OF_A_LINES_END: [u32; 24] = [
    27, 2, 0, 0, 0, 0, 0, 0, 0, 0, 0, 0,
    2, 1, 1, 0, 0, 0, 1, 0, 3, 0, 0, 0,
];

/// An end within a record's length, and within the record.
#[test]
fn an_end_within_a_record() {
    let good = archived("whole", "Int8\n");
    for left in [1, 3, 4, 16] {
        let records = [&*good, &good[..left]].concat();
        let said = "arrow-types: record 2, at byte 17: a length does not fit what is there\n";
        let refused = (Some(1), "Int8\n".to_owned(), said.to_owned());
        assert_eq!(unarchived("cut", &records), refused);
    }
}

#[test]
fn reading_and_writing_fail() {
    let folder = File::open(env!("CARGO_TARGET_TMPDIR")).unwrap();
    for name in ["archive", "unarchive"] {
        let mut command = arrow_types(&[name]);
        let (status, written, said) = outcome(command.stdin(folder.try_clone().unwrap()));
        assert_eq!((status, written.as_str()), (Some(2), ""));
        assert!(
            said.starts_with("arrow-types: reading standard input: "),
            "{said}"
        );
    }
    let records = archived("records", "Int8\n");
    for (name, input) in [("archive", b"Int8\n".as_slice()), ("unarchive", &records)] {
        let (status, _, said) = outcome(given(name, "full", input).stdout(full()));
        assert_eq!(status, Some(2));
        assert!(
            said.starts_with("arrow-types: writing standard output: "),
            "{said}"
        );
        let (status, said) = unread(&mut given(name, "unread", input));
        assert_eq!(status, Some(2));
        assert!(
            said.starts_with("arrow-types: writing standard output: "),
            "{said}"
        );
    }
}

#[test]
fn other_arguments() {
    for arguments in [
        ["archive", "--micro"].as_slice(),
        &["archive", "head"],
        &["unarchive", "head"],
        &["unarchive", "--micro", "head"],
    ] {
        let (status, _, said) = outcome(&mut arrow_types(arguments));
        assert_eq!(status, Some(2));
        assert!(said.contains("there is no such command"), "{said}");
    }
    let (status, help, _) = outcome(&mut arrow_types(&["unarchive", "--help"]));
    assert_eq!(status, Some(0));
    assert!(help.contains("arrow-types unarchive --micro"), "{help}");
}
