//! `arrow-types explain`: the tree of a text, or why and where it is refused.

mod program;

use program::{arrow_types, file, full, outcome, unread};
use std::ffi::OsStr;
use std::os::unix::ffi::OsStrExt;

/// What is said of a text, and the status.
fn explain(text: &str) -> (Option<i32>, String) {
    let (status, said, errors) = outcome(&mut arrow_types(&["explain", text]));
    assert_eq!(errors, "");
    (status, said)
}

#[test]
fn a_tree() {
    let text = concat!(
        r#"Struct("slot": non-null Timestamp(Second, Some("CET")), "days": List(Date32), "#,
        r#""u": Union(Dense, 5: ("x": Decimal64(12, 3)), 7: ("y": non-null Timestamp(ns))), "#,
        r#""d": Dictionary(Int8, FixedSizeBinary(16)), "i": Interval(DayTime), "#,
        r#""m": Map("e": non-null Struct("k": non-null Utf8, "v": FixedSizeList(4 x Time32(ms))), sorted))"#,
    );
    let tree = [
        r#"Struct"#,
        r#"  "slot": Timestamp(s), non-null, zone "CET""#,
        r#"  "days": List, nullable"#,
        r#"    "item": Date32, nullable"#,
        r#"  "u": Union(Dense), nullable"#,
        r#"    5: "x": Decimal64(12, 3), nullable"#,
        r#"    7: "y": Timestamp(ns), non-null, no zone"#,
        r#"  "d": Dictionary, nullable"#,
        r#"    key: Int8"#,
        r#"    value: FixedSizeBinary(16)"#,
        r#"  "i": Interval(DayTime), nullable"#,
        r#"  "m": Map(sorted), nullable"#,
        r#"    "e": Struct, non-null"#,
        r#"      "k": Utf8, non-null"#,
        r#"      "v": FixedSizeList(4), nullable"#,
        r#"        "item": Time32(ms), nullable"#,
        "",
    ];
    assert_eq!(explain(text), (Some(0), tree.join("\n")));
}

/// A name can't move the cursor of a terminal or make a line of its own.
#[test]
fn names_are_shown_escaped() {
    let (status, tree) = explain("List(Int8, field: '\x1b[2J\n\t')");
    assert_eq!(
        (status, tree.as_str()),
        (Some(0), "List\n  \"\\u{1b}[2J\\n\\t\": Int8, nullable\n")
    );
}

#[test]
fn a_refusal() {
    let (status, said) = explain("RunEndEncoded(Int32, Utf8)");
    let expected = [
        "refused with 13: Map entries, Map keys and run ends must be non-null, at byte 13",
        " | RunEndEncoded(Int32, Utf8)",
        " |              ^",
        "",
    ];
    assert_eq!((status, said), (Some(1), expected.join("\n")));
}

#[test]
fn a_type_that_is_not_printed() {
    let (status, said) = explain("Timestamp(s, \"北京\")");
    let expected = [
        "Timestamp(s), zone \"北京\"",
        "not printed, 18: a name or zone to print in double quotes has a character above U+017F",
        "",
    ];
    assert_eq!((status, said), (Some(1), expected.join("\n")));
}

#[test]
fn each_line_of_a_file() {
    let path = file("lines", b"Int8\nTime32(us)\n\xff\nUtf8");
    let (status, said) = explain(path.to_str().unwrap());
    let expected = [
        "line 1:",
        "Int8",
        "line 2:",
        "refused with 11: Time32 takes s or ms, and Time64 takes us or ns, at byte 7",
        " | Time32(us)",
        " |        ^",
        "line 3:",
        "refused with 2: the text is not UTF-8, at byte 0",
        " | <FF>",
        " | ^",
        "line 4:",
        "Utf8",
        "",
    ];
    assert_eq!((status, said), (Some(1), expected.join("\n")));
    let good = file("good", b"Int8\nUtf8\n");
    assert_eq!(explain(good.to_str().unwrap()).0, Some(0));
}

#[test]
fn what_files_from_elsewhere_bring_along() {
    let path = file("crlf", b"\xef\xbb\xbfInt8\r\nInt8\r\n");
    let (status, said) = explain(path.to_str().unwrap());
    assert_eq!(status, Some(1));
    assert_eq!(said.matches("ends with a carriage return").count(), 2);
    assert_eq!(said.matches("begins with a byte order mark").count(), 1);
    assert!(said.contains(" | <U+FEFF>Int8<U+000D>\n"));
}

/// A file of the same name as a type, and a text that could be a file's name.
#[test]
fn a_text_or_a_file() {
    let path = file("named", b"Utf8\n");
    let run = |arguments: &[&str]| {
        let mut command = arrow_types(arguments);
        outcome(command.current_dir(path.parent().unwrap()))
    };
    std::fs::rename(&path, path.with_file_name("Int8")).unwrap();
    assert_eq!(run(&["explain", "Int8"]).1, "line 1:\nUtf8\n");
    assert_eq!(run(&["explain", "--text", "Int8"]).1, "Int8\n");
    assert_eq!(run(&["explain", "--file", "Int8"]).1, "line 1:\nUtf8\n");

    let (status, said, _) = run(&["explain", "Int9"]);
    assert_eq!(status, Some(1));
    assert!(said.ends_with("There is no file of that name.\n"));
    assert!(!run(&["explain", "--text", "Int9"]).1.contains("no file"));
    let (status, said, errors) = run(&["explain", "--file", "Int9"]);
    assert_eq!((status, said.as_str()), (Some(2), ""));
    assert!(
        errors.starts_with("arrow-types: Int9: No such file"),
        "{errors}"
    );
}

#[test]
fn any_bytes() {
    let text = OsStr::from_bytes(b"List(\xff)");
    let (status, said, _) = outcome(&mut arrow_types(&[OsStr::new("explain"), text]));
    assert_eq!(status, Some(1));
    assert!(said.contains(" | List(<FF>)\n"), "{said}");
}

/// Colours are for terminals: none in a pipe or a file.
#[test]
fn no_colours() {
    for text in ["Struct(\"a\": Timestamp(s, \"CET\"))", "Int9"] {
        assert!(!explain(text).1.contains('\x1b'));
    }
}

#[test]
fn nowhere_to_write() {
    for text in ["Int8", "Int9"] {
        let (status, _, errors) = outcome(arrow_types(&["explain", text]).stdout(full()));
        assert_eq!(status, Some(2));
        assert!(errors.starts_with("arrow-types: writing standard output: No space left"));
    }
    let path = file("pipe", "Int8\n".repeat(100_000));
    let (status, errors) = unread(&mut arrow_types(&[OsStr::new("explain"), path.as_os_str()]));
    assert_eq!(status, Some(2));
    assert!(errors.starts_with("arrow-types: writing standard output: Broken pipe"));
}
