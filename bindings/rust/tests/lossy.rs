//! A type for a log: shown whether or not it prints.

use arrow_types::DataType;
use std::io::Write;

/// A zone that no printer here writes, and a name of which each byte prints as six.
fn not_printed() -> [(u32, DataType); 2] {
    let long = format!("Struct(\"{}\": Int8)", "\u{1f}".repeat(3_000));
    [
        (18, "Timestamp(s, \"北京\")".parse().unwrap()),
        (19, long.parse().unwrap()),
    ]
}

#[test]
fn what_prints_is_as_printed() {
    for text in [
        "Int8",
        "List(Int8, field: '北京')",
        "Struct(\"a\\\" b\": Int8)",
    ] {
        let read: DataType = text.parse().unwrap();
        assert_eq!(read.lossy().to_string(), read.print().unwrap());
    }
}

#[test]
fn what_does_not_print_is_marked() {
    for (number, refused) in not_printed() {
        let shown = refused.lossy().to_string();
        assert_eq!(shown, format!("<{number}: {:?}>", refused.text()));
        assert_eq!(shown.lines().count(), 1);
        assert!(shown.parse::<DataType>().is_err());
        println!("{}", refused.lossy());
        eprintln!("{}", refused.lossy());
        assert!(writeln!(Vec::new(), "{}", refused.lossy()).is_ok());
    }
}

/// Whatever stands in the text, what is marked is no type: its first word is none.
#[test]
fn no_mark_is_a_type() {
    for zone in ["北", "北\"", "北> Int8", "北\n", "北\\"] {
        let rows = [13, 1, 0, 0, 0, 0, 0, 0, 0, 0, zone.len() as u32, 0];
        let made = DataType::from_parts(zone, rows).unwrap();
        let shown = made.lossy().to_string();
        assert_eq!(shown.lines().count(), 1);
        let error = shown.parse::<DataType>().unwrap_err();
        assert_eq!(error.number(), 8, "{shown}");
    }
}
