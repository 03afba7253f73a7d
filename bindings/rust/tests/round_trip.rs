//! Types of every kind, read, printed and read again.

use arrow_types::{DataType, Kind, Verdict};

/// A type of each kind as it is printed, in the order of the kinds.
#[rustfmt::skip]
const TEXTS: [&str; 41] = [
    "Null", "Boolean", "Int8", "Int16", "Int32", "Int64", "UInt8", "UInt16", "UInt32", "UInt64",
    "Float16", "Float32", "Float64", "Timestamp(ns, \"+01:00\")", "Date32", "Date64", "Time32(s)", "Time64(us)",
    "Duration(ms)", "Interval(DayTime)", "Binary", "FixedSizeBinary(16)", "LargeBinary", "BinaryView", "Utf8",
    "LargeUtf8", "Utf8View", "List(Int8)", "ListView(non-null Int8)", "FixedSizeList(3 x Int8, field: 'x')",
    "LargeList(Int8, field: 'größe')", "LargeListView(Int8)",
    "Struct(\"a\": Int8, \"b\": non-null Utf8)", "Union(Sparse, 1: (\"a\": Int8), 0: (\"b\": Int8))",
    "Dictionary(Int32, Utf8)", "Decimal32(9, 9)", "Decimal64(18, -3)", "Decimal128(38, 0)", "Decimal256(76, 76)",
    "Map(\"entries\": non-null Struct(\"key\": non-null Utf8, \"value\": Int8), unsorted)",
    "RunEndEncoded(non-null Int32, Utf8)",
];

#[test]
fn every_kind() {
    for (kind, text) in Kind::ALL.into_iter().zip(TEXTS) {
        let read: DataType = text.parse().unwrap();
        assert_eq!(read.root().kind(), kind);
        assert!(text.starts_with(kind.name()));
        assert_eq!(read.print().unwrap(), text);
        assert_eq!(format!("{read:?}"), format!("DataType({text})"));
        assert_eq!(read.verdict(), Verdict::Yes);
        let fields: usize = read.fields().map(|field| field.row_count()).sum();
        assert_eq!(fields + 1, read.row_count());
    }
}

#[test]
fn only_the_same_kinds_are_equal() {
    let types: Vec<DataType> = TEXTS.iter().map(|text| text.parse().unwrap()).collect();
    for (at, one) in types.iter().enumerate() {
        for (other_at, other) in types.iter().enumerate() {
            assert_eq!(one == other, at == other_at);
        }
    }
}

#[test]
fn kinds_by_number() {
    for (number, kind) in (0..).zip(Kind::ALL) {
        assert_eq!(kind.number(), number);
        assert_eq!(Kind::from_number(number), Some(kind));
        assert_eq!(kind.is_decimal(), kind.name().starts_with("Decimal"));
    }
    assert_eq!(Kind::from_number(41), None);
}

#[test]
fn other_spellings_are_the_same_type() {
    for (spelling, printed) in [
        (
            " Struct ( \"a\":Timestamp(Second,Some(\"CET\")) , )",
            "Struct(\"a\": Timestamp(s, \"CET\"))",
        ),
        ("Timestamp(µs, None)", "Timestamp(us)"),
        ("List(nullable Int8, field: 'item')", "List(Int8)"),
        ("FixedSizeList(04, Int32)", "FixedSizeList(4 x Int32)"),
        (
            "RunEndEncoded(\"run_ends\": non-null Int32, \"values\": Utf8)",
            "RunEndEncoded(non-null Int32, Utf8)",
        ),
    ] {
        let read: DataType = spelling.parse().unwrap();
        assert_eq!(read.text(), spelling);
        assert_eq!(read.to_string(), printed);
        assert_eq!(read, printed.parse().unwrap());
    }
}

#[test]
fn types_that_differ_in_a_name_or_zone() {
    let read = |text: &str| text.parse::<DataType>().unwrap();
    assert_ne!(read("Struct(\"a\": Int8)"), read("Struct(\"b\": Int8)"));
    assert_ne!(read("Timestamp(s, \"CET\")"), read("Timestamp(s, \"EET\")"));
    assert_ne!(read("Timestamp(s, \"CET\")"), read("Timestamp(s)"));
    assert_ne!(read("List(Int8)"), read("List(non-null Int8)"));
}

#[test]
fn parts_and_clones() {
    for text in TEXTS {
        let read: DataType = text.parse().unwrap();
        let clone = read.clone();
        let (text, rows) = read.into_parts();
        let again = DataType::from_parts(text, rows).unwrap();
        assert_eq!(again, clone);
        assert_eq!((again.text(), again.rows()), (clone.text(), clone.rows()));
    }
}

#[test]
fn a_name_read_keeps_its_backslashes() {
    // The text's `\"` is two bytes of the name, which print as `\\\"`.
    let read: DataType = r#"Struct("a\" b": Int8)"#.parse().unwrap();
    assert_eq!(read.fields().next().unwrap().name(), Some(r#"a\" b"#));
    assert_eq!(read.to_string(), r#"Struct("a\\\" b": Int8)"#);
}

#[test]
fn types_go_from_thread_to_thread() {
    let read: DataType = "List(Int8)".parse().unwrap();
    let printed = std::thread::spawn(move || read.to_string()).join();
    assert_eq!(printed.unwrap(), "List(Int8)");
}
