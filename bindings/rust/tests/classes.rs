//! Numeric, temporal and nested types, each kind in its class.

use arrow_types::{DataType, Kind};

#[rustfmt::skip]
const NUMERIC: [Kind; 15] = [
    Kind::Int8, Kind::Int16, Kind::Int32, Kind::Int64, Kind::UInt8, Kind::UInt16, Kind::UInt32, Kind::UInt64,
    Kind::Float16, Kind::Float32, Kind::Float64, Kind::Decimal32, Kind::Decimal64, Kind::Decimal128, Kind::Decimal256,
];

const TEMPORAL: [Kind; 7] = [
    Kind::Timestamp,
    Kind::Date32,
    Kind::Date64,
    Kind::Time32,
    Kind::Time64,
    Kind::Duration,
    Kind::Interval,
];

#[test]
fn kinds() {
    for kind in Kind::ALL {
        assert_eq!(kind.is_numeric(), NUMERIC.contains(&kind), "{kind}");
        assert_eq!(kind.is_temporal(), TEMPORAL.contains(&kind), "{kind}");
    }
}

#[test]
fn types_and_fields() {
    let row: DataType = r#"Struct("n": Decimal32(9, 2), "t": Date32, "u": Utf8)"#
        .parse()
        .unwrap();
    assert!(!row.is_numeric() && !row.is_temporal() && row.is_nested());
    let [n, t, u] = ["n", "t", "u"].map(|name| row.field(name).unwrap());
    assert!(n.is_numeric() && !n.is_temporal() && !n.is_nested());
    assert!(!t.is_numeric() && t.is_temporal() && !t.is_nested());
    assert!(!u.is_numeric() && !u.is_temporal() && !u.is_nested());
    assert!(n.to_data_type().is_numeric() && t.to_data_type().is_temporal());
}

#[test]
fn nested() {
    let nested = |text: &str| text.parse::<DataType>().unwrap().is_nested();
    for text in [
        "List(Int8)",
        "ListView(Int8)",
        "LargeList(Int8)",
        "LargeListView(Int8)",
        "FixedSizeList(4 x Int8)",
        "Struct()",
        "Union(Sparse)",
        "Map(\"e\": non-null Struct(\"k\": non-null Int8, \"v\": Int8), sorted)",
        "Dictionary(Int8, Struct())",
        "Dictionary(Int8, Dictionary(Int8, List(Int8)))",
        "RunEndEncoded(non-null Int32, List(Int8))",
    ] {
        assert!(nested(text), "{text}");
    }
    for text in [
        "Int8",
        "Utf8",
        "FixedSizeBinary(4)",
        "Dictionary(Int8, Utf8)",
        "Dictionary(Struct(), Utf8)",
        "RunEndEncoded(non-null Int32, Utf8)",
    ] {
        assert!(!nested(text), "{text}");
    }
}
