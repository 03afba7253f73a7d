//! Types put together by hand are those that a text says, or are refused.

use arrow_types::{DataType, Error, IntervalUnit, Kind, NewField, TimeUnit, UnionMode};

type Built = Result<DataType, Error>;

fn of(kind: Kind) -> DataType {
    DataType::of(kind).unwrap()
}

/// A type that is built is the one of a text, and prints as it does.
fn is(built: Built, text: &str) {
    let read: DataType = text.parse().unwrap();
    let built = built.unwrap();
    assert_eq!(built, read, "{text}");
    assert_eq!(built.to_string(), text);
    assert_eq!(built.depth(), read.depth());
    assert_eq!(built.verdict(), read.verdict());
}

fn refused(built: Built) {
    assert_eq!(built, Err(Error::NotSound));
}

/// A kind makes a type if its word alone is a text of one.
#[test]
fn kinds_alone() {
    let mut made = 0;
    for kind in Kind::ALL {
        match kind.name().parse::<DataType>() {
            Ok(_) => is(DataType::of(kind), kind.name()),
            Err(_) => refused(DataType::of(kind)),
        }
        made += usize::from(DataType::of(kind).is_ok());
    }
    assert_eq!(made, 21);
}

#[test]
fn units() {
    use TimeUnit::{Microsecond, Millisecond, Nanosecond, Second};
    for unit in [Second, Millisecond, Microsecond, Nanosecond] {
        is(
            DataType::timestamp(unit, None),
            &format!("Timestamp({unit})"),
        );
        is(
            DataType::timestamp(unit, Some("Europe/Berlin")),
            &format!("Timestamp({unit}, \"Europe/Berlin\")"),
        );
        is(DataType::duration(unit), &format!("Duration({unit})"));
    }
    for unit in [Second, Millisecond] {
        is(DataType::time32(unit), &format!("Time32({unit})"));
        refused(DataType::time64(unit));
    }
    for unit in [Microsecond, Nanosecond] {
        is(DataType::time64(unit), &format!("Time64({unit})"));
        refused(DataType::time32(unit));
    }
    for unit in [
        IntervalUnit::YearMonth,
        IntervalUnit::DayTime,
        IntervalUnit::MonthDayNano,
    ] {
        is(DataType::interval(unit), &format!("Interval({unit})"));
    }
}

#[test]
fn zones() {
    refused(DataType::timestamp(TimeUnit::Second, Some("")));
    let longest = "z".repeat(16_384);
    let built = DataType::timestamp(TimeUnit::Second, Some(&longest)).unwrap();
    assert_eq!(built.root().zone(), Some(longest.as_str()));
    refused(DataType::timestamp(
        TimeUnit::Second,
        Some(&"z".repeat(16_385)),
    ));
}

#[test]
fn numbers() {
    is(DataType::fixed_size_binary(0), "FixedSizeBinary(0)");
    is(
        DataType::fixed_size_binary(2_147_483_647),
        "FixedSizeBinary(2147483647)",
    );
    refused(DataType::fixed_size_binary(2_147_483_648));
    is(DataType::decimal32(9, -128), "Decimal32(9, -128)");
    is(DataType::decimal64(18, 18), "Decimal64(18, 18)");
    is(DataType::decimal128(38, 0), "Decimal128(38, 0)");
    is(DataType::decimal256(76, 76), "Decimal256(76, 76)");
    refused(DataType::decimal32(10, 0));
    refused(DataType::decimal64(19, 0));
    refused(DataType::decimal128(39, 0));
    refused(DataType::decimal256(77, 0));
    refused(DataType::decimal32(0, 0));
    refused(DataType::decimal32(9, 10));
}

#[test]
fn lists() {
    type List = fn(NewField) -> Built;
    let lists: [(&str, List); 4] = [
        ("List", DataType::list),
        ("ListView", DataType::list_view),
        ("LargeList", DataType::large_list),
        ("LargeListView", DataType::large_list_view),
    ];
    for (word, list) in lists {
        is(list(of(Kind::Int8).into()), &format!("{word}(Int8)"));
        is(
            list(of(Kind::Int8).named("größe").non_null()),
            &format!("{word}(non-null Int8, field: 'größe')"),
        );
    }
    is(
        DataType::fixed_size_list(4, of(Kind::Int8)),
        "FixedSizeList(4 x Int8)",
    );
    refused(DataType::fixed_size_list(1 << 31, of(Kind::Int8)));
    refused(DataType::list(of(Kind::Int8).named("")));
}

#[test]
fn structs() {
    let slot = DataType::timestamp(TimeUnit::Second, Some("CET")).unwrap();
    let inner = DataType::struct_of([slot.clone().named("from"), slot.named("to").non_null()]);
    let inner = inner.unwrap();
    assert_eq!(inner.text(), "fromCETtoCET");
    is(
        DataType::struct_of([inner.named("slot"), of(Kind::Utf8).named("slot")]),
        r#"Struct("slot": Struct("from": Timestamp(s, "CET"), "to": non-null Timestamp(s, "CET")), "slot": Utf8)"#,
    );
    is(DataType::struct_of([]), "Struct()");
    refused(DataType::struct_of([of(Kind::Int8).named("")]));
}

/// A part that was read brings its names and zones along, and nothing else of its text.
#[test]
fn parts_that_were_read() {
    let spaces = " ".repeat(16_000);
    let part = format!("Struct({spaces}\"a\": Timestamp(s, \"CET\"))");
    let part: DataType = part.parse().unwrap();
    let fields = ["x", "y"].map(|name| part.clone().named(name));
    let built = DataType::struct_of(fields).unwrap();
    assert_eq!(built.text(), "xaCETyaCET");
    is(
        Ok(built),
        r#"Struct("x": Struct("a": Timestamp(s, "CET")), "y": Struct("a": Timestamp(s, "CET")))"#,
    );
    let list: DataType = "List(Int8)".parse().unwrap();
    is(DataType::list(list), "List(List(Int8))");
}

#[test]
fn unions() {
    let fields = || {
        [
            (127, of(Kind::Int8).named("a")),
            (0, of(Kind::Utf8).named("b").non_null()),
        ]
    };
    is(
        DataType::union_of(UnionMode::Dense, fields()),
        r#"Union(Dense, 127: ("a": Int8), 0: ("b": non-null Utf8))"#,
    );
    is(
        DataType::union_of(UnionMode::Sparse, fields()),
        r#"Union(Sparse, 127: ("a": Int8), 0: ("b": non-null Utf8))"#,
    );
    is(DataType::union_of(UnionMode::Sparse, []), "Union(Sparse)");
    for ids in [[0, 0], [-1, 0], [-128, -1]] {
        let fields = ids.map(|id| (id, of(Kind::Int8).named("a")));
        refused(DataType::union_of(UnionMode::Dense, fields));
    }
}

#[test]
fn dictionaries() {
    is(
        DataType::dictionary(of(Kind::Int32), of(Kind::Utf8)),
        "Dictionary(Int32, Utf8)",
    );
    is(
        DataType::dictionary(of(Kind::Utf8), of(Kind::Int32)),
        "Dictionary(Utf8, Int32)",
    );
}

#[test]
fn maps() {
    let key = || of(Kind::Utf8).named("key").non_null();
    let value = || of(Kind::Int8).named("value");
    let entries = |fields: Vec<NewField>| DataType::struct_of(fields).unwrap().named("entries");
    for (sorted, word) in [(true, "sorted"), (false, "unsorted")] {
        is(
            DataType::map(entries(vec![key(), value()]).non_null(), sorted),
            &format!(
                r#"Map("entries": non-null Struct("key": non-null Utf8, "value": Int8), {word})"#
            ),
        );
    }
    refused(DataType::map(entries(vec![key(), value()]), true));
    refused(DataType::map(entries(vec![key()]).non_null(), true));
    refused(DataType::map(
        entries(vec![value(), value()]).non_null(),
        true,
    ));
    refused(DataType::map(
        of(Kind::Int8).named("entries").non_null(),
        true,
    ));
}

#[test]
fn run_ends() {
    let run_ends = || of(Kind::Int32).named("run_ends");
    let values = || of(Kind::Utf8).named("values");
    is(
        DataType::run_end_encoded(run_ends().non_null(), values()),
        "RunEndEncoded(non-null Int32, Utf8)",
    );
    is(
        DataType::run_end_encoded(run_ends().non_null(), of(Kind::Utf8).named("v")),
        r#"RunEndEncoded("run_ends": non-null Int32, "v": Utf8)"#,
    );
    refused(DataType::run_end_encoded(run_ends(), values()));
}

#[test]
fn limits() {
    let fields = |count: usize| (0..count).map(|_| of(Kind::Int8).named("a"));
    let most = DataType::struct_of(fields(1_023)).unwrap();
    assert_eq!(most.row_count(), 1_024);
    refused(DataType::struct_of(fields(1_024)));
    refused(DataType::list(most));

    let mut deep = of(Kind::Int8);
    for _ in 0..63 {
        deep = DataType::list(deep).unwrap();
    }
    assert_eq!(deep.depth(), 64);
    refused(DataType::list(deep));

    let half = || of(Kind::Int8).named("n".repeat(8_192));
    assert!(DataType::struct_of([half(), half()]).is_ok());
    refused(DataType::struct_of([
        half(),
        half(),
        of(Kind::Int8).named("n"),
    ]));
}
