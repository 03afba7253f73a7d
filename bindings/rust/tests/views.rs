//! What a row's view says, and that names and zones are borrowed.

use arrow_types::{DataType, Field, IntervalUnit, Kind, TimeUnit, UnionMode};

fn read(text: &str) -> DataType {
    text.parse().unwrap()
}

/// Whether a part lies within a text, as the same bytes at the same place.
fn borrowed(part: &str, text: &str) -> bool {
    let (part, text) = (
        part.as_bytes().as_ptr_range(),
        text.as_bytes().as_ptr_range(),
    );
    text.start <= part.start && part.end <= text.end
}

#[test]
fn names_and_zones_are_parts_of_the_text() {
    let row = read(concat!(
        r#"Struct("slot": Timestamp(s, "CET"), "item": List(Int8, field: 'été'), "#,
        r#""u": Union(Dense, 5: ("é": Timestamp(ns, Some("EET")))))"#,
    ));
    let names: Vec<_> = row.root().subtree().map(Field::name).collect();
    let zones: Vec<_> = row.root().subtree().filter_map(Field::zone).collect();
    assert_eq!(
        names,
        [
            None,
            Some("slot"),
            Some("item"),
            Some("été"),
            Some("u"),
            Some("é")
        ]
    );
    assert_eq!(zones, ["CET", "EET"]);
    for part in names.iter().flatten().chain(&zones) {
        assert!(borrowed(part, row.text()));
    }
}

#[test]
fn names_and_zones_outlive_the_view() {
    let row = read(r#"Struct("slot": Timestamp(s, "CET"))"#);
    let (name, zone) = {
        let field = row.field("slot").unwrap();
        (field.name(), field.zone())
    };
    assert_eq!((name, zone), (Some("slot"), Some("CET")));
}

#[test]
fn default_names_are_in_no_text() {
    let list = read("List(Int8)");
    let item = list.fields().next().unwrap().name().unwrap();
    assert_eq!(item, "item");
    assert!(!borrowed(item, list.text()));

    let runs = read("RunEndEncoded(non-null Int32, Utf8)");
    let names: Vec<_> = runs.fields().filter_map(Field::name).collect();
    assert_eq!(names, ["run_ends", "values"]);
    assert!(names.iter().all(|name| !borrowed(name, runs.text())));
}

#[test]
fn bare_types_have_neither_name_nor_nullability() {
    let dictionary = read("Dictionary(Int32, List(non-null Utf8))");
    let rows: Vec<_> = dictionary.root().subtree().collect();
    let seen: Vec<_> = rows
        .iter()
        .map(|row| (row.name(), row.nullable()))
        .collect();
    let bare = (None, None);
    assert_eq!(seen, [bare, bare, bare, (Some("item"), Some(false))]);
}

#[test]
fn fields_by_name() {
    let row = read(r#"Struct("a": Int8, "b": Struct("a": Int16), "a": Int32)"#);
    assert_eq!(row.fields().count(), 3);
    assert_eq!(row.field("a").unwrap().kind(), Kind::Int8);
    let inner = row.field("b").unwrap().child("a").unwrap();
    assert_eq!((inner.kind(), inner.row()), (Kind::Int16, 3));
    assert!(row.field("c").is_none());
    assert!(row.field("").is_none());
    assert!(read("Int8").field("a").is_none());
}

#[test]
fn rows_and_parents() {
    let row = read(
        r#"Struct("a": List(Int8), "b": Map("e": non-null Struct("k": non-null Int8, "v": Int8), sorted))"#,
    );
    assert_eq!(row.row_count(), 7);
    let parents: Vec<_> = row
        .root()
        .subtree()
        .map(|row| row.parent().map(Field::row))
        .collect();
    assert_eq!(
        parents,
        [None, Some(0), Some(1), Some(0), Some(3), Some(4), Some(4)]
    );
    let counts: Vec<_> = row.root().subtree().map(Field::row_count).collect();
    assert_eq!(counts, [7, 2, 1, 4, 3, 1, 1]);
    assert_eq!(row.row(6).unwrap().name(), Some("v"));
    assert!(row.row(7).is_none());
}

#[test]
fn units() {
    let units = ["s", "ms", "us", "µs", "ns"];
    let all = [
        TimeUnit::Second,
        TimeUnit::Millisecond,
        TimeUnit::Microsecond,
        TimeUnit::Microsecond,
        TimeUnit::Nanosecond,
    ];
    for (unit, expected) in units.into_iter().zip(all) {
        for kind in ["Timestamp", "Duration"] {
            let read = read(&format!("{kind}({unit})"));
            assert_eq!(read.root().time_unit(), Some(expected));
            assert_eq!(
                (read.root().interval_unit(), read.root().zone()),
                (None, None)
            );
        }
    }
    assert_eq!(
        read("Time32(ms)").root().time_unit(),
        Some(TimeUnit::Millisecond)
    );
    assert_eq!(
        read("Time64(ns)").root().time_unit(),
        Some(TimeUnit::Nanosecond)
    );
    for (unit, expected) in [
        ("YearMonth", IntervalUnit::YearMonth),
        ("DayTime", IntervalUnit::DayTime),
        ("MonthDayNano", IntervalUnit::MonthDayNano),
    ] {
        let read = read(&format!("Interval({unit})"));
        assert_eq!(read.root().interval_unit(), Some(expected));
        assert_eq!(read.root().time_unit(), None);
    }
}

#[test]
fn numbers() {
    let binary = read("FixedSizeBinary(2147483647)");
    assert_eq!(binary.root().length(), Some(2_147_483_647));
    assert_eq!(read("FixedSizeList(4, Int8)").root().length(), Some(4));
    for (text, precision, scale) in [
        ("Decimal32(9, -128)", 9, -128),
        ("Decimal64(18, 18)", 18, 18),
        ("Decimal128(1, 0)", 1, 0),
        ("Decimal256(76, 76)", 76, 76),
    ] {
        let decimal = read(text);
        let root = decimal.root();
        assert_eq!(
            (root.precision(), root.scale()),
            (Some(precision), Some(scale))
        );
        assert_eq!(root.length(), None);
    }
    assert_eq!(read("Int8").root().precision(), None);
    assert_eq!(read("Int8").root().scale(), None);
}

#[test]
fn unions() {
    let union = read(r#"Union(Dense, 127: ("a": Int8), 0: ("b": Struct("c": Int8)))"#);
    assert_eq!(union.root().union_mode(), Some(UnionMode::Dense));
    let ids: Vec<_> = union.root().subtree().map(Field::union_id).collect();
    assert_eq!(ids, [None, Some(127), Some(0), None]);
    assert_eq!(
        read("Union(Sparse)").root().union_mode(),
        Some(UnionMode::Sparse)
    );
    assert_eq!(read("Struct()").root().union_mode(), None);
}

#[test]
fn maps() {
    for (word, sorted) in [("sorted", true), ("unsorted", false)] {
        let map = format!(r#"Map("e": non-null Struct("k": non-null Int8, "v": Int8), {word})"#);
        let map = read(&map);
        assert_eq!(map.root().keys_sorted(), Some(sorted));
        let entries = map.fields().next().unwrap();
        assert_eq!((entries.name(), entries.keys_sorted()), (Some("e"), None));
        let nullable: Vec<_> = entries.children().map(Field::nullable).collect();
        assert_eq!(nullable, [Some(false), Some(true)]);
    }
}

#[test]
fn views_shown() {
    let row = read(r#"Struct("a": Int8)"#);
    let shown = format!("{:?}", row.field("a").unwrap());
    assert_eq!(
        shown,
        r#"Field { row: 1, kind: Int8, name: Some("a"), .. }"#
    );
}

#[test]
fn children_from_either_end() {
    let row = read(
        r#"Struct("a": Int8, "b": List(Struct("x": Int8)), "c": Struct(), "d": Dictionary(Int8, List(Int8)))"#,
    );
    let names = |children: Vec<Field<'_>>| {
        children
            .into_iter()
            .filter_map(Field::name)
            .collect::<String>()
    };
    assert_eq!(names(row.fields().collect()), "abcd");
    assert_eq!(names(row.fields().rev().collect()), "dcba");
    for from_front in 0..=4 {
        let mut fields = row.fields();
        let front: Vec<_> = fields.by_ref().take(from_front).collect();
        assert_eq!(fields.len(), 4 - from_front);
        let back: Vec<_> = fields.by_ref().rev().collect();
        assert_eq!(
            names(front) + &names(back).chars().rev().collect::<String>(),
            "abcd"
        );
        assert_eq!(
            (fields.len(), fields.next(), fields.next_back()),
            (0, None, None)
        );
    }
    let key_and_value = row.field("d").unwrap().children();
    assert_eq!(
        key_and_value.map(Field::kind).rev().collect::<Vec<_>>(),
        [Kind::List, Kind::Int8]
    );
    assert_eq!(read("Int8").fields().len(), 0);
}

#[test]
fn units_are_shown_as_they_are_printed() {
    for text in ["Timestamp(s)", "Duration(ms)", "Time64(µs)", "Time64(ns)"] {
        let read = read(text);
        let unit = read.root().time_unit().unwrap();
        assert_eq!(format!("{}({unit})", read.root().kind()), read.to_string());
    }
    for text in [
        "Interval(YearMonth)",
        "Interval(DayTime)",
        "Interval(MonthDayNano)",
    ] {
        let read = read(text);
        let unit = read.root().interval_unit().unwrap();
        assert_eq!(format!("Interval({unit})"), read.to_string());
    }
    for text in ["Union(Sparse)", "Union(Dense)"] {
        let read = read(text);
        let mode = read.root().union_mode().unwrap();
        assert_eq!(format!("Union({mode})"), read.to_string());
    }
}
