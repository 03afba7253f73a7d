//! A field for itself: as a type, and printed.

use arrow_types::{DataType, Error, Field, ROW_WORDS};

fn read(text: &str) -> DataType {
    text.parse().unwrap()
}

const ROW: &str = concat!(
    r#"Struct("slot": non-null Timestamp(s, "CET"), "tags": List(non-null Utf8, field: 'tag'), "#,
    r#""u": Union(Dense, 5: ("x": Int8), 7: ("y": non-null Struct("a": Int8, "b": Timestamp(ns, "EET")))), "#,
    r#""d": Dictionary(Int8, List(Int8)), "r": RunEndEncoded(non-null Int32, Utf8))"#,
);

#[test]
fn types_of_fields() {
    let row = read(ROW);
    for (name, text) in [
        ("slot", r#"Timestamp(s, "CET")"#),
        ("tags", "List(non-null Utf8, field: 'tag')"),
        (
            "u",
            r#"Union(Dense, 5: ("x": Int8), 7: ("y": non-null Struct("a": Int8, "b": Timestamp(ns, "EET"))))"#,
        ),
        ("d", "Dictionary(Int8, List(Int8))"),
        ("r", "RunEndEncoded(non-null Int32, Utf8)"),
    ] {
        let field = row.field(name).unwrap().to_data_type();
        assert_eq!(field, read(text));
        assert_eq!(field.to_string(), text);
        assert_eq!((field.root().name(), field.root().nullable()), (None, None));
    }
    assert_eq!(row.root().to_data_type(), row);
}

#[test]
fn every_row_is_a_type() {
    let row = read(ROW);
    for field in row.root().subtree() {
        let alone = field.to_data_type();
        assert_eq!(alone.row_count(), field.row_count());
        assert!(alone.text().len() <= row.text().len());
        for (own, part) in alone.root().subtree().zip(field.subtree()).skip(1) {
            assert_eq!((own.name(), own.zone()), (part.name(), part.zone()));
            assert_eq!(own.kind(), part.kind());
        }
    }
    let y = row.row(6).unwrap();
    assert_eq!((y.name(), y.union_id()), (Some("y"), Some(7)));
    assert_eq!(y.to_data_type().text(), "abEET");
}

/// The names of a tree that was put together may overlap, and end to end be longer than a text may be.
#[test]
fn names_that_overlap() {
    let name = "n".repeat(16_000);
    let rows = [
        [32, 4, 0, 0, 0, 0, 0, 0, 0, 0, 0, 0],
        [32, 3, 1, 0, 0, 0, 1, 0, 16_000, 0, 0, 0],
        [2, 1, 1, 0, 0, 0, 1, 0, 16_000, 0, 0, 1],
        [2, 1, 1, 0, 0, 0, 1, 1, 15_999, 0, 0, 1],
    ];
    let row = DataType::from_parts(name.as_str(), rows.concat()).unwrap();
    let inner = row.fields().next().unwrap().to_data_type();
    let names: Vec<_> = inner.fields().filter_map(Field::name).collect();
    assert_eq!(names, [name.as_str(), &name[1..]]);
    assert_eq!(inner.text(), name);
}

#[test]
fn fields_are_printed_as_in_a_struct() {
    let row = read(ROW);
    let printed: Vec<String> = row.fields().map(|field| field.to_string()).collect();
    assert_eq!(format!("Struct({})", printed.join(", ")), ROW);
    let item = read("List(non-null Int8)");
    assert_eq!(
        item.fields().next().unwrap().to_string(),
        r#""item": non-null Int8"#
    );
    let id = read(r#"Union(Dense, 5: ("x": Int8))"#);
    assert_eq!(id.field("x").unwrap().to_string(), r#""x": Int8"#);
}

#[test]
fn bare_types_are_printed_alone() {
    let dictionary = read("Dictionary(Int8, Struct(\"a\": Int8))");
    let printed: Vec<String> = dictionary.fields().map(|field| field.to_string()).collect();
    assert_eq!(printed, ["Int8", "Struct(\"a\": Int8)"]);
    assert_eq!(dictionary.root().to_string(), dictionary.to_string());
}

#[test]
fn fields_that_are_not_printed() {
    let row = read("Struct(\"北\": Int8, \"b\": List(Int8, field: '北'))");
    let field = row.field("北").unwrap();
    assert_eq!(field.print(), Err(Error::NotLatin));
    assert!(std::panic::catch_unwind(|| field.to_string()).is_err());
    assert_eq!(
        row.field("b").unwrap().to_string(),
        "\"b\": List(Int8, field: '北')"
    );

    // In its Struct a field of 16,376 bytes prints to 16,384.
    let named = |length: usize| {
        let mut rows = vec![0; 2 * ROW_WORDS];
        rows[..2].copy_from_slice(&[32, 2]);
        rows[ROW_WORDS..][..9].copy_from_slice(&[2, 1, 1, 0, 0, 0, 1, 0, length as u32]);
        DataType::from_parts("n".repeat(length), rows).unwrap()
    };
    let most = named(16_376 - "\"\": Int8".len());
    assert_eq!(most.fields().next().unwrap().to_string().len(), 16_376);
    let over = named(16_377 - "\"\": Int8".len());
    assert_eq!(
        over.fields().next().unwrap().print(),
        Err(Error::PrintTooLong)
    );
}
