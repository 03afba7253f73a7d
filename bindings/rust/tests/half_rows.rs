//! Types kept in halves: there and back, what stored halves are refused for, and equality.

use arrow_types::{DataType, Error, HALF_ROW_WORDS, HalfRows, ROW_WORDS};

fn read(text: &str) -> DataType {
    text.parse().unwrap()
}

/// A row's half words, from its twelve words as the scope has them.
fn halves_of(row: &[u32]) -> Vec<u16> {
    let mut halves = Vec::new();
    for (k, &word) in row.iter().enumerate() {
        halves.push((word & 0xFFFF) as u16);
        if k == 4 {
            halves.push((word >> 16) as u16);
        }
    }
    halves
}

const TEXTS: [&str; 8] = [
    "Int8",
    "FixedSizeBinary(65535)",
    "FixedSizeBinary(65536)",
    "FixedSizeBinary(2147483647)",
    "Decimal256(76, -128)",
    r#"Struct("slot": non-null Timestamp(s, "CET"), "kwh": Decimal64(12, 3))"#,
    r#"Union(Dense, 127: ("x": Int8))"#,
    "FixedSizeList(70000 x RunEndEncoded(non-null Int32, Utf8))",
];

#[test]
fn a_type_comes_back_as_it_was() {
    for text in TEXTS {
        let read = read(text);
        let kept = read.to_half_rows();
        let expected: Vec<u16> = read.rows().chunks(ROW_WORDS).flat_map(halves_of).collect();
        assert_eq!(kept.halves(), expected, "{text}");
        assert_eq!(kept.row_count(), read.row_count());
        assert_eq!(kept.text(), read.text());
        let back = kept.to_data_type();
        assert_eq!((back.text(), back.rows()), (read.text(), read.rows()));
    }
}

#[test]
fn stored_halves_are_judged_over_their_text() {
    let (text, halves) = read(r#"Struct("a": Int8)"#).to_half_rows().into_parts();
    let kept = HalfRows::from_parts(text.clone(), halves.clone()).unwrap();
    assert_eq!(kept.to_data_type().field("a").unwrap().row(), 1);

    let over_another = HalfRows::from_parts(r#"Struct("b": Int8)"#, halves.clone()).unwrap();
    assert!(over_another.to_data_type().field("b").is_some());
    assert_ne!(kept, over_another);
    assert_eq!(
        HalfRows::from_parts("Struct", halves.clone()),
        Err(Error::NotSound)
    );

    let not_utf8 = [text.as_bytes(), &[0xFF]].concat();
    assert_eq!(HalfRows::from_parts(not_utf8, halves), Err(Error::NotSound));
}

#[test]
fn halves_that_are_no_tree_are_refused() {
    let int8: [u16; HALF_ROW_WORDS] = [2, 1, 0, 0, 0, 0, 0, 0, 0, 0, 0, 0, 0];
    assert!(HalfRows::from_parts("", int8).is_ok());
    assert_eq!(HalfRows::from_parts("", []), Err(Error::NotSound));
    assert_eq!(HalfRows::from_parts("", &int8[..12]), Err(Error::NotSound));
    assert_eq!(
        HalfRows::from_parts("", [&int8[..], &[0]].concat()),
        Err(Error::NotSound)
    );
    for (at, half) in [
        (0, 41),
        (1, 0),
        (1, 65535),
        (2, 1),
        (3, 1),
        (4, 1),
        (5, 1),
        (6, 1),
        (12, 1),
    ] {
        let mut changed = int8;
        changed[at] = half;
        assert_eq!(
            HalfRows::from_parts("", changed),
            Err(Error::NotSound),
            "{half} at {at}"
        );
    }
}

#[test]
fn equality_is_that_of_the_types() {
    let spelled = read(r#"Timestamp(Second, Some("CET"))"#).to_half_rows();
    let printed = read(r#"Timestamp(s, "CET")"#).to_half_rows();
    assert_ne!(spelled.text(), printed.text());
    assert_eq!(spelled, printed);
    assert_eq!(
        format!("{spelled:?}"),
        format!("{:?}", read(r#"Timestamp(s, "CET")"#))
    );
}
