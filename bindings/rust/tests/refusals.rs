//! Each refusal, as a caller meets it.

use arrow_types::{DataType, Error, ROW_WORDS};
use std::fmt::Write;

fn refusal(text: impl AsRef<[u8]>) -> u32 {
    DataType::try_from(text.as_ref()).unwrap_err().number()
}

#[test]
fn of_a_text() {
    let spaces = " ".repeat(16_385);
    let levels = "List(".repeat(64);
    let fields = format!("Struct({})", "\"a\": Int8,".repeat(1_024));
    let texts: [(&[u8], u32); 16] = [
        (spaces.as_bytes(), 1),
        (b"Struct(\"\xff\": Int8)", 2),
        (levels.as_bytes(), 3),
        (fields.as_bytes(), 4),
        (b"Struct(", 5),
        (b"Struct(\"a: Int8)", 6),
        (b"Struct(\"\": Int8)", 7),
        (b"Int7", 8),
        (b"Union(Sparse,)", 9),
        (b"FixedSizeBinary(-1)", 10),
        (b"Time64(ms)", 11),
        (b"Decimal32(10, 2)", 12),
        (b"RunEndEncoded(Int32, Utf8)", 13),
        (b"Map(\"entries\": non-null Struct(), sorted)", 14),
        (b"Union(Dense, 3: (\"a\": Int8), 3: (\"b\": Int8))", 15),
        (b"Int8)", 16),
    ];
    for (number, (text, expected)) in (1..).zip(texts) {
        assert_eq!(expected, number);
        assert_eq!(refusal(text), number);
    }
}

#[test]
fn at_the_limits() {
    assert_eq!(refusal(" ".repeat(16_384)), 5);
    let levels = |count| format!("{}Int8{}", "List(".repeat(count), ")".repeat(count));
    assert_eq!(levels(63).parse::<DataType>().unwrap().depth(), 64);
    assert_eq!(refusal(levels(64)), 3);
    let fields = |count| format!("Struct({})", "\"a\": Int8,".repeat(count));
    let most: DataType = fields(1_023).parse().unwrap();
    assert_eq!((most.row_count(), most.depth()), (1_024, 2));
    assert_eq!(refusal(fields(1_024)), 4);
}

#[test]
fn the_first_counts() {
    assert_eq!(refusal([0xff; 16_385]), 1);
    assert_eq!(refusal(b"Int7 \xff"), 2);
    assert_eq!(refusal("Decimal32(0, 200"), 10);
    assert_eq!(refusal("Int7 \""), 8);
    assert_eq!(refusal("Int8 \""), 16);
}

#[test]
fn a_refused_text_leaves_nothing_behind() {
    let int: DataType = "Int32".parse().unwrap();
    assert_eq!(refusal("Struct(\"a\": Int8"), 5);
    assert_eq!("Int32".parse::<DataType>().unwrap(), int);
    assert_eq!(int.rows(), [4, 1, 0, 0, 0, 0, 0, 0, 0, 0, 0, 0]);
}

/// A Timestamp with the zone CET, in the text `CET`.
const ZONED: [u32; ROW_WORDS] = [13, 1, 0, 0, 0, 0, 0, 0, 0, 0, 3, 0];

#[test]
fn of_parts_that_are_not_sound() {
    let zoned = DataType::from_parts("CET", ZONED).unwrap();
    assert_eq!(zoned.to_string(), "Timestamp(s, \"CET\")");
    let not_sound = |text: &[u8], rows: &[u32]| {
        assert_eq!(DataType::from_parts(text, rows), Err(Error::NotSound));
    };
    not_sound(b"CE", &ZONED);
    not_sound(b"CE\xff", &ZONED);
    not_sound(b"CET", &[]);
    not_sound(b"CET", &ZONED[..ROW_WORDS - 1]);
    not_sound(b"CET", &[ZONED.as_slice(), &[0]].concat());
    not_sound(&[b' '; 16_385], &ZONED);
    for (word, value) in [
        (0, 41),
        (1, 2),
        (2, 1),
        (3, 1),
        (4, 4),
        (5, 1),
        (6, 1),
        (11, 1),
    ] {
        let mut rows = ZONED;
        rows[word] = value;
        not_sound(b"CET", &rows);
    }
    assert_eq!(Error::NotSound.number(), 17);
}

#[test]
fn of_a_name_or_zone_with_a_character_above_u017f() {
    for text in [
        "Struct(\"ƀ\": Int8)",
        "Timestamp(s, \"ƀ\")",
        "Union(Sparse, 1: (\"ƀ\": Int8))",
    ] {
        let read: DataType = text.parse().unwrap();
        assert_eq!(read.print().map_err(Error::number), Err(18));
        let mut shown = String::new();
        assert!(write!(shown, "{read}").is_err());
        assert_eq!(shown, "");
        assert!(format!("{read:?}").contains('ƀ'));
    }
}

#[test]
fn of_a_printed_text_that_is_too_long() {
    // A tab is one byte, and prints as two.
    let tabs = |count| format!("Struct(\"{}\": Int8)", "\t".repeat(count));
    let most: DataType = tabs(8_184).parse().unwrap();
    assert_eq!(most.to_string().len(), 16_384);
    let over: DataType = tabs(8_185).parse().unwrap();
    assert_eq!(over.print().map_err(Error::number), Err(19));
    assert!(write!(String::new(), "{over}").is_err());
}

#[test]
fn of_names_that_overlap() {
    // 1,023 fields share one name, the whole text, of which each byte prints as six: 100 million bytes.
    let text = "\u{1f}".repeat(16_384);
    let mut rows = vec![0; 1_024 * ROW_WORDS];
    for (i, row) in rows.chunks_exact_mut(ROW_WORDS).enumerate() {
        match i {
            0 => (row[0], row[1]) = (32, 1_024),
            _ => row.copy_from_slice(&[2, 1, 1, 0, 0, 0, 1, 0, 16_384, 0, 0, 0]),
        }
    }
    let overlapping = DataType::from_parts(text, rows).unwrap();
    assert_eq!(overlapping.print().map_err(Error::number), Err(19));
}

#[test]
fn numbers_and_sentences() {
    for (number, error) in (1..=19).chain(25..=31).zip(Error::ALL) {
        assert_eq!(error.number(), number);
        assert_eq!(Error::from_number(number), Some(error));
    }
    for number in [0, 20, 24, 32, u32::MAX] {
        assert_eq!(Error::from_number(number), None);
    }
    let mut sentences: Vec<String> = Error::ALL.iter().map(Error::to_string).collect();
    sentences.sort();
    sentences.dedup();
    assert_eq!(sentences.len(), 26);
    let error: Box<dyn std::error::Error> = Box::new(Error::NotUtf8);
    assert_eq!(error.to_string(), "the text is not UTF-8");
}
