//! Types in the archive record: images written and read, and why one is refused.

use arrow_types::{DataType, Error, MAX_ROWS, MAX_TEXT, RECORD_BYTES, ROW_WORDS};

fn read(text: &str) -> DataType {
    text.parse().unwrap()
}

fn hex(bytes: &str) -> Vec<u8> {
    let bytes = bytes.split_ascii_whitespace();
    bytes
        .map(|byte| u8::from_str_radix(byte, 16).unwrap())
        .collect()
}

/// The record of an Int8, and eleven zeros, which end many a record.
const INT8: &str = "11 00 00 00 02 00 00 00 00 00 00 00 00 00 00 00 00";
const ZEROS: &str = "00 00 00 00 00 00 00 00 00 00 00";

#[test]
fn images_of_types() {
    let item = format!(
        "26 00 00 00 1b 00 {ZEROS} 15 00 00 00 02 00 01 00 00 00 00 00 00 04 00 69 74 65 6d 00 00"
    );
    for (text, image) in [
        ("Int8", INT8.to_owned()),
        (
            "Struct(\"a\": non-null Timestamp(s, \"CET\"))",
            format!(
                "26 00 00 00 20 00 {ZEROS} 15 00 00 00 0d 00 02 00 00 00 00 00 00 01 00 61 03 00 43 45 54"
            ),
        ),
        ("List(Int8)", item.clone()),
        ("List(Int8, field: 'item')", item),
        (
            "Union(Dense, 5: (\"x\": Int8))",
            "23 00 00 00 21 00 00 00 01 00 00 00 00 00 00 00 00 \
             12 00 00 00 02 00 01 05 00 00 00 00 00 01 00 78 00 00"
                .to_owned(),
        ),
        (
            "FixedSizeBinary(2147483647)",
            "11 00 00 00 15 00 00 00 ff ff ff 7f 00 00 00 00 00".to_owned(),
        ),
        (
            "Decimal256(76, -128)",
            "11 00 00 00 26 00 00 00 4c 00 00 00 00 00 00 00 00".to_owned(),
        ),
        (
            "Dictionary(Int8, Utf8)",
            format!("33 00 00 00 22 00 {ZEROS} {INT8} 11 00 00 00 18 00 {ZEROS}"),
        ),
    ] {
        let (read, image) = (read(text), hex(&image));
        assert_eq!(read.to_archive(), image, "{text}");
        assert_eq!(DataType::from_archive(&image).as_ref(), Ok(&read), "{text}");
    }
}

#[test]
fn lengths_and_names() {
    let map =
        read("Map(\"e\": non-null Struct(\"k\": non-null Utf8, \"v\": Int8), sorted)").to_archive();
    assert_eq!(map.len(), 71);
    assert_eq!(
        [map[0], map[17], map[17 + 18], map[17 + 18 + 18]],
        [0x47, 0x36, 0x12, 0x12]
    );
    let run_ends = read("RunEndEncoded(non-null Int32, Utf8)").to_archive();
    assert_eq!(run_ends.len(), 65);
    let stored = DataType::from_archive(&run_ends).unwrap();
    assert_eq!(stored.text(), "run_endsvalues");
}

#[test]
fn rows_over_a_packed_text() {
    let stored = |text: &str| DataType::from_archive(&read(text).to_archive()).unwrap();
    let zoned = stored("Struct(\"a\": non-null Timestamp(s, \"CET\"))");
    assert_eq!(zoned.text(), "aCET");
    #[rustfmt::skip]
    let rows = [
        32, 2, 0, 0, 0, 0, 0, 0, 0, 0, 0, 0,
        13, 1, 2, 0, 0, 0, 1, 0, 1, 1, 3, 0,
    ];
    assert_eq!(zoned.rows(), rows);
    let list = stored("List(Int8)");
    assert_eq!(list.text(), "item");
    assert_eq!(
        list.rows()[ROW_WORDS..],
        [2, 1, 1, 0, 0, 0, 1, 0, 4, 0, 0, 0]
    );
    let nested = stored("Struct(\"a\": List(Int8), \"b\": Int8)");
    assert_eq!(nested.text(), "aitemb");
    let parents: Vec<u32> = nested.rows().chunks(ROW_WORDS).map(|row| row[11]).collect();
    assert_eq!(parents, [0, 0, 1, 0]);
}

/// However a type is spelled, it has one image.
#[test]
fn equal_types_have_one_image() {
    for (one, other) in [
        ("Timestamp(µs, None)", "Timestamp(us)"),
        ("List(nullable Int8, field: 'item')", "List(Int8)"),
        ("FixedSizeList(04, Int32)", "FixedSizeList(4 x Int32)"),
        (
            "RunEndEncoded(\"run_ends\": non-null Int32, \"values\": Utf8)",
            "RunEndEncoded(non-null Int32, Utf8)",
        ),
    ] {
        assert_eq!(read(one).to_archive(), read(other).to_archive());
    }
    assert_ne!(read("Int8").to_archive(), read("Int16").to_archive());
}

fn refused(image: &[u8]) -> Error {
    DataType::from_archive(image).unwrap_err()
}

#[test]
fn lengths_that_do_not_fit() {
    let int8 = hex(INT8);
    let with_length = |length: u8| [&[length], &int8[1..]].concat();
    for image in [
        &[],
        &int8[..3],
        &int8[..16],
        &*with_length(13),
        &*with_length(16),
        &*with_length(18),
        &*[&*int8, &[0]].concat(),
        &*[&*int8, &int8].concat(),
        // Three bytes behind a Struct's fields are no record.
        &*hex(&format!("14 00 00 00 20 00 {ZEROS} 01 02 03")),
        // The name past its record, and one that leaves no two bytes for the zone's length.
        &*hex("11 00 00 00 02 00 00 00 00 00 00 00 00 03 00 00 00"),
        &*hex("12 00 00 00 02 00 00 00 00 00 00 00 00 02 00 61 62 00"),
    ] {
        assert_eq!(refused(image), Error::WrongLength, "{image:?}");
    }
    // A record that ends past its parent's, and inside the image.
    let mut image = read("Struct(\"s\": Struct(\"a\": Int8), \"b\": Int8)").to_archive();
    image[17 + 18] = 0x24;
    assert_eq!(refused(&image), Error::WrongLength);
}

#[test]
fn kinds_that_there_are_not() {
    for kind in [[0x29, 0], [2, 1], [0xff, 0xff]] {
        let mut image = hex(INT8);
        image[4..6].copy_from_slice(&kind);
        assert_eq!(refused(&image), Error::UnknownKind);
    }
}

#[test]
fn trees_that_are_not_sound() {
    for image in [
        // A leaf with a child, a named root, a root of role 1, a zone on Int8, a field of role 3, and one without a name.
        format!("22 00 00 00 02 00 {ZEROS} {INT8}"),
        "12 00 00 00 02 00 00 00 00 00 00 00 00 01 00 61 00 00".to_owned(),
        "11 00 00 00 02 00 01 00 00 00 00 00 00 00 00 00 00".to_owned(),
        "12 00 00 00 02 00 00 00 00 00 00 00 00 00 00 01 00 61".to_owned(),
        format!("23 00 00 00 20 00 {ZEROS} 12 00 00 00 02 00 03 00 00 00 00 00 00 01 00 61 00 00"),
        format!("22 00 00 00 20 00 {ZEROS} 11 00 00 00 02 00 01 00 00 00 00 00 00 00 00 00 00"),
    ] {
        let mut image = hex(&image);
        assert_eq!(refused(&image), Error::NotSound, "{image:?}");
        // Bytes behind the image come first.
        image.push(0);
        assert_eq!(refused(&image), Error::WrongLength, "{image:?}");
    }
}

/// So many Lists in one another, the innermost record of a kind.
fn nested(levels: usize, kind: u8) -> Vec<u8> {
    let mut image = Vec::new();
    for level in (0..levels).rev() {
        let name: &[u8] = if level == 0 { b"" } else { b"item" };
        let length = RECORD_BYTES + name.len() + image.len();
        let kind = if level + 1 == levels { kind } else { 27 };
        let mut record = (length as u32).to_le_bytes().to_vec();
        record.extend([kind, 0, u8::from(level > 0), 0, 0, 0, 0, 0, 0]);
        record.extend((name.len() as u16).to_le_bytes());
        record.extend(name);
        record.extend([0, 0]);
        record.extend(image);
        image = record;
    }
    image
}

/// Images that nest deeper than types may.
#[test]
fn images_of_any_depth() {
    assert_eq!(DataType::from_archive(&nested(64, 2)).unwrap().depth(), 64);
    let images = [
        (65, 2, Error::NotSound),
        (MAX_ROWS, 2, Error::NotSound),
        (MAX_ROWS, 41, Error::UnknownKind),
        (MAX_ROWS + 1, 2, Error::NoRoom),
        (5_000, 2, Error::NoRoom),
    ];
    for (levels, kind, error) in images {
        assert_eq!(refused(&nested(levels, kind)), error, "{levels} levels");
    }
}

/// Types from stored rows, whose names overlap: an image may be longer than what may be read.
#[test]
fn names_that_overlap() {
    let fields = |count: usize, length: u32| {
        let mut rows = vec![0; (count + 1) * ROW_WORDS];
        (rows[0], rows[1]) = (32, count as u32 + 1);
        for row in rows.chunks_exact_mut(ROW_WORDS).skip(1) {
            row.copy_from_slice(&[2, 1, 1, 0, 0, 0, 1, 0, length, 0, 0, 0]);
        }
        DataType::from_parts("n".repeat(MAX_TEXT), rows).unwrap()
    };
    let most = fields(2, 8_192);
    assert_eq!(DataType::from_archive(&most.to_archive()), Ok(most));
    let over = fields(2, 8_193).to_archive();
    assert_eq!(refused(&over), Error::NoRoom);
    let longest = fields(MAX_ROWS - 1, MAX_TEXT as u32).to_archive();
    assert_eq!(
        longest.len(),
        MAX_ROWS * RECORD_BYTES + (MAX_ROWS - 1) * MAX_TEXT
    );
    assert_eq!(refused(&longest), Error::NoRoom);
}

/// Each golden file of the repository is its text's image, byte for byte, and reads back as its type.
#[cfg(repository)]
#[test]
fn golden_files() {
    let folder = std::path::Path::new(env!("CARGO_MANIFEST_DIR")).join("../images");
    let texts = std::fs::read_to_string(folder.join("texts")).unwrap();
    let page = std::fs::read_to_string(folder.join("README.md")).unwrap();
    for line in texts.lines() {
        let (name, text) = line.split_once(' ').unwrap();
        let (golden, read) = (std::fs::read(folder.join(name)).unwrap(), read(text));
        assert_eq!(read.to_archive(), golden, "{name}");
        assert_eq!(DataType::from_archive(&golden), Ok(read.clone()), "{name}");
        let said = format!("\n| {name} | {} | {} | ", golden.len(), read.row_count());
        assert!(page.contains(&said), "{said}");
    }
    let files = std::fs::read_dir(&folder).unwrap().count();
    assert_eq!(texts.lines().count() + 2, files);
    assert!(files > 12);
}
