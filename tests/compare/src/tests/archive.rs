//! The archive record: small inputs with their answers, and that a port with a fault is caught.

use super::{Port, words};
use crate::archive::{self, Answer, Cause, FIXED_BYTES, READ, WRITTEN, Written};
use crate::check::Check;
use crate::column_out::NO_ROOM;
use crate::generate::archive::{Record, nested};
use crate::generate::trees;
use crate::model::{self, MOST_BYTES, MOST_LEVELS, MOST_ROWS, NAME_LIST, Row, WORDS, refusal};
use crate::needs::Table;
use crate::subject;

/// All that may be used for reading.
const ALL: (usize, usize) = (MOST_ROWS * WORDS, MOST_BYTES);

fn hex(bytes: &str) -> Vec<u8> {
    let bytes = bytes.split_ascii_whitespace();
    bytes
        .map(|byte| u8::from_str_radix(byte, 16).unwrap())
        .collect()
}

/// The image of a table where so many bytes are lent, by the model and by the port, where it is linked.
fn written(table: Table, lent: usize) -> Result<Vec<u8>, u32> {
    let image = archive::image(table);
    let image = image.and_then(|image| {
        Some(image)
            .filter(|image| image.len() <= lent)
            .ok_or(NO_ROOM)
    });
    if let Some(port) = subject::linked() {
        let mut out = vec![7; lent];
        let answer = port.write_archive(table, &mut out);
        assert_eq!(
            answer,
            image.as_ref().map(Vec::len).map_err(|number| *number)
        );
        let mut then = image.clone().unwrap_or_default();
        then.resize(lent, 7);
        assert_eq!(out, then);
    }
    image
}

/// The same of a text's tree.
fn image(text: &str, lent: usize) -> Result<Vec<u8>, u32> {
    written((text.as_bytes(), NAME_LIST, &words(text)), lent)
}

/// What an image is read into where so many words and bytes are lent, by the model and by the port, where it is linked.
fn read(image: &[u8], lent: (usize, usize)) -> Result<(Vec<u32>, String), u32> {
    let (read, cause) = archive::read(image, lent);
    let expected = match cause {
        Some(cause) => Err(cause.number()),
        None => Ok((read.words(), read.text)),
    };
    if let Some(port) = subject::linked() {
        let (mut rows, mut text) = (vec![7; lent.0], vec![7; lent.1]);
        let answer = port.read_archive(image, &mut rows, &mut text);
        let (mut rows_then, mut text_then, counts) = match &expected {
            Ok((rows, text)) => (
                rows.clone(),
                text.clone(),
                Ok((rows.len() / WORDS, text.len())),
            ),
            Err(number) => (vec![0; lent.0], vec![0; lent.1], Err(*number)),
        };
        rows_then.resize(lent.0, 7);
        text_then.resize(lent.1, 7);
        assert_eq!(answer, counts);
        assert_eq!(rows, rows_then);
        assert_eq!(text, text_then);
    }
    expected.map(|(rows, text)| (rows, String::from_utf8(text).unwrap()))
}

/// The number with which an image is refused where so much is lent.
fn refused(image: &[u8], lent: (usize, usize)) -> u32 {
    read(image, lent).unwrap_err()
}

const INT8: &str = "11 00 00 00 02 00 00 00 00 00 00 00 00 00 00 00 00";
const CET: &str = "Struct(\"a\": non-null Timestamp(s, \"CET\"))";

#[test]
fn images_written() {
    let zeros = "00 ".repeat(11);
    let item = format!(
        "26 00 00 00 1b 00 {zeros} 15 00 00 00 02 00 01 00 00 00 00 00 00 04 00 69 74 65 6d 00 00"
    );
    let utf8 = "11 00 00 00 18 00 00 00 00 00 00 00 00 00 00 00 00";
    for (text, expected) in [
        ("Int8", INT8.into()),
        (CET, format!("26 00 00 00 20 00 {zeros} 15 00 00 00 0d 00 02 00 00 00 00 00 00 01 00 61 03 00 43 45 54")),
        ("List(Int8)", item.clone()),
        ("List(Int8, field: 'item')", item),
        (
            "Union(Dense, 5: (\"x\": Int8))",
            "23 00 00 00 21 00 00 00 01 00 00 00 00 00 00 00 00 12 00 00 00 02 00 01 05 00 00 00 00 00 01 00 78 00 00".into(),
        ),
        ("FixedSizeBinary(2147483647)", "11 00 00 00 15 00 00 00 ff ff ff 7f 00 00 00 00 00".into()),
        ("Decimal256(76, -128)", "11 00 00 00 26 00 00 00 4c 00 00 00 00 00 00 00 00".into()),
        ("Dictionary(Int8, Utf8)", format!("33 00 00 00 22 00 {zeros} {INT8} {utf8}")),
    ] {
        let expected = hex(&expected);
        assert_eq!(image(text, expected.len()), Ok(expected.clone()), "{text}");
        assert_eq!(image(text, expected.len() + 9), Ok(expected.clone()), "{text}");
        assert_eq!(image(text, expected.len() - 1), Err(28), "{text}");
        assert_eq!(image(text, 0), Err(28), "{text}");
    }
}

#[test]
fn lengths_and_names_written() {
    let map = image(
        "Map(\"e\": non-null Struct(\"k\": non-null Utf8, \"v\": Int8), sorted)",
        71,
    )
    .unwrap();
    assert_eq!(
        [map[0], map[17], map[17 + 18], map[17 + 18 + 18]],
        [0x47, 0x36, 0x12, 0x12]
    );
    assert_eq!(map.len(), 71);
    let run_ends = image("RunEndEncoded(non-null Int32, Utf8)", 65).unwrap();
    assert_eq!(run_ends[17 + 15..17 + 23], *b"run_ends");
    assert_eq!(run_ends[17 + 25 + 15..65 - 2], *b"values");
    assert_eq!(run_ends.len(), 65);
}

#[test]
fn soundness_before_room() {
    let mut words = words("Int8");
    words[2] = 1;
    assert_eq!(written((b"", NAME_LIST, &words), 0), Err(17));
    assert_eq!(written((b"", NAME_LIST, &words), 17), Err(17));
    assert_eq!(written((b"", NAME_LIST, &[]), 0), Err(17));
}

#[test]
fn images_over_16384_bytes() {
    let text = vec![b'n'; MOST_BYTES];
    let row = |kind, rows, role, name_length| Row {
        kind,
        rows,
        role,
        home: role,
        name_length,
        ..Row::default()
    };
    let fields = vec![row(2, 1, 1, MOST_BYTES as u32); MOST_ROWS - 1];
    let rows = [vec![row(32, MOST_ROWS as u32, 0, 0)], fields].concat();
    let tree = trees::tree(&text, &rows);
    let length = MOST_ROWS * FIXED_BYTES + (MOST_ROWS - 1) * MOST_BYTES;
    let table = (&*tree.text, NAME_LIST, &*tree.words);
    let image = written(table, length).unwrap();
    assert_eq!(image.len(), length);
    assert_eq!(written(table, length - 1), Err(28));
    assert_eq!(refused(&image, (ALL.0, 20_000)), 28);
}

#[test]
fn images_read() {
    let image = |text| image(text, 1_000).unwrap();
    let cet = image(CET);
    #[rustfmt::skip]
    let rows = vec![
        32, 2, 0, 0, 0, 0, 0, 0, 0, 0, 0, 0,
        13, 1, 2, 0, 0, 0, 1, 0, 1, 1, 3, 0,
    ];
    assert_eq!(read(&cet, (24, 4)), Ok((rows.clone(), "aCET".into())));
    assert_eq!(read(&cet, (40, 40)), Ok((rows, "aCET".into())));
    for lent in [(12, 4), (23, 4), (24, 3), (24, 0), (0, 0)] {
        assert_eq!(refused(&cet, lent), 28);
    }
    let (rows, text) = read(&image("List(Int8)"), ALL).unwrap();
    assert_eq!(
        (rows[12..].to_vec(), &*text),
        (vec![2, 1, 1, 0, 0, 0, 1, 0, 4, 0, 0, 0], "item")
    );
    let (rows, text) = read(&image("RunEndEncoded(non-null Int32, Utf8)"), ALL).unwrap();
    assert_eq!((rows.len(), &*text), (3 * WORDS, "run_endsvalues"));
    let (rows, text) = read(&image("Struct(\"a\": List(Int8), \"b\": Int8)"), ALL).unwrap();
    let parents: Vec<u32> = rows.chunks(WORDS).map(|row| row[super::PARENT]).collect();
    assert_eq!((parents, &*text), (vec![0, 0, 1, 0], "aitemb"));
}

#[test]
fn lengths_refused() {
    let int8 = hex(INT8);
    let with = |at: usize, byte: u8| {
        let mut image = int8.clone();
        image[at] = byte;
        image
    };
    assert_eq!(refused(&[], (25, 3)), 30);
    for image in [
        &int8[..3],
        &int8[..16],
        &with(0, 16),
        &with(0, 18),
        &with(0, 13),
    ] {
        assert_eq!(refused(image, ALL), 30);
    }
    assert_eq!(refused(&[&*int8, &[0]].concat(), ALL), 30);
    assert_eq!(refused(&[&*int8, &int8].concat(), ALL), 30);
    // Past its parent, and inside the image.
    let mut inner = image("Struct(\"s\": Struct(\"a\": Int8), \"b\": Int8)", 100).unwrap();
    assert_eq!(inner[17 + 18], 0x12);
    inner[17 + 18] = 0x24;
    assert_eq!(refused(&inner, ALL), 30);
    // One to three bytes are no record.
    for size in 1..=3 {
        let image = hex("14 00 00 00 20 00 00 00 00 00 00 00 00 00 00 00 00 01 02 03");
        let mut image = image[..17 + size].to_vec();
        image[0] = 17 + size as u8;
        assert_eq!(refused(&image, ALL), 30);
    }
}

#[test]
fn kinds_refused() {
    for kind in [[0x29, 0], [2, 1], [0xff, 0xff]] {
        let mut image = hex(INT8);
        image[4..6].copy_from_slice(&kind);
        assert_eq!(refused(&image, (0, 0)), 31);
        assert_eq!(refused(&image, ALL), 31);
        // The length comes first, and what stands behind the record last.
        image.push(0);
        assert_eq!(refused(&image, ALL), 31);
        image[0] = 16;
        assert_eq!(refused(&image, ALL), 30);
    }
    assert_eq!(refused(&hex(INT8), (0, 0)), 28);
    assert_eq!(refused(&hex(INT8), (11, 0)), 28);
}

#[test]
fn names_and_zones_refused() {
    let name = |length: u8| {
        let mut image = hex(INT8);
        image[13] = length;
        image
    };
    assert_eq!(refused(&name(3), ALL), 30);
    assert_eq!(refused(&name(3), (12, 0)), 30);
    // The name takes the two bytes of the zone's length.
    assert_eq!(refused(&name(2), (12, 2)), 30);
    assert_eq!(refused(&name(2), (12, 1)), 28);
    let two = hex("12 00 00 00 02 00 00 00 00 00 00 00 00 02 00 61 62 00");
    assert_eq!(refused(&two, (12, 1)), 28);
    assert_eq!(refused(&two, (12, 2)), 30);
    assert_eq!(refused(&two, (0, 2)), 28);
    let zone = hex("13 00 00 00 0d 00 00 00 00 00 00 00 00 00 00 03 00 61 62");
    assert_eq!(refused(&zone, (12, 0)), 30);
}

#[test]
fn trees_refused() {
    for image in [
        // A leaf with a child, a named root, a root of role 1, a zone on Int8, a role 3, a field without a name.
        "22 00 00 00 02 00 00 00 00 00 00 00 00 00 00 00 00 11 00 00 00 02 00 00 00 00 00 00 00 00 00 00 00 00",
        "12 00 00 00 02 00 00 00 00 00 00 00 00 01 00 61 00 00",
        "11 00 00 00 02 00 01 00 00 00 00 00 00 00 00 00 00",
        "12 00 00 00 02 00 00 00 00 00 00 00 00 00 00 01 00 61",
        "23 00 00 00 20 00 00 00 00 00 00 00 00 00 00 00 00 12 00 00 00 02 00 03 00 00 00 00 00 00 01 00 61 00 00",
        "22 00 00 00 20 00 00 00 00 00 00 00 00 00 00 00 00 11 00 00 00 02 00 01 00 00 00 00 00 00 00 00 00 00",
    ] {
        assert_eq!(refused(&hex(image), ALL), 17, "{image}");
        let behind = [hex(image), vec![0]].concat();
        assert_eq!(refused(&behind, ALL), 30, "{image}");
    }
    // Two fields that are the halves of a character.
    let half = |name: &[u8]| Record {
        kind: 2,
        role: 1,
        name: name.to_vec(),
        ..Record::default()
    };
    let root = Record {
        kind: 32,
        children: vec![half(b"\xc3"), half(b"\xbc")],
        ..Record::default()
    };
    let image = root.bytes().0;
    assert_eq!(archive::read(&image, ALL).1, Some(Cause::HalfCharacter));
    assert_eq!(refused(&image, ALL), 17);
}

#[test]
fn levels_and_rows() {
    assert!(read(&nested(64, 2), ALL).is_ok());
    for (levels, number) in [(65, 17), (1_024, 17), (1_025, 28), (2_000, 28)] {
        assert_eq!(refused(&nested(levels, 2), ALL), number);
        let expected = if levels == 2_000 { 28 } else { 31 };
        assert_eq!(refused(&nested(levels, 41), ALL), expected);
    }
    // A field behind the levels that are too many.
    let deep = |levels: usize, kind| {
        let child = |kind, children| Record {
            kind,
            role: 1,
            name: b"a".to_vec(),
            children,
            ..Record::default()
        };
        let inner = (1..levels).fold(child(2, vec![]), |inner, _| child(32, vec![inner]));
        Record {
            kind: 32,
            children: vec![inner, child(kind, vec![])],
            ..Record::default()
        }
        .bytes()
        .0
    };
    assert!(read(&deep(63, 2), ALL).is_ok());
    assert_eq!(refused(&deep(64, 2), ALL), 17);
    assert_eq!(refused(&deep(64, 41), ALL), 31);
    assert_eq!(refused(&deep(64, 2), (ALL.0, 64)), 28);
    assert_eq!(refused(&[deep(64, 2), vec![1]].concat(), ALL), 30);
}

#[test]
fn causes_have_their_numbers() {
    assert_eq!(archive::WRONG_LENGTH, 30);
    assert_eq!(archive::UNKNOWN_KIND, 31);
    for cause in [
        Cause::NoLength,
        Cause::TooShort,
        Cause::PastParent,
        Cause::BehindRoot,
    ] {
        assert_eq!(cause.number(), 30);
    }
    assert_eq!(Cause::KindWithNoRow.number(), 31);
    assert_eq!(Cause::ZoneOver16384.number(), 28);
    assert_eq!(Cause::TooDeep.number(), 17);
}

/// What a port does wrong.
#[derive(Clone, Copy, Debug, PartialEq)]
pub enum Fault {
    None,
    // Writing.
    LengthOwnAlone,
    LengthWithoutItself,
    KindBigEndian,
    NumberBigEndian,
    IdBeforeRole,
    NumberIn16Bits,
    ZoneBeforeName,
    NoZoneNoLength,
    NamesOfTextAlone,
    RoomBeforeSound,
    WrittenBeforeRoom,
    ByteOfRoomMissing,
    Over16384Refused,
    BytesBehindZeroed,
    LengthLent,
    NotWritten17For28,
    // Reading.
    RoomBeforeKind,
    KindFortyOne,
    KindLowByteAlone,
    RecordOfSixteen,
    PastParent,
    BytesLeftOverIgnored,
    PastRootLetThrough,
    PastRootFirst,
    UnsoundBeforePastRoot,
    ZoneRoomBeforeLength,
    NameNeedsZoneLength,
    TextUnlimited,
    RowsUnlimited,
    PartOfARowLent,
    HomeByRole,
    DeepAtOnce,
    ParentsLeft,
    SoundNotAsked,
    NamesBehindZones,
    RefusedRowsKept,
    RefusedTextKept,
    FilledAloneCleared,
    WordsBehindZeroed,
    TextBehindZeroed,
    CountAndLengthSwapped,
    WrongLength31,
    UnknownKind30,
}

/// All faults but `None`.
const FAULTS: [Fault; 43] = [
    Fault::LengthOwnAlone,
    Fault::LengthWithoutItself,
    Fault::KindBigEndian,
    Fault::NumberBigEndian,
    Fault::IdBeforeRole,
    Fault::NumberIn16Bits,
    Fault::ZoneBeforeName,
    Fault::NoZoneNoLength,
    Fault::NamesOfTextAlone,
    Fault::RoomBeforeSound,
    Fault::WrittenBeforeRoom,
    Fault::ByteOfRoomMissing,
    Fault::Over16384Refused,
    Fault::BytesBehindZeroed,
    Fault::LengthLent,
    Fault::NotWritten17For28,
    Fault::RoomBeforeKind,
    Fault::KindFortyOne,
    Fault::KindLowByteAlone,
    Fault::RecordOfSixteen,
    Fault::PastParent,
    Fault::BytesLeftOverIgnored,
    Fault::PastRootLetThrough,
    Fault::PastRootFirst,
    Fault::UnsoundBeforePastRoot,
    Fault::ZoneRoomBeforeLength,
    Fault::NameNeedsZoneLength,
    Fault::TextUnlimited,
    Fault::RowsUnlimited,
    Fault::PartOfARowLent,
    Fault::HomeByRole,
    Fault::DeepAtOnce,
    Fault::ParentsLeft,
    Fault::SoundNotAsked,
    Fault::NamesBehindZones,
    Fault::RefusedRowsKept,
    Fault::RefusedTextKept,
    Fault::FilledAloneCleared,
    Fault::WordsBehindZeroed,
    Fault::TextBehindZeroed,
    Fault::CountAndLengthSwapped,
    Fault::WrongLength31,
    Fault::UnknownKind30,
];

/// Writing with a fault.
pub fn faulty_write(fault: Fault, (text, list, words): Table, out: &mut [u8]) -> Written {
    if fault == Fault::RoomBeforeSound && out.len() < words.len() / WORDS * FIXED_BYTES {
        return Err(NO_ROOM);
    }
    if !model::sound(text, list, words) {
        return Err(refusal::NOT_SOUND);
    }
    let mut image = Vec::new();
    write(fault, text, list, &model::from_words(words), &mut image);
    let room = match fault {
        Fault::ByteOfRoomMissing => out.len().saturating_sub(1),
        Fault::Over16384Refused => out.len().min(MOST_BYTES),
        _ => out.len(),
    };
    if image.len() > room {
        if fault == Fault::WrittenBeforeRoom {
            out.copy_from_slice(&image[..out.len()]);
        }
        return Err(match fault {
            Fault::NotWritten17For28 => refusal::NOT_SOUND,
            _ => NO_ROOM,
        });
    }
    out[..image.len()].copy_from_slice(&image);
    if fault == Fault::BytesBehindZeroed {
        out[image.len()..].fill(0);
    }
    Ok(if fault == Fault::LengthLent {
        out.len()
    } else {
        image.len()
    })
}

fn write(fault: Fault, text: &[u8], list: &[u8], rows: &[Row], out: &mut Vec<u8>) {
    let (row, mut below) = rows.split_first().expect("a row");
    let start = out.len();
    out.extend([0; 4]);
    let kind = row.kind as u16;
    out.extend(if fault == Fault::KindBigEndian {
        kind.to_be_bytes()
    } else {
        kind.to_le_bytes()
    });
    let (role, id) = (row.role as u8, row.union_id as u8);
    out.extend(if fault == Fault::IdBeforeRole {
        [id, role]
    } else {
        [role, id]
    });
    let number = match fault {
        Fault::NumberIn16Bits => row.number & 0xffff,
        Fault::NumberBigEndian => row.number.swap_bytes(),
        _ => row.number,
    };
    out.extend(number.to_le_bytes());
    out.push(row.scale as u8);
    let name = match fault {
        Fault::NamesOfTextAlone => model::name(text, list, 1, row.name_start, row.name_length),
        _ => model::row_name(text, list, row),
    };
    let zone = model::row_zone(text, row);
    let parts = if fault == Fault::ZoneBeforeName {
        [zone, name]
    } else {
        [name, zone]
    };
    for (at, part) in parts.into_iter().enumerate() {
        if fault != Fault::NoZoneNoLength || at == 0 || !part.is_empty() {
            out.extend((part.len() as u16).to_le_bytes());
        }
        out.extend(part);
    }
    let own = out.len();
    while let Some(child) = below.first() {
        let (child, behind) = below.split_at(child.rows as usize);
        write(fault, text, list, child, out);
        below = behind;
    }
    let length = match fault {
        Fault::LengthOwnAlone => own - start,
        Fault::LengthWithoutItself => out.len() - start - 4,
        _ => out.len() - start,
    };
    out[start..start + 4].copy_from_slice(&(length as u32).to_le_bytes());
}

/// Reading with a fault.
pub fn faulty_read(fault: Fault, image: &[u8], rows: &mut [u32], text: &mut [u8]) -> Answer {
    let lent = match fault {
        Fault::PartOfARowLent => rows.len().div_ceil(WORDS),
        _ => rows.len() / WORDS,
    };
    let mut reader = Reader {
        fault,
        image,
        lent: (lent, text.len()),
        rows: Vec::new(),
        text: Vec::new(),
    };
    let read = reader.tree();
    let words = model::to_words(&reader.rows);
    let filled = (
        words.len().min(rows.len()),
        reader.text.len().min(text.len()),
    );
    if read.is_ok() || fault == Fault::FilledAloneCleared {
        rows[..filled.0].copy_from_slice(&words[..filled.0]);
        text[..filled.1].copy_from_slice(&reader.text[..filled.1]);
    }
    match (read, fault) {
        (Err(number), _) => {
            match fault {
                Fault::RefusedRowsKept => text.fill(0),
                Fault::RefusedTextKept => rows.fill(0),
                Fault::FilledAloneCleared => {
                    rows[..filled.0].fill(0);
                    text[..filled.1].fill(0);
                }
                _ => {
                    rows.fill(0);
                    text.fill(0);
                }
            }
            Err(match (fault, number) {
                (Fault::WrongLength31, 30) => 31,
                (Fault::UnknownKind30, 31) => 30,
                _ => number,
            })
        }
        (Ok(()), Fault::CountAndLengthSwapped) => Ok((reader.text.len(), reader.rows.len())),
        (Ok(()), _) => {
            if fault == Fault::WordsBehindZeroed {
                rows[filled.0..].fill(0);
            }
            if fault == Fault::TextBehindZeroed {
                text[filled.1..].fill(0);
            }
            Ok((reader.rows.len(), reader.text.len()))
        }
    }
}

struct Reader<'a> {
    fault: Fault,
    image: &'a [u8],
    lent: (usize, usize),
    rows: Vec<Row>,
    text: Vec<u8>,
}

impl Reader<'_> {
    fn tree(&mut self) -> Result<(), u32> {
        let mut end = self.record(0, self.image.len(), 1, 0)?;
        if self.fault == Fault::PastRootLetThrough {
            end = self.image.len();
        }
        if self.fault == Fault::NamesBehindZones {
            self.names_behind_zones();
        }
        let sound = model::sound(&self.text, NAME_LIST, &model::to_words(&self.rows));
        match end < self.image.len() {
            true if !sound && self.fault == Fault::UnsoundBeforePastRoot => Err(17),
            true => Err(30),
            false if sound || self.fault == Fault::SoundNotAsked => Ok(()),
            false => Err(17),
        }
    }

    /// All zones first, and then all names.
    fn names_behind_zones(&mut self) {
        let old = std::mem::take(&mut self.text);
        for row in &mut self.rows {
            let zone = model::row_zone(&old, row);
            row.zone_start = if zone.is_empty() {
                0
            } else {
                self.text.len() as u32
            };
            self.text.extend(zone);
        }
        for row in &mut self.rows {
            let name = model::row_name(&old, &[], row);
            row.name_start = if name.is_empty() {
                0
            } else {
                self.text.len() as u32
            };
            self.text.extend(name);
        }
    }

    fn number(&self, at: usize, size: usize, end: usize) -> Result<usize, u32> {
        let bytes = self.image[..end].get(at..at + size).ok_or(30u32)?;
        Ok(bytes
            .iter()
            .rev()
            .fold(0, |number, byte| number << 8 | usize::from(*byte)))
    }

    fn record(
        &mut self,
        at: usize,
        limit: usize,
        level: usize,
        parent: usize,
    ) -> Result<usize, u32> {
        let fault = self.fault;
        let row = self.rows.len();
        let length = self.number(at, 4, limit)?;
        let least = if fault == Fault::RecordOfSixteen {
            16
        } else {
            FIXED_BYTES
        };
        let limit = if fault == Fault::PastParent {
            self.image.len()
        } else {
            limit
        };
        let end = at + length;
        if length < least || end > limit {
            return Err(30);
        }
        if fault == Fault::PastRootFirst && row == 0 && end < limit {
            return Err(30);
        }
        let most = if fault == Fault::RowsUnlimited {
            self.lent.0
        } else {
            self.lent.0.min(MOST_ROWS)
        };
        let full = row >= most;
        if full && fault == Fault::RoomBeforeKind {
            return Err(28);
        }
        let mut kind = self.number(at + 4, 2, end)?;
        if fault == Fault::KindLowByteAlone {
            kind &= 0xff;
        }
        if kind > if fault == Fault::KindFortyOne { 41 } else { 40 } {
            return Err(31);
        }
        if full {
            return Err(28);
        }
        if level > MOST_LEVELS && fault == Fault::DeepAtOnce {
            return Err(17);
        }
        let number = |at, size| self.number(at, size, end).map(|number| number as u32);
        let mut new = Row {
            kind: kind as u32,
            role: number(at + 6, 1)?,
            union_id: number(at + 7, 1)?,
            number: number(at + 8, 4)?,
            scale: number(at + 12, 1)?,
            parent: if fault == Fault::ParentsLeft {
                0
            } else {
                parent as u32
            },
            ..Row::default()
        };
        self.rows.push(new);
        let (start, length, at) = self.string(at + 13, end, true)?;
        let named = if fault == Fault::HomeByRole {
            new.role != 0
        } else {
            length > 0
        };
        if named {
            (new.home, new.name_start, new.name_length) = (1, start, length);
        }
        let (start, length, mut at) = self.string(at, end, false)?;
        if length > 0 {
            (new.zone_start, new.zone_length) = (start, length);
        }
        let rest = if fault == Fault::BytesLeftOverIgnored {
            3
        } else {
            0
        };
        while at + rest < end {
            at = self.record(at, end, level + 1, row)?;
        }
        new.rows = (self.rows.len() - row) as u32;
        self.rows[row] = new;
        Ok(end)
    }

    fn string(&mut self, at: usize, end: usize, name: bool) -> Result<(u32, u32, usize), u32> {
        let fault = self.fault;
        let length = self.number(at, 2, end)?;
        let at = at + 2;
        let most = if fault == Fault::TextUnlimited {
            self.lent.1
        } else {
            self.lent.1.min(MOST_BYTES)
        };
        let start = self.text.len();
        let full = start + length > most;
        if full && !name && fault == Fault::ZoneRoomBeforeLength {
            return Err(28);
        }
        let more = if name && fault == Fault::NameNeedsZoneLength {
            2
        } else {
            0
        };
        if at + length + more > end {
            return Err(30);
        }
        if full {
            return Err(28);
        }
        self.text.extend(&self.image[at..at + length]);
        Ok((start as u32, length as u32, at + length))
    }
}

/// A short run with the port, and whether each outcome came.
fn short_run(fault: Fault) -> usize {
    let port = Port(super::Fault::Archive(fault));
    let mut check = Check::new(Some(&port), 1);
    check.archive(6_000);
    let random = &mut crate::generate::Random::new(1);
    for _ in 0..300 {
        let tree = trees::sound(random, trees::Letters::Ascii, 12);
        check.any_tree(&trees::changed(random, &tree));
    }
    for (outcome, count) in WRITTEN.iter().zip(check.archive.written) {
        assert!(count > 0, "never: {outcome}");
    }
    for (outcome, count) in READ.iter().zip(check.archive.read) {
        assert!(count > 0, "never: {outcome}");
    }
    check.differences()
}

#[test]
fn faults_in_the_archive_are_caught() {
    assert_eq!(short_run(Fault::None), 0);
    for fault in FAULTS {
        assert!(short_run(fault) > 0, "{fault:?} is not caught");
    }
}
