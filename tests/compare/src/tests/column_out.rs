//! Taking a column out (document 02, [12]): small inputs with their answers, and that a port with a fault is caught.

use super::{Port, words};
use crate::check::Check;
use crate::column_out::{self, Answer, NO_FIELD, NO_ROOM, OUTCOMES};
use crate::model::{self, MOST_BYTES, NAME_LIST, Row, WORDS, kind, refusal};
use crate::needs::{self, NOT_STRUCT, Table};
use crate::subject;

const COLUMNS: &str = "Struct(\"a\": Int8, \"b\": List(Timestamp(s, \"CET\")), \"c\": non-null Timestamp(ms, \"UTC\"), \
                       \"d\": Dictionary(Int8, Utf8))";

/// What the model leaves of a text's tree, and the port, where it is linked.
fn left(text: &str, field: usize, words_lent: usize, bytes: usize) -> Result<(String, usize), u32> {
    let words = words(text);
    let table = (text.as_bytes(), NAME_LIST, &*words);
    let left = column_out::left(table, field);
    let fits = |left: &column_out::Left| left.rows_fit(words_lent) && left.text_fits(bytes);
    let left = left.and_then(|left| Some(left).filter(fits).ok_or(NO_ROOM));
    if let Some(port) = subject::linked() {
        let (mut rows, mut text) = (vec![7; words_lent], vec![7; bytes]);
        let answer = port.take_column_out(table, field, &mut rows, &mut text);
        let expected = left.as_ref().map(|left| left.words.len() / WORDS);
        assert_eq!(answer.map(|(count, _)| count), expected.map_err(|n| *n));
        if let (Ok(left), Ok((_, length))) = (&left, answer) {
            assert_eq!(rows[..left.words.len()], left.words);
            assert_eq!(text[..length], left.text);
        }
    }
    left.map(|left| (String::from_utf8(left.text).unwrap(), left.words.len()))
}

#[test]
fn columns_left() {
    let whole = |field| left(COLUMNS, field, 1_000, 1_000);
    let left = |packed: &str, rows: usize| Ok((packed.to_string(), rows * WORDS));
    assert_eq!(whole(0), left("bitemCETcUTCd", 7));
    assert_eq!(whole(1), left("acUTCd", 6));
    assert_eq!(whole(2), left("abitemCETd", 7));
    assert_eq!(whole(3), left("abitemCETcUTC", 5));
    assert_eq!(whole(4), Err(29));
    assert_eq!(whole(1 << 32), Err(29));
    assert_eq!(whole(usize::MAX), Err(29));
}

#[test]
fn the_only_field() {
    let one =
        "Struct(\"a\": Map(\"b\": non-null Struct(\"c\": non-null Int8, \"d\": Int8), sorted))";
    assert_eq!(left(one, 0, 12, 0), Ok((String::new(), 12)));
    assert_eq!(left(one, 0, 11, 0), Err(28));
    assert_eq!(left(one, 1, 0, 0), Err(29));
    assert_eq!(left("Struct()", 0, 0, 0), Err(29));
    assert_eq!(left("Union(Dense, 0: (\"a\": Int8))", 9, 0, 0), Err(25));
    assert_eq!(left("List(Struct(\"a\": Int8))", 0, 0, 0), Err(25));
}

#[test]
fn rooms_for_what_is_left() {
    assert_eq!(left(COLUMNS, 1, 72, 6).map(|left| left.1), Ok(72));
    assert_eq!(left(COLUMNS, 1, 71, 6), Err(28));
    assert_eq!(left(COLUMNS, 1, 72, 5), Err(28));
}

/// A row's words: of the only field that stays, a timestamp in a list.
#[test]
fn words_left() {
    let text = "Struct(\"a\": Int8, \"b\": List(Timestamp(s, \"CET\")))";
    let words = words(text);
    let left = column_out::left((text.as_bytes(), NAME_LIST, &words), 0).unwrap();
    #[rustfmt::skip]
    let expected = [
        32, 3, 0, 0, 0, 0, 0, 0, 0, 0, 0, 0,
        27, 2, 1, 0, 0, 0, 1, 0, 1, 0, 0, 0,
        13, 1, 1, 0, 0, 0, 1, 1, 4, 5, 3, 1,
    ];
    assert_eq!(left.words, expected);
    assert_eq!(left.text, b"bitemCET");
}

/// What a port does wrong.
#[derive(Clone, Copy, Debug, PartialEq)]
pub enum Fault {
    None,
    StructBeforeSoundness,
    FieldBeforeStruct,
    RoomBeforeField,
    UnionTaken,
    CountedFromOne,
    FieldOf32Bits,
    LastForOnePast,
    NestedFieldsLeft,
    RootsCountLeft,
    ParentsLeft,
    ZoneBeforeName,
    ListsHomeKept,
    BareHomeOne,
    StartOfNoZone,
    NamesShared,
    PackedOver16384,
    RowOfRoomMissing,
    ByteOfRoomMissing,
    PartOfARowLent,
    RowsOfARefusal,
    TextOfARefusal,
    WordsBehindZeroed,
    BytesBehindZeroed,
    CountOfTheWhole,
    LengthLent,
}

/// All faults but `None`.
const FAULTS: [Fault; 25] = [
    Fault::StructBeforeSoundness,
    Fault::FieldBeforeStruct,
    Fault::RoomBeforeField,
    Fault::UnionTaken,
    Fault::CountedFromOne,
    Fault::FieldOf32Bits,
    Fault::LastForOnePast,
    Fault::NestedFieldsLeft,
    Fault::RootsCountLeft,
    Fault::ParentsLeft,
    Fault::ZoneBeforeName,
    Fault::ListsHomeKept,
    Fault::BareHomeOne,
    Fault::StartOfNoZone,
    Fault::NamesShared,
    Fault::PackedOver16384,
    Fault::RowOfRoomMissing,
    Fault::ByteOfRoomMissing,
    Fault::PartOfARowLent,
    Fault::RowsOfARefusal,
    Fault::TextOfARefusal,
    Fault::WordsBehindZeroed,
    Fault::BytesBehindZeroed,
    Fault::CountOfTheWhole,
    Fault::LengthLent,
];

/// Taking a column out with a fault.
pub fn faulty(
    fault: Fault,
    (text, list, words): Table,
    field: usize,
    rows_left: &mut [u32],
    text_left: &mut [u8],
) -> Answer {
    let rows = model::from_words(words);
    let field = taken(fault, &rows, field);
    let lent = (rows_left.len(), text_left.len());
    if let Some(number) = refused(fault, (text, list, words), &rows, field, lent) {
        return Err(number);
    }
    let mut left = stay(fault, &rows, field);
    let packed = pack(fault, text, list, &mut left);
    let parents = left.iter().map(|row| row.parent).collect::<Vec<_>>();
    let mut filled = model::with_parents(&model::to_words(&left));
    if fault == Fault::ParentsLeft {
        let places = filled.iter_mut().skip(super::PARENT).step_by(WORDS);
        places.zip(parents).for_each(|(word, kept)| *word = kept);
    }
    if !fits(fault, (filled.len(), packed.len()), lent) {
        match fault {
            Fault::RowsOfARefusal => rows_left.fill(0),
            Fault::TextOfARefusal => text_left.fill(0),
            _ => {}
        }
        return Err(NO_ROOM);
    }
    write(fault, (&filled, &packed), rows_left, text_left);
    Ok(match fault {
        Fault::CountOfTheWhole => (rows.len(), packed.len()),
        Fault::LengthLent => (left.len(), lent.1),
        _ => (left.len(), packed.len()),
    })
}

/// Which field is taken.
fn taken(fault: Fault, rows: &[Row], field: usize) -> usize {
    match fault {
        Fault::CountedFromOne => field.wrapping_sub(1),
        Fault::FieldOf32Bits => field as u32 as usize,
        Fault::LastForOnePast if field > 0 && column_out::rows_of(rows, field).is_none() => {
            field - 1
        }
        _ => field,
    }
}

/// The refusals but 28, in an order and with bounds of the fault.
fn refused(
    fault: Fault,
    (text, list, words): Table,
    rows: &[Row],
    field: usize,
    lent: (usize, usize),
) -> Option<u32> {
    let sound = model::sound(text, list, words);
    let root = rows.first().map_or(0, |root| root.kind);
    let is_struct = root == kind::STRUCT || fault == Fault::UnionTaken && root == kind::UNION;
    let is_field = field < needs::fields(text, list, rows).len();
    let mut order = [
        (sound, refusal::NOT_SOUND),
        (is_struct, NOT_STRUCT),
        (is_field, NO_FIELD),
    ];
    match fault {
        Fault::StructBeforeSoundness => order.swap(0, 1),
        Fault::FieldBeforeStruct => order.swap(1, 2),
        Fault::RoomBeforeField if lent.0 < WORDS => order[2].1 = NO_ROOM,
        _ => {}
    }
    let first = order.iter().find(|(good, _)| !good);
    first.map(|(_, number)| *number)
}

/// The rows that stay.
fn stay(fault: Fault, rows: &[Row], field: usize) -> Vec<Row> {
    let mut gap = column_out::rows_of(rows, field).expect("a field");
    if fault == Fault::NestedFieldsLeft {
        gap.end = gap.start + 1;
    }
    let mut left = column_out::without(rows, gap);
    if fault == Fault::RootsCountLeft {
        left[0].rows = rows[0].rows;
    }
    left
}

/// Packs names and zones, each in turn.
fn pack(fault: Fault, text: &[u8], list: &[u8], rows: &mut [Row]) -> Vec<u8> {
    let mut packed = Vec::new();
    let mut put = |part: &[u8]| {
        let found = match fault {
            Fault::NamesShared => packed.windows(part.len()).position(|other| other == part),
            _ => None,
        };
        found.unwrap_or_else(|| {
            packed.extend(part);
            packed.len() - part.len()
        }) as u32
    };
    for row in rows {
        let (name, zone) = (model::row_name(text, list, row), model::row_zone(text, row));
        let zoned = !zone.is_empty() || fault == Fault::StartOfNoZone && row.home != 0;
        if fault == Fault::ZoneBeforeName && zoned {
            row.zone_start = put(zone);
        }
        let kept = fault == Fault::ListsHomeKept && row.home == 2;
        if !name.is_empty() && !kept {
            row.name_start = put(name);
        }
        if row.home != 0 && !kept || fault == Fault::BareHomeOne {
            row.home = 1;
        }
        if fault != Fault::ZoneBeforeName && zoned {
            row.zone_start = put(zone);
        }
    }
    packed
}

/// Whether so many words and bytes fit into those lent.
fn fits(fault: Fault, (words, bytes): (usize, usize), lent: (usize, usize)) -> bool {
    let rows_fit = match fault {
        Fault::RowOfRoomMissing => words + WORDS <= lent.0,
        Fault::PartOfARowLent => words / WORDS <= lent.0.div_ceil(WORDS),
        _ => words <= lent.0,
    };
    let most = match fault {
        Fault::PackedOver16384 => usize::MAX,
        Fault::ByteOfRoomMissing => lent.1.saturating_sub(1),
        _ => MOST_BYTES,
    };
    rows_fit && bytes <= lent.1.min(most)
}

/// Fills the lent buffers.
fn write(fault: Fault, (words, bytes): (&[u32], &[u8]), rows: &mut [u32], text: &mut [u8]) {
    let filled = words.len().min(rows.len());
    rows[..filled].copy_from_slice(&words[..filled]);
    text[..bytes.len()].copy_from_slice(bytes);
    match fault {
        Fault::WordsBehindZeroed => rows[filled..].fill(0),
        Fault::BytesBehindZeroed => text[bytes.len()..].fill(0),
        _ => {}
    }
}

/// A short run over Structs with the port.
fn short_run(fault: Fault) -> usize {
    let port = Port(super::Fault::ColumnOut(fault));
    let mut check = Check::new(Some(&port), 1);
    check.columns(3_000);
    check.long_names(200);
    for (outcome, count) in OUTCOMES.iter().zip(check.taken.outcomes) {
        assert!(count > 0, "never: {outcome}");
    }
    check.differences()
}

#[test]
fn faults_in_taking_a_column_out_are_caught() {
    assert_eq!(short_run(Fault::None), 0);
    for fault in FAULTS {
        assert!(short_run(fault) > 0, "{fault:?} is not caught");
    }
}
