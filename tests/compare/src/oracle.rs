//! What the Rust says: `DataType::from_str` with the tree as rows and the refusal's number by the
//! message's wording, and `DataType::to_string` for any sound tree.
//!
//! The Rust recurses without a limit, so call this from a thread with a large stack.

use crate::column_out::NO_FIELD;
use crate::model::{self, MOST_BYTES, WORDS, refusal};
use crate::needs::{NOT_STRUCT, Need, Needed};
use arrow_schema::{
    ArrowError, DataType, Field, Fields, IntervalUnit, TimeUnit, UnionFields, UnionMode,
};
use std::sync::Arc;

/// A row of document 01's table as far as the Rust knows it.
#[derive(Clone, Debug, PartialEq, Eq)]
pub struct Row {
    pub kind: u32,
    pub rows: u32,
    pub role: u32,
    pub union_id: u32,
    /// Word 4.
    pub number: u32,
    /// Scale plus 128.
    pub scale: u32,
    pub name: Vec<u8>,
    /// The name's home, unless both text and name list could have given it.
    pub home: Option<u32>,
    pub zone: Vec<u8>,
    /// The parent's row number from 0; 0 for the root too.
    pub parent: u32,
}

#[derive(Clone, Copy, Debug, PartialEq, Eq)]
pub enum ErrorKind {
    InvalidArgument,
    Parse,
    Other,
}

pub enum Answer {
    Accepted {
        data_type: DataType,
        rows: Vec<Row>,
    },
    Refused {
        error: ErrorKind,
        /// Document 01's number, if the wording tells it.
        number: Option<u32>,
        message: String,
    },
}

pub fn read(text: &str) -> Answer {
    match text.parse::<DataType>() {
        Ok(data_type) => Answer::Accepted {
            rows: rows(&data_type),
            data_type,
        },
        Err(ArrowError::ParseError(message)) => Answer::Refused {
            error: ErrorKind::Parse,
            number: number(text, &message),
            message,
        },
        Err(ArrowError::InvalidArgumentError(message)) => {
            let union = ["type ids must be non-negative: ", "duplicate type id: "];
            let known = union.iter().any(|start| message.starts_with(start));
            Answer::Refused {
                error: ErrorKind::InvalidArgument,
                number: known.then_some(refusal::UNION_ID),
                message,
            }
        }
        Err(error) => Answer::Refused {
            error: ErrorKind::Other,
            number: None,
            message: error.to_string(),
        },
    }
}

/// How messages begin, behind the part that all share and that repeats the text.
const WORDINGS: &[(&str, u32)] = &[
    ("finding next token", refusal::END),
    ("empty strings aren't allowed", refusal::EMPTY_STRING),
    ("unknown token: ", refusal::UNKNOWN_WORD),
    ("parsing ", refusal::UNKNOWN_WORD),
    ("Expected '", refusal::WRONG_SORT),
    ("Expected None, Some, or a timezone", refusal::WRONG_SORT),
    ("Expected comma followed by a timezone", refusal::WRONG_SORT),
    ("Expected sorted or unsorted", refusal::WRONG_SORT),
    ("expected double quoted string", refusal::WRONG_SORT),
    ("expected single quoted string", refusal::WRONG_SORT),
    ("finding next type, got unexpected", refusal::WRONG_SORT),
    ("finding TimeUnit for ", refusal::WRONG_SORT),
    ("finding IntervalUnit for ", refusal::WRONG_SORT),
    ("finding UnionMode for ", refusal::WRONG_SORT),
    ("finding i64 for ", refusal::WRONG_SORT),
    ("Unexpected token while parsing Struct", refusal::WRONG_SORT),
    ("converting ", refusal::RANGE),
    (
        "FixedSizeBinary length must be non-negative",
        refusal::RANGE,
    ),
    ("FixedSizeList length must be non-negative", refusal::RANGE),
    ("Time32 time unit must be", refusal::TIME_UNIT),
    ("Time64 time unit must be", refusal::TIME_UNIT),
    ("Decimal32 precision must be", refusal::DECIMAL),
    ("Decimal32 scale '", refusal::DECIMAL),
    ("Decimal64 precision must be", refusal::DECIMAL),
    ("Decimal64 scale '", refusal::DECIMAL),
    ("Decimal128 precision must be", refusal::DECIMAL),
    ("Decimal128 scale '", refusal::DECIMAL),
    ("Decimal256 precision must be", refusal::DECIMAL),
    ("Decimal256 scale '", refusal::DECIMAL),
    ("Map entries field cannot be nullable", refusal::NULLABLE),
    ("Map key field cannot be nullable", refusal::NULLABLE),
    ("RunEndEncoded run_ends field cannot be", refusal::NULLABLE),
    ("Map entries must contain two children", refusal::ENTRIES),
    ("Map entries must be a Struct type", refusal::ENTRIES),
    ("checking trailing content", refusal::LEFT_OVER),
];

fn number(text: &str, message: &str) -> Option<u32> {
    if message.starts_with("Unterminated string at: ") {
        return Some(refusal::NEVER_ENDS);
    }
    // The text itself may hold anything, so it is cut off whole before the wording is looked at.
    let wording = message
        .strip_prefix("Unsupported type '")?
        .strip_prefix(text)?
        .strip_prefix("'. Must be a supported arrow type name such as ")?
        .strip_prefix("'Int32' or 'Timestamp(ns)'. Error ")?;
    let known = WORDINGS
        .iter()
        .find(|(start, _)| wording.starts_with(start));
    known.map(|(_, number)| *number)
}

/// The tree as rows.
pub fn rows(data_type: &DataType) -> Vec<Row> {
    let mut rows = Vec::new();
    add(&mut rows, 0, data_type, None, 0, None);
    rows
}

/// Adds a type's rows; `parent` is the row that they stand under, `default` the name that its field
/// gets where the text names none.
fn add(
    rows: &mut Vec<Row>,
    parent: usize,
    data_type: &DataType,
    field: Option<&Field>,
    union_id: u32,
    default: Option<&str>,
) {
    let at = rows.len();
    rows.push(Row {
        kind: kind(data_type),
        rows: 0,
        role: field.map_or(0, |field| if field.is_nullable() { 1 } else { 2 }),
        union_id,
        number: 0,
        scale: 0,
        name: field.map_or(Vec::new(), |field| field.name().clone().into_bytes()),
        home: match field {
            None => Some(0),
            Some(field) if Some(field.name().as_str()) == default => None,
            Some(_) => Some(1),
        },
        zone: Vec::new(),
        parent: parent as u32,
    });
    let item = Some(Field::LIST_FIELD_DEFAULT_NAME);
    match data_type {
        DataType::Timestamp(unit, zone) => {
            rows[at].number = time_unit(unit);
            rows[at].zone = zone
                .as_ref()
                .map_or(Vec::new(), |zone| zone.as_bytes().to_vec());
        }
        DataType::Time32(unit) | DataType::Time64(unit) | DataType::Duration(unit) => {
            rows[at].number = time_unit(unit);
        }
        DataType::Interval(unit) => {
            rows[at].number = match unit {
                IntervalUnit::YearMonth => 0,
                IntervalUnit::DayTime => 1,
                IntervalUnit::MonthDayNano => 2,
            }
        }
        DataType::FixedSizeBinary(length) => rows[at].number = *length as u32,
        DataType::Decimal32(precision, scale)
        | DataType::Decimal64(precision, scale)
        | DataType::Decimal128(precision, scale)
        | DataType::Decimal256(precision, scale) => {
            rows[at].number = u32::from(*precision);
            rows[at].scale = (i32::from(*scale) + 128) as u32;
        }
        DataType::List(field)
        | DataType::ListView(field)
        | DataType::LargeList(field)
        | DataType::LargeListView(field) => add(rows, at, field.data_type(), Some(field), 0, item),
        DataType::FixedSizeList(field, length) => {
            rows[at].number = *length as u32;
            add(rows, at, field.data_type(), Some(field), 0, item);
        }
        DataType::Struct(fields) => {
            for field in fields {
                add(rows, at, field.data_type(), Some(field), 0, None);
            }
        }
        DataType::Union(fields, mode) => {
            rows[at].number = match mode {
                UnionMode::Sparse => 0,
                UnionMode::Dense => 1,
            };
            for (id, field) in fields.iter() {
                add(rows, at, field.data_type(), Some(field), id as u32, None);
            }
        }
        DataType::Dictionary(key, value) => {
            add(rows, at, key, None, 0, None);
            add(rows, at, value, None, 0, None);
        }
        DataType::Map(field, sorted) => {
            rows[at].number = u32::from(*sorted);
            add(rows, at, field.data_type(), Some(field), 0, None);
        }
        DataType::RunEndEncoded(run_ends, values) => {
            // Only the short form leaves out names, and it leaves out both.
            let both = default_names(run_ends, values);
            let default = |name| both.then_some(name);
            let names = [
                Field::REE_RUN_ENDS_FIELD_DEFAULT_NAME,
                Field::REE_VALUES_FIELD_DEFAULT_NAME,
            ];
            add(
                rows,
                at,
                run_ends.data_type(),
                Some(run_ends),
                0,
                default(names[0]),
            );
            add(
                rows,
                at,
                values.data_type(),
                Some(values),
                0,
                default(names[1]),
            );
        }
        _ => {}
    }
    rows[at].rows = (rows.len() - at) as u32;
}

fn default_names(run_ends: &Field, values: &Field) -> bool {
    run_ends.name() == Field::REE_RUN_ENDS_FIELD_DEFAULT_NAME
        && values.name() == Field::REE_VALUES_FIELD_DEFAULT_NAME
}

fn time_unit(unit: &TimeUnit) -> u32 {
    match unit {
        TimeUnit::Second => 0,
        TimeUnit::Millisecond => 1,
        TimeUnit::Microsecond => 2,
        TimeUnit::Nanosecond => 3,
    }
}

pub fn kind(data_type: &DataType) -> u32 {
    match data_type {
        DataType::Null => 0,
        DataType::Boolean => 1,
        DataType::Int8 => 2,
        DataType::Int16 => 3,
        DataType::Int32 => 4,
        DataType::Int64 => 5,
        DataType::UInt8 => 6,
        DataType::UInt16 => 7,
        DataType::UInt32 => 8,
        DataType::UInt64 => 9,
        DataType::Float16 => 10,
        DataType::Float32 => 11,
        DataType::Float64 => 12,
        DataType::Timestamp(..) => 13,
        DataType::Date32 => 14,
        DataType::Date64 => 15,
        DataType::Time32(_) => 16,
        DataType::Time64(_) => 17,
        DataType::Duration(_) => 18,
        DataType::Interval(_) => 19,
        DataType::Binary => 20,
        DataType::FixedSizeBinary(_) => 21,
        DataType::LargeBinary => 22,
        DataType::BinaryView => 23,
        DataType::Utf8 => 24,
        DataType::LargeUtf8 => 25,
        DataType::Utf8View => 26,
        DataType::List(_) => 27,
        DataType::ListView(_) => 28,
        DataType::FixedSizeList(..) => 29,
        DataType::LargeList(_) => 30,
        DataType::LargeListView(_) => 31,
        DataType::Struct(_) => 32,
        DataType::Union(..) => 33,
        DataType::Dictionary(..) => 34,
        DataType::Decimal32(..) => 35,
        DataType::Decimal64(..) => 36,
        DataType::Decimal128(..) => 37,
        DataType::Decimal256(..) => 38,
        DataType::Map(..) => 39,
        DataType::RunEndEncoded(..) => 40,
    }
}

/// Levels of a tree; the root is 1.
pub fn depth(rows: &[Row]) -> usize {
    levels(rows).max().unwrap_or(0)
}

/// The level of each row.
pub fn levels(rows: &[Row]) -> impl Iterator<Item = usize> {
    let mut ends: Vec<usize> = Vec::new();
    rows.iter().enumerate().map(move |(at, row)| {
        while ends.last().is_some_and(|end| *end <= at) {
            ends.pop();
        }
        ends.push(at + row.rows as usize);
        ends.len()
    })
}

/// What the printer must answer where that many output bytes are lent: the Rust's text, with the
/// two refusals that the port adds.
pub fn print(data_type: &DataType, room: usize) -> Result<Vec<u8>, u32> {
    if above_latin(data_type) {
        return Err(refusal::NOT_LATIN);
    }
    let text = data_type.to_string();
    if text.len() > room.min(MOST_BYTES) {
        return Err(refusal::NO_ROOM);
    }
    Ok(text.into_bytes())
}

/// Whether a name or zone that prints in double quotes has a character above U+017F.
fn above_latin(data_type: &DataType) -> bool {
    let field = |field: &Field| !is_latin(field.name()) || above_latin(field.data_type());
    match data_type {
        DataType::Timestamp(_, Some(zone)) => !is_latin(zone),
        DataType::List(inner)
        | DataType::ListView(inner)
        | DataType::LargeList(inner)
        | DataType::LargeListView(inner)
        | DataType::FixedSizeList(inner, _) => above_latin(inner.data_type()),
        DataType::Struct(fields) => fields.iter().any(|inner| field(inner)),
        DataType::Union(fields, _) => fields.iter().any(|(_, inner)| field(inner)),
        DataType::Dictionary(key, value) => above_latin(key) || above_latin(value),
        DataType::Map(entries, _) => field(entries),
        DataType::RunEndEncoded(run_ends, values) => field(run_ends) || field(values),
        _ => false,
    }
}

/// Whether all characters are up to U+017F.
pub fn is_latin(text: &str) -> bool {
    text.chars().all(|character| character <= '\u{17f}')
}

/// The layout verdict: yes (`None`) or the first row that breaks a rule.
pub fn verdict(data_type: &DataType) -> Option<usize> {
    let mut broken = Vec::new();
    judge(data_type, &mut 0, &mut broken);
    broken.into_iter().min()
}

fn judge(data_type: &DataType, next: &mut usize, broken: &mut Vec<usize>) {
    *next += 1;
    match data_type {
        DataType::List(field)
        | DataType::ListView(field)
        | DataType::LargeList(field)
        | DataType::LargeListView(field)
        | DataType::FixedSizeList(field, _)
        | DataType::Map(field, _) => judge(field.data_type(), next, broken),
        DataType::Struct(fields) => {
            fields
                .iter()
                .for_each(|field| judge(field.data_type(), next, broken));
        }
        DataType::Union(fields, _) => {
            fields
                .iter()
                .for_each(|(_, field)| judge(field.data_type(), next, broken));
        }
        DataType::Dictionary(key, value) => {
            if !key.is_dictionary_key_type() {
                broken.push(*next);
            }
            judge(key, next, broken);
            judge(value, next, broken);
        }
        DataType::RunEndEncoded(run_ends, values) => {
            if !run_ends.data_type().is_run_ends_type() {
                broken.push(*next);
            }
            judge(run_ends.data_type(), next, broken);
            judge(values.data_type(), next, broken);
        }
        _ => {}
    }
}

/// Whether a type has the needed columns, as its own `Fields` find them: yes (`None`) or the first need that is not met.
/// Nothing for a type that is no Struct. The needs' names are inside their text.
pub fn needs(data_type: &DataType, needed: &Needed) -> Option<Option<usize>> {
    let DataType::Struct(fields) = data_type else {
        return None;
    };
    let is_met = |need: &Need| {
        let name = &needed.text[need.start as usize..][..need.size as usize];
        str::from_utf8(name).is_ok_and(|name| meets(fields, name, need))
    };
    Some(needed.needs.iter().position(|need| !is_met(need)))
}

fn meets(fields: &Fields, name: &str, need: &Need) -> bool {
    let Some((at, field)) = fields.find(name) else {
        return false;
    };
    let data_type = field.data_type();
    let alone = fields[at + 1..].iter().all(|other| other.name() != name);
    let row = &rows(data_type)[0];
    let zoned = matches!(data_type, DataType::Timestamp(_, Some(_)));
    alone
        && (row.kind, row.number, row.scale) == (need.kind, need.number, need.scale)
        && (need.nullable || !field.is_nullable())
        && zoned == need.zoned
}

/// A Struct without one of its `Fields`, counted from 0, or the number of the refusal.
pub fn take_out(data_type: &DataType, field: usize) -> Result<DataType, u32> {
    let DataType::Struct(fields) = data_type else {
        return Err(NOT_STRUCT);
    };
    fields.get(field).ok_or(NO_FIELD)?;
    let others = fields.iter().enumerate().filter(|(at, _)| *at != field);
    let others: Fields = others.map(|(_, other)| other.clone()).collect();
    Ok(DataType::Struct(others))
}

/// The Rust's type for a sound table.
pub fn data_type(text: &[u8], list: &[u8], words: &[u32]) -> DataType {
    let mut place = 0;
    let built = build(text, list, words, &mut place);
    assert_eq!(place, words.len(), "the table is not one tree");
    built
}

fn string(bytes: &[u8]) -> String {
    String::from_utf8(bytes.to_vec()).expect("names and zones are UTF-8")
}

fn build(text: &[u8], list: &[u8], words: &[u32], place: &mut usize) -> DataType {
    let row = model::Row::from_words(&words[*place..]);
    let end = *place + row.rows as usize * WORDS;
    *place += WORDS;
    // The children, with their rows.
    let mut fields = Vec::new();
    while *place < end {
        let child = model::Row::from_words(&words[*place..]);
        let name = string(model::row_name(text, list, &child));
        let data_type = build(text, list, words, place);
        fields.push((
            child.union_id as i8,
            Field::new(name, data_type, child.role == 1),
        ));
    }
    let (ids, fields): (Vec<i8>, Vec<Field>) = fields.into_iter().unzip();
    let mut children = fields.clone().into_iter().map(Arc::new);
    let mut child = || children.next().expect("a child");
    let unit = || {
        [
            TimeUnit::Second,
            TimeUnit::Millisecond,
            TimeUnit::Microsecond,
            TimeUnit::Nanosecond,
        ][row.number as usize]
    };
    let precision = || row.number as u8;
    let scale = || (row.scale as i32 - 128) as i8;
    match row.kind {
        0 => DataType::Null,
        1 => DataType::Boolean,
        2 => DataType::Int8,
        3 => DataType::Int16,
        4 => DataType::Int32,
        5 => DataType::Int64,
        6 => DataType::UInt8,
        7 => DataType::UInt16,
        8 => DataType::UInt32,
        9 => DataType::UInt64,
        10 => DataType::Float16,
        11 => DataType::Float32,
        12 => DataType::Float64,
        13 => {
            let zone = string(model::row_zone(text, &row));
            DataType::Timestamp(unit(), (!zone.is_empty()).then(|| zone.into()))
        }
        14 => DataType::Date32,
        15 => DataType::Date64,
        16 => DataType::Time32(unit()),
        17 => DataType::Time64(unit()),
        18 => DataType::Duration(unit()),
        19 => DataType::Interval(
            [
                IntervalUnit::YearMonth,
                IntervalUnit::DayTime,
                IntervalUnit::MonthDayNano,
            ][row.number as usize],
        ),
        20 => DataType::Binary,
        21 => DataType::FixedSizeBinary(row.number as i32),
        22 => DataType::LargeBinary,
        23 => DataType::BinaryView,
        24 => DataType::Utf8,
        25 => DataType::LargeUtf8,
        26 => DataType::Utf8View,
        27 => DataType::List(child()),
        28 => DataType::ListView(child()),
        29 => DataType::FixedSizeList(child(), row.number as i32),
        30 => DataType::LargeList(child()),
        31 => DataType::LargeListView(child()),
        32 => DataType::Struct(Fields::from(fields)),
        33 => DataType::Union(
            UnionFields::try_new(ids, fields).expect("distinct ids from 0"),
            [UnionMode::Sparse, UnionMode::Dense][row.number as usize],
        ),
        34 => {
            let types = [child(), child()].map(|field| Box::new(field.data_type().clone()));
            let [key, value] = types;
            DataType::Dictionary(key, value)
        }
        35 => DataType::Decimal32(precision(), scale()),
        36 => DataType::Decimal64(precision(), scale()),
        37 => DataType::Decimal128(precision(), scale()),
        38 => DataType::Decimal256(precision(), scale()),
        39 => DataType::Map(child(), row.number == 1),
        40 => DataType::RunEndEncoded(child(), child()),
        kind => unreachable!("kind {kind}"),
    }
}
