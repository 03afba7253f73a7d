//! Taking a column out (document 02, [12]) in plain Rust, from the request's text alone: what stays of a tree, with its names
//! and zones packed. `model` has the rest of the documents, `needs` the number 25.

use crate::model::{self, MOST_BYTES, Row, kind, refusal};
use crate::needs::{NOT_STRUCT, Table};
use std::ops::Range;

/// The numbers that this request adds.
pub const NO_ROOM: u32 = 28;
pub const NO_FIELD: u32 = 29;

/// Row count and packed length, or the number of the refusal.
pub type Answer = Result<(usize, usize), u32>;

/// What stays of a tree: its words over a text of its own.
#[derive(Clone, Debug, PartialEq, Eq)]
pub struct Left {
    pub words: Vec<u32>,
    pub text: Vec<u8>,
}

impl Left {
    /// Whether so many lent words have room for the rows.
    pub fn rows_fit(&self, words: usize) -> bool {
        self.words.len() <= words
    }

    /// Whether so many lent bytes have room for names and zones, which may be 16,384 bytes at the most.
    pub fn text_fits(&self, bytes: usize) -> bool {
        self.text.len() <= bytes.min(MOST_BYTES)
    }
}

/// What stays of a tree without a field of its root, whatever is lent, or the number of the refusal.
pub fn left((text, list, words): Table, field: usize) -> Result<Left, u32> {
    if !model::sound(text, list, words) {
        return Err(refusal::NOT_SOUND);
    }
    let rows = model::from_words(words);
    if rows[0].kind != kind::STRUCT {
        return Err(NOT_STRUCT);
    }
    let gap = rows_of(&rows, field).ok_or(NO_FIELD)?;
    let mut rows = without(&rows, gap);
    let text = pack(text, list, &mut rows);
    let words = model::with_parents(&model::to_words(&rows));
    Ok(Left { words, text })
}

/// The rows of a field of the root, counted from 0.
pub fn rows_of(rows: &[Row], field: usize) -> Option<Range<usize>> {
    let mut start = 1;
    for _ in 0..field {
        start += rows.get(start)?.rows as usize;
    }
    let end = start + rows.get(start)?.rows as usize;
    Some(start..end)
}

/// The rows but for the gap, of which the root no longer counts those in the gap.
pub fn without(rows: &[Row], gap: Range<usize>) -> Vec<Row> {
    let mut left = [&rows[..gap.start], &rows[gap.end..]].concat();
    left[0].rows -= gap.len() as u32;
    left
}

/// Names and zones in row order, each name before its row's zone, to which the rows are turned.
fn pack(text: &[u8], list: &[u8], rows: &mut [Row]) -> Vec<u8> {
    let mut packed = Vec::new();
    for row in rows {
        let name = model::row_name(text, list, row);
        let zone = model::row_zone(text, row);
        if !name.is_empty() {
            row.home = 1;
            row.name_start = packed.len() as u32;
            packed.extend(name);
        }
        if !zone.is_empty() {
            row.zone_start = packed.len() as u32;
            packed.extend(zone);
        }
    }
    packed
}

/// What may come of taking a column out, as a run counts it.
#[rustfmt::skip]
pub const OUTCOMES: [&str; 12] = [
    "the only field", "the first of several", "the last of several", "one between",
    "17", "25", "29, one past the last", "29, another",
    "28 for rows alone", "28 for text alone", "28 for both", "28 for text, 16,384 bytes or more lent",
];

/// Which of `OUTCOMES` comes where so many words and bytes are lent; the root has so many fields.
pub fn outcome(
    left: &Result<Left, u32>,
    (field, fields): (usize, usize),
    (words, bytes): (usize, usize),
) -> usize {
    match left {
        Err(refusal::NOT_SOUND) => 4,
        Err(NOT_STRUCT) => 5,
        Err(_) => 6 + usize::from(field > fields),
        Ok(left) => match (left.rows_fit(words), left.text_fits(bytes)) {
            (true, true) if fields == 1 => 0,
            (true, true) if field == 0 => 1,
            (true, true) if field + 1 == fields => 2,
            (true, true) => 3,
            (false, true) => 8,
            (true, false) if bytes >= MOST_BYTES => 11,
            (true, false) => 9,
            (false, false) => 10,
        },
    }
}
