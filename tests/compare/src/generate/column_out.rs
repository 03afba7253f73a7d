//! Fields to take out, buffers to lend for what stays, and Structs whose packed names are about 16,384 bytes.

use super::Random;
use super::trees::{self, Letters, Tree};
use crate::column_out::Left;
use crate::model::{MOST_BYTES, MOST_ROWS, Row, WORDS, kind};

/// A field of a root that has so many: the first, the last, any, one past the last, or a huge one.
pub fn field(random: &mut Random, fields: usize) -> usize {
    match random.below(12) {
        0 | 1 => 0,
        2 | 3 => fields.saturating_sub(1),
        4 => fields,
        5 => fields + random.between(1, 100),
        // What 32 bits hold of it is a field.
        6 => (random.between(1, 3) << 32) + random.below(fields + 1),
        7 => usize::MAX - random.below(3),
        _ => random.below(fields.max(1)),
    }
}

/// How many words and bytes to lend: just enough, a row, a word or a byte short, any fewer, or more.
pub fn rooms(random: &mut Random, left: Option<&Left>) -> (usize, usize) {
    let (words, bytes) = left.map_or((36, 9), |left| (left.words.len(), left.text.len()));
    let words = match random.below(16) {
        0 => words.saturating_sub(1),
        1 => words.saturating_sub(WORDS),
        2 => random.below(words + 1),
        3..=7 => words + random.between(1, 30),
        8 if random.one_in(8) => MOST_ROWS * WORDS + random.below(30),
        _ => words,
    };
    let bytes = match random.below(16) {
        0 | 1 => bytes.saturating_sub(1),
        2 => random.below(bytes + 1),
        3..=7 => bytes + random.between(1, 40),
        8 if random.one_in(8) => MOST_BYTES + random.below(9_000),
        9 if bytes > MOST_BYTES => MOST_BYTES,
        _ => bytes,
    };
    (words, bytes)
}

/// A Struct whose names and zones, but for the first field's, are together as many bytes as 16,384, or a few more or fewer.
pub fn long_names(random: &mut Random) -> Tree {
    let length = random.between(2_000, MOST_BYTES);
    let mut text = trees::text(random, Letters::Ascii, length);
    text.truncate(MOST_BYTES);
    let mut rows = vec![Row {
        kind: kind::STRUCT,
        ..Row::default()
    }];
    let first = random.between(1, text.len());
    rows.push(named(random, &text, first));
    let mut rest = random.between(MOST_BYTES - 2, MOST_BYTES + 3);
    while rest > 0 {
        let length = random.between(1, rest.min(text.len()));
        rest -= length;
        let mut row = named(random, &text, length);
        if rest > 0 && random.one_in(2) {
            row.zone_length = random.between(1, rest.min(text.len())) as u32;
            row.zone_start = random.below(text.len() - row.zone_length as usize + 1) as u32;
            row.kind = kind::TIMESTAMP;
            rest -= row.zone_length as usize;
        }
        rows.push(row);
    }
    rows[0].rows = rows.len() as u32;
    trees::tree(text.as_bytes(), &rows)
}

/// A field whose name is any part of the text that has this length.
fn named(random: &mut Random, text: &str, length: usize) -> Row {
    Row {
        kind: kind::INT8,
        rows: 1,
        role: random.between(1, 2) as u32,
        home: 1,
        name_start: random.below(text.len() - length + 1) as u32,
        name_length: length as u32,
        ..Row::default()
    }
}
