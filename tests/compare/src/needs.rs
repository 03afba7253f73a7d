//! The slot file's own check (document 02, [7]) in plain Rust, from the request's text alone: whether a tree has the columns
//! that are needed. `model` has the rest of the documents.

use crate::model::{self, Row, kind, refusal};

/// The most needs that are checked at once.
pub const MOST_NEEDS: usize = 32;

/// The numbers that this check adds.
pub const NOT_STRUCT: u32 = 25;
pub const TOO_MANY: u32 = 26;
pub const WRONG_NAME: u32 = 27;

/// A column that is needed, laid out as the port takes it.
#[repr(C)]
#[derive(Clone, Copy, Debug, PartialEq, Eq)]
pub struct Need {
    /// The name's first byte and its length, in the text of needs.
    pub start: u32,
    pub size: u32,
    pub kind: u32,
    /// Word 4.
    pub number: u32,
    /// Word 5: scale plus 128.
    pub scale: u32,
    /// Whether null is allowed.
    pub nullable: bool,
    /// Whether a zone must stand.
    pub zoned: bool,
}

impl Need {
    /// The need's name; none where it is empty or not inside the text.
    pub fn name(self, text: &[u8]) -> Option<&[u8]> {
        let start = self.start as usize;
        let name = text.get(start..start + self.size as usize)?;
        (!name.is_empty()).then_some(name)
    }
}

/// Why a need is not met, in the request's order.
#[derive(Clone, Copy, Debug, PartialEq, Eq)]
pub enum Unmet {
    NoField,
    SeveralFields,
    Kind,
    Number,
    Scale,
    Null,
    ZoneMissing,
    ZoneUnasked,
}

/// What is needed of a tree: the needs, and the text that has their names.
#[derive(Clone, Debug)]
pub struct Needed {
    pub text: Vec<u8>,
    pub needs: Vec<Need>,
}

/// A tree's text, name list and words.
pub type Table<'a> = (&'a [u8], &'a [u8], &'a [u32]);

/// Yes (`None`) or the first need that is not met, from 0; or the number of the refusal.
pub type Answer = Result<Option<usize>, u32>;

/// Whether a tree has the columns that are needed.
pub fn needs((text, list, words): Table, needed: &Needed) -> Answer {
    if !model::sound(text, list, words) {
        return Err(refusal::NOT_SOUND);
    }
    let rows = model::from_words(words);
    if rows[0].kind != kind::STRUCT {
        return Err(NOT_STRUCT);
    }
    if needed.needs.len() > MOST_NEEDS {
        return Err(TOO_MANY);
    }
    let names: Option<Vec<&[u8]>> = names(needed).collect();
    let names = names.ok_or(WRONG_NAME)?;
    let fields = fields(text, list, &rows);
    let mut pairs = names.iter().zip(&needed.needs);
    Ok(pairs.position(|(name, need)| unmet(&fields, name, need).is_some()))
}

/// The needs' names, none for each that is wrong.
pub fn names(needed: &Needed) -> impl Iterator<Item = Option<&[u8]>> {
    needed.needs.iter().map(|need| need.name(&needed.text))
}

/// A field of the root: its name and its row.
pub type Named<'a> = (&'a [u8], Row);

/// The root's fields of a table, which may be unsound.
pub fn fields<'a>(text: &'a [u8], list: &'a [u8], rows: &[Row]) -> Vec<Named<'a>> {
    let mut fields = Vec::new();
    let mut at = 1;
    while let Some(row) = rows.get(at) {
        fields.push((model::row_name(text, list, row), *row));
        at += row.rows.max(1) as usize;
    }
    fields
}

/// Why the fields do not meet a need of this name; none if they do.
pub fn unmet(fields: &[Named], name: &[u8], need: &Need) -> Option<Unmet> {
    let mut found = fields.iter().filter(|(other, _)| *other == name);
    let Some((_, row)) = found.next() else {
        return Some(Unmet::NoField);
    };
    if found.next().is_some() {
        return Some(Unmet::SeveralFields);
    }
    differs(row, need)
}

/// Why a row is not as a need wants it; none if it is.
pub fn differs(row: &Row, need: &Need) -> Option<Unmet> {
    let non_null = row.role == 2;
    let zoned = row.zone_length > 0;
    let faults = [
        (row.kind != need.kind, Unmet::Kind),
        (row.number != need.number, Unmet::Number),
        (row.scale != need.scale, Unmet::Scale),
        (!non_null && !need.nullable, Unmet::Null),
        (need.zoned && !zoned, Unmet::ZoneMissing),
        (zoned && !need.zoned, Unmet::ZoneUnasked),
    ];
    let first = faults.iter().find(|(faulty, _)| *faulty);
    first.map(|(_, unmet)| *unmet)
}

/// What may come of a check, as a run counts it.
#[rustfmt::skip]
pub const OUTCOMES: [&str; 16] = [
    "yes, with no needs", "yes, with 1 to 31", "yes, with 32",
    "not met: no field of the name", "not met: several fields of the name", "not met: another kind",
    "not met: another number in word 4", "not met: another number in word 5", "not met: null",
    "not met: no zone", "not met: a zone that is not asked for",
    "17", "25", "26", "27", "27, behind a need that is not met",
];

/// Which of `OUTCOMES` an answer of `needs` is.
pub fn outcome((text, list, words): Table, needed: &Needed, answer: Answer) -> usize {
    let fields = fields(text, list, &model::from_words(words));
    let unmet = |at: usize, name: &[u8]| unmet(&fields, name, &needed.needs[at]);
    match answer {
        Ok(None) => match needed.needs.len() {
            0 => 0,
            MOST_NEEDS => 2,
            _ => 1,
        },
        Ok(Some(at)) => {
            let name = needed.needs[at].name(&needed.text);
            let unmet = name.and_then(|name| unmet(at, name));
            3 + unmet.expect("a need that is not met") as usize
        }
        Err(refusal::NOT_SOUND) => 11,
        Err(NOT_STRUCT) => 12,
        Err(TOO_MANY) => 13,
        Err(_) => {
            let before = names(needed).map_while(|name| name).enumerate();
            let mut before = before.map(|(at, name)| unmet(at, name));
            14 + usize::from(before.any(|unmet| unmet.is_some()))
        }
    }
}
