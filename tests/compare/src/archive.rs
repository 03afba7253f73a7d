//! The archive record (docs/SCOPE.md) in plain Rust, from the customer's request alone: a tree's image written and read again,
//! by recursion over the records. `model` has the rest of the documents, `column_out` the number 28.

use crate::column_out::NO_ROOM;
use crate::model::{
    self, MOST_BYTES, MOST_LEVELS, MOST_ROWS, NAME_LIST, Row, WORDS, kind, refusal,
};
use crate::needs::Table;

/// The bytes of a record that has no name, no zone and no children.
pub const FIXED_BYTES: usize = 17;

/// The numbers that this request adds.
pub const WRONG_LENGTH: u32 = 30;
pub const UNKNOWN_KIND: u32 = 31;

/// The image's length, or the number of the refusal.
pub type Written = Result<usize, u32>;

/// Row count and packed length, or the number of the refusal.
pub type Answer = Result<(usize, usize), u32>;

// Writing

/// The image of a tree, whatever is lent, or the number of the refusal.
pub fn image((text, list, words): Table) -> Result<Vec<u8>, u32> {
    if !model::sound(text, list, words) {
        return Err(refusal::NOT_SOUND);
    }
    let mut image = Vec::new();
    write(text, list, &model::from_words(words), &mut image);
    Ok(image)
}

/// Writes the record of the first of some rows, which are its subtree.
fn write(text: &[u8], list: &[u8], rows: &[Row], out: &mut Vec<u8>) {
    let (row, mut below) = rows.split_first().expect("a row");
    let start = out.len();
    out.extend([0; 4]);
    out.extend((row.kind as u16).to_le_bytes());
    out.extend([row.role as u8, row.union_id as u8]);
    out.extend(row.number.to_le_bytes());
    out.push(row.scale as u8);
    for part in [model::row_name(text, list, row), model::row_zone(text, row)] {
        out.extend((part.len() as u16).to_le_bytes());
        out.extend(part);
    }
    while let Some(child) = below.first() {
        let (child, behind) = below.split_at(child.rows as usize);
        write(text, list, child, out);
        below = behind;
    }
    let length = (out.len() - start) as u32;
    out[start..start + 4].copy_from_slice(&length.to_le_bytes());
}

// Reading

/// Why an image is refused, each with its number: first those of a record in the order in which they are judged, then those
/// of an image that is whole.
#[derive(Clone, Copy, Debug, PartialEq, Eq)]
pub enum Cause {
    /// The image has fewer than four bytes.
    NoLength,
    /// One to three bytes are left in a record.
    LengthNotWhole,
    TooShort,
    PastImage,
    /// A record ends past its parent and inside the image.
    PastParent,
    PastParentAndImage,
    /// The kind's low byte is above 40.
    Kind,
    /// Its high byte alone makes it no kind.
    KindHighByte,
    /// As either of the two, and no row is left.
    KindWithNoRow,
    NoRow,
    RowOver1024,
    NamePastRecord,
    NameRoom,
    NameOver16384,
    /// The name leaves fewer than two bytes of the record.
    ZoneLengthNotWhole,
    ZonePastRecord,
    ZoneRoom,
    ZoneOver16384,
    BehindRoot,
    /// The same, of a tree that is not sound.
    BehindUnsoundRoot,
    TooDeep,
    LeafWithChildren,
    ChildCount,
    Role,
    UnionId,
    NamedRoot,
    /// A dictionary's key or value has a name.
    NamedBare,
    EmptyName,
    Numbers,
    ZoneOffTimestamp,
    NotUtf8,
    /// A name or a zone is not UTF-8 by itself, but the packed text is.
    HalfCharacter,
    /// What Map's entries and key and the run ends must be.
    Children,
}

impl Cause {
    pub fn number(self) -> u32 {
        use Cause::*;
        match self {
            NoLength | LengthNotWhole | TooShort | PastImage | PastParent | PastParentAndImage
            | NamePastRecord | ZoneLengthNotWhole | ZonePastRecord | BehindRoot
            | BehindUnsoundRoot => WRONG_LENGTH,
            Kind | KindHighByte | KindWithNoRow => UNKNOWN_KIND,
            NoRow | RowOver1024 | NameRoom | NameOver16384 | ZoneRoom | ZoneOver16384 => NO_ROOM,
            _ => refusal::NOT_SOUND,
        }
    }
}

/// What an image is read into, or how far it was read.
#[derive(Clone, Debug, Default, PartialEq, Eq)]
pub struct Read {
    pub rows: Vec<Row>,
    pub text: Vec<u8>,
    /// Whether more levels than 64 were met.
    pub deep: bool,
}

impl Read {
    pub fn words(&self) -> Vec<u32> {
        model::to_words(&self.rows)
    }
}

/// Reads an image where so many words and bytes are lent: how far it was read, and why no further.
pub fn read(image: &[u8], (words, bytes): (usize, usize)) -> (Read, Option<Cause>) {
    let mut reader = Reader {
        image,
        lent: (words / WORDS, bytes),
        read: Read::default(),
    };
    let cause = reader.tree().err();
    (reader.read, cause)
}

struct Reader<'a> {
    image: &'a [u8],
    /// Whole rows, and bytes.
    lent: (usize, usize),
    read: Read,
}

impl Reader<'_> {
    /// The root with all below it, then what stands behind it, then soundness.
    fn tree(&mut self) -> Result<(), Cause> {
        let end = self.record(0, self.image.len(), 1, None)?;
        let unsound = unsound(&self.read);
        if end < self.image.len() {
            return Err(match unsound {
                Some(_) => Cause::BehindUnsoundRoot,
                None => Cause::BehindRoot,
            });
        }
        unsound.map_or(Ok(()), Err)
    }

    /// A number of so many bytes at a place, if they stand before the end.
    fn number(&self, at: usize, size: usize, end: usize) -> Option<usize> {
        let bytes = (at + size <= end).then(|| &self.image[at..at + size])?;
        let digits = bytes.iter().rev();
        Some(digits.fold(0, |number, byte| number << 8 | usize::from(*byte)))
    }

    /// Reads the record at a place, which may reach to `limit`, with those below it; answers where it ends.
    fn record(
        &mut self,
        at: usize,
        limit: usize,
        level: usize,
        parent: Option<usize>,
    ) -> Result<usize, Cause> {
        let end = self.end(at, limit, parent.is_none())?;
        let kind = self.kind(at)?;
        let row = self.row()?;
        let number = |at, size| self.number(at, size, end).expect("the fixed bytes") as u32;
        let mut new = Row {
            kind,
            role: number(at + 6, 1),
            union_id: number(at + 7, 1),
            number: number(at + 8, 4),
            scale: number(at + 12, 1),
            parent: parent.unwrap_or(0) as u32,
            ..Row::default()
        };
        self.read.rows.push(new);
        self.read.deep |= level > MOST_LEVELS;
        let name = [Cause::NamePastRecord, Cause::NameRoom, Cause::NameOver16384];
        let (start, length, at) = self.string(at + 13, end, name)?;
        if length > 0 {
            (new.home, new.name_start, new.name_length) = (1, start, length);
        }
        let zone = [Cause::ZonePastRecord, Cause::ZoneRoom, Cause::ZoneOver16384];
        let (start, length, mut at) = self.string(at, end, zone)?;
        if length > 0 {
            (new.zone_start, new.zone_length) = (start, length);
        }
        while at < end {
            at = self.record(at, end, level + 1, Some(row))?;
        }
        new.rows = (self.read.rows.len() - row) as u32;
        self.read.rows[row] = new;
        Ok(end)
    }

    /// Where the record at a place ends.
    fn end(&self, at: usize, limit: usize, root: bool) -> Result<usize, Cause> {
        let short = if root {
            Cause::NoLength
        } else {
            Cause::LengthNotWhole
        };
        let length = self.number(at, 4, limit).ok_or(short)?;
        if length < FIXED_BYTES {
            return Err(Cause::TooShort);
        }
        let end = at + length;
        match (end <= limit, root, end <= self.image.len()) {
            (true, _, _) => Ok(end),
            (_, true, _) => Err(Cause::PastImage),
            (_, _, true) => Err(Cause::PastParent),
            _ => Err(Cause::PastParentAndImage),
        }
    }

    /// How many rows may be filled.
    fn most_rows(&self) -> usize {
        self.lent.0.min(MOST_ROWS)
    }

    fn kind(&self, at: usize) -> Result<u32, Cause> {
        let kind = self.number(at + 4, 2, self.image.len()).expect("a kind") as u32;
        if kind <= kind::RUN_END_ENCODED {
            return Ok(kind);
        }
        Err(if self.read.rows.len() == self.most_rows() {
            Cause::KindWithNoRow
        } else if kind & 0xff <= kind::RUN_END_ENCODED {
            Cause::KindHighByte
        } else {
            Cause::Kind
        })
    }

    /// The next row's number, if there is room for it.
    fn row(&self) -> Result<usize, Cause> {
        let row = self.read.rows.len();
        if row < self.most_rows() {
            return Ok(row);
        }
        Err(if row < MOST_ROWS {
            Cause::NoRow
        } else {
            Cause::RowOver1024
        })
    }

    /// Packs the name or the zone behind its length at a place: where it starts in the text, its length, and the place
    /// behind it. The causes: it ends past the record, it has no room in the bytes lent, or in 16,384.
    fn string(
        &mut self,
        at: usize,
        end: usize,
        [past, room, over]: [Cause; 3],
    ) -> Result<(u32, u32, usize), Cause> {
        let length = self.number(at, 2, end).ok_or(Cause::ZoneLengthNotWhole)?;
        let at = at + 2;
        if at + length > end {
            return Err(past);
        }
        let start = self.read.text.len();
        if start + length > MOST_BYTES {
            return Err(over);
        }
        if start + length > self.lent.1 {
            return Err(room);
        }
        self.read.text.extend(&self.image[at..at + length]);
        Ok((start as u32, length as u32, at + length))
    }
}

/// Why what was read is no sound tree, by the first cause in their order; none if it is one.
fn unsound(read: &Read) -> Option<Cause> {
    if model::sound(&read.text, NAME_LIST, &read.words()) {
        return None;
    }
    let causes = (0..read.rows.len()).flat_map(|at| causes(read, at));
    let first = causes.min_by_key(|cause| *cause as usize);
    Some(first.unwrap_or(Cause::Children))
}

/// What is wrong with a row that was read, but for what the children of some kinds must be.
fn causes(read: &Read, at: usize) -> Vec<Cause> {
    let Read { rows, text, deep } = read;
    let row = &rows[at];
    let above = above(rows, at);
    let bare = above.is_none_or(|kind| kind == kind::DICTIONARY);
    let role_fits = if bare {
        row.role == 0
    } else {
        (1..=2).contains(&row.role)
    };
    let below = rows[1..].iter().filter(|other| other.parent as usize == at);
    let children = below.count();
    let wanted = child_count(row.kind);
    let parts = [model::row_name(text, &[], row), model::row_zone(text, row)];
    let faults = [
        (Cause::TooDeep, *deep),
        (Cause::LeafWithChildren, wanted == Some(0) && children > 0),
        (
            Cause::ChildCount,
            wanted.is_some_and(|count| count != children),
        ),
        (Cause::Role, !role_fits),
        (Cause::UnionId, !union_id_fits(rows, at)),
        (Cause::NamedRoot, above.is_none() && row.home != 0),
        (Cause::NamedBare, bare && row.home != 0),
        (Cause::EmptyName, !bare && row.home == 0),
        (Cause::Numbers, !model::numbers(row)),
        (
            Cause::ZoneOffTimestamp,
            row.zone_length > 0 && row.kind != kind::TIMESTAMP,
        ),
        (Cause::NotUtf8, str::from_utf8(text).is_err()),
        (
            Cause::HalfCharacter,
            parts.iter().any(|part| str::from_utf8(part).is_err()),
        ),
    ];
    let faults = faults.into_iter().filter(|(_, faulty)| *faulty);
    faults.map(|(cause, _)| cause).collect()
}

/// The kind of the row that a row stands under; none for the root.
fn above(rows: &[Row], at: usize) -> Option<u32> {
    (at > 0).then(|| rows[rows[at].parent as usize].kind)
}

/// How many children a kind has, if it says so.
fn child_count(kind: u32) -> Option<usize> {
    match kind {
        kind::LIST..=kind::LARGE_LIST_VIEW | kind::MAP => Some(1),
        kind::DICTIONARY | kind::RUN_END_ENCODED => Some(2),
        kind::STRUCT | kind::UNION => None,
        _ => Some(0),
    }
}

/// A Union's field has an id of 0 to 127 of its own, and any other row has 0.
fn union_id_fits(rows: &[Row], at: usize) -> bool {
    let row = &rows[at];
    if above(rows, at) != Some(kind::UNION) {
        return row.union_id == 0;
    }
    let mut before = rows[1..at].iter();
    let used = before.any(|other| (other.parent, other.union_id) == (row.parent, row.union_id));
    row.union_id <= 127 && !used
}

// Outcomes

/// What may come of writing, as a run counts it.
pub const WRITTEN: [&str; 6] = [
    "written, just enough bytes lent",
    "written, more lent",
    "17",
    "17, no byte lent",
    "28, a byte short",
    "28, more bytes short",
];

/// Which of `WRITTEN` comes where so many bytes are lent.
pub fn written(image: &Result<Vec<u8>, u32>, bytes: usize) -> usize {
    match image {
        Ok(image) if image.len() == bytes => 0,
        Ok(image) if image.len() < bytes => 1,
        Ok(image) if image.len() == bytes + 1 => 4,
        Ok(_) => 5,
        Err(_) => 2 + usize::from(bytes == 0),
    }
}

/// What may come of reading: it is read, or the causes in their order, or a number where more than 64 levels were met before.
#[rustfmt::skip]
pub const READ: [&str; 42] = [
    "read, just enough words and bytes lent", "read, more lent",
    "read, an image of a tree that was changed", "read, 1,024 rows", "read, 64 levels",
    "30, the image has no whole length", "30, one to three bytes left in a record", "30, shorter than 17 bytes",
    "30, past the image", "30, past its parent and inside the image", "30, past its parent and the image",
    "31, the low byte", "31, the high byte alone", "31, with no row left",
    "28, no row is left of those lent", "28, row 1,025",
    "30, the name past its record", "28, the name past the bytes lent", "28, the name past 16,384 bytes",
    "30, the zone's length not whole", "30, the zone past its record",
    "28, the zone past the bytes lent", "28, the zone past 16,384 bytes",
    "30, bytes behind the root", "30, bytes behind a root that is not sound",
    "17, more than 64 levels", "17, a leaf with children", "17, another count of children", "17, a role",
    "17, a union id", "17, a named root", "17, a named key or value", "17, a field without a name",
    "17, a number out of its range", "17, a zone off a Timestamp", "17, not UTF-8",
    "17, half a character in a name or zone", "17, Map's entries or key, or run ends",
    "30 behind more than 64 levels", "31 behind more than 64 levels", "28 behind more than 64 levels",
    "17, more than 1,000 levels",
];

/// Where the causes begin in `READ`.
const CAUSES: usize = 5;

/// Which of `READ` come where so many words and bytes are lent; `changed` is whether the image is not one that was written.
pub fn outcomes(
    (read, cause): &(Read, Option<Cause>),
    (words, bytes): (usize, usize),
    changed: bool,
) -> Vec<usize> {
    let deepest = || model::depth(&read.rows);
    let Some(cause) = *cause else {
        let just = (read.rows.len() * WORDS, read.text.len()) == (words, bytes);
        let more = [
            (changed, 2),
            (read.rows.len() == MOST_ROWS, 3),
            (deepest() == MOST_LEVELS, 4),
        ];
        let more = more.iter().filter(|(came, _)| *came).map(|(_, at)| *at);
        return [usize::from(!just)].into_iter().chain(more).collect();
    };
    let mut came = vec![CAUSES + cause as usize];
    match cause.number() {
        _ if !read.deep => {}
        WRONG_LENGTH => came.push(38),
        UNKNOWN_KIND => came.push(39),
        NO_ROOM => came.push(40),
        _ if deepest() > 1_000 => came.push(41),
        _ => {}
    }
    came
}
