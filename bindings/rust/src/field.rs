//! A borrowed view of one row.

use crate::{Children, DataType, IntervalUnit, Kind, ROW_WORDS, TimeUnit, UnionMode, ffi};
use std::fmt;

/// Where the words of a row stand: document 01's row table, and the parent of document 02.
pub(crate) mod word {
    pub const KIND: usize = 0;
    pub const ROWS: usize = 1;
    pub const ROLE: usize = 2;
    pub const UNION_ID: usize = 3;
    pub const NUMBER: usize = 4;
    pub const SCALE: usize = 5;
    pub const HOME: usize = 6;
    pub const NAME_START: usize = 7;
    pub const NAME_LENGTH: usize = 8;
    pub const ZONE_START: usize = 9;
    pub const ZONE_LENGTH: usize = 10;
    pub const PARENT: usize = 11;
}

/// Word 6 of a field whose name stands in the text.
pub(crate) const IN_TEXT: u32 = 1;

/// One row of a type, borrowed from it: a field with its name, or a bare type, which has none (the root, and key and
/// value of a Dictionary).
///
/// ```
/// use arrow_types::{DataType, Kind, TimeUnit};
///
/// let row: DataType = r#"Struct("slot": non-null Timestamp(s, "CET"), "kwh": Decimal64(12, 3))"#.parse()?;
/// let slot = row.field("slot").unwrap();
/// assert_eq!(slot.kind(), Kind::Timestamp);
/// assert_eq!(slot.nullable(), Some(false));
/// assert_eq!(slot.time_unit(), Some(TimeUnit::Second));
/// assert_eq!(slot.zone(), Some("CET"));
///
/// let kwh = row.field("kwh").unwrap();
/// assert_eq!((kwh.precision(), kwh.scale()), (Some(12), Some(3)));
/// assert_eq!(kwh.zone(), None);
/// # Ok::<(), arrow_types::Error>(())
/// ```
#[derive(Clone, Copy)]
pub struct Field<'a> {
    data_type: &'a DataType,
    row: usize,
}

impl<'a> Field<'a> {
    /// The view of a row that the type has.
    pub(crate) fn new(data_type: &'a DataType, row: usize) -> Field<'a> {
        Field { data_type, row }
    }

    /// The view of another row of the type.
    pub(crate) fn at(self, row: usize) -> Field<'a> {
        Field::new(self.data_type, row)
    }

    /// The type that the row is one of.
    pub(crate) fn data_type(self) -> &'a DataType {
        self.data_type
    }

    pub(crate) fn word(self, at: usize) -> u32 {
        self.data_type.rows()[self.row * ROW_WORDS + at]
    }

    /// The words of the row and of all that it contains.
    pub(crate) fn words(self) -> &'a [u32] {
        &self.data_type.rows()[self.row * ROW_WORDS..self.end() * ROW_WORDS]
    }

    /// The row's place in the table, the root's being 0.
    pub fn row(self) -> usize {
        self.row
    }

    /// How many rows the field takes with all that it contains.
    pub fn row_count(self) -> usize {
        self.word(word::ROWS) as usize
    }

    /// What the type is.
    pub fn kind(self) -> Kind {
        Kind::from_number(self.word(word::KIND)).expect("a sound row is of some kind")
    }

    /// The field's name, borrowed; none for a bare type. It is never empty.
    pub fn name(self) -> Option<&'a str> {
        let name = ffi::name(
            self.data_type.text().as_bytes(),
            self.word(word::HOME),
            self.word(word::NAME_START),
            self.word(word::NAME_LENGTH),
        );
        let name = std::str::from_utf8(name).expect("the names of a sound tree are UTF-8");
        (!name.is_empty()).then_some(name)
    }

    /// A Timestamp's zone, borrowed; none if it has none. It is never empty.
    pub fn zone(self) -> Option<&'a str> {
        let zone = ffi::zone(
            self.data_type.text().as_bytes(),
            self.word(word::ZONE_START),
            self.word(word::ZONE_LENGTH),
        )?;
        Some(std::str::from_utf8(zone).expect("the zones of a sound tree are UTF-8"))
    }

    /// Whether the field may be null; none for a bare type.
    pub fn nullable(self) -> Option<bool> {
        match self.word(word::ROLE) {
            0 => None,
            role => Some(role == 1),
        }
    }

    /// The unit of a Timestamp, Time32, Time64 or Duration.
    pub fn time_unit(self) -> Option<TimeUnit> {
        use Kind::{Duration, Time32, Time64, Timestamp};
        let timed = matches!(self.kind(), Timestamp | Time32 | Time64 | Duration);
        timed.then(|| TimeUnit::ALL[self.number()])
    }

    /// The unit of an Interval.
    pub fn interval_unit(self) -> Option<IntervalUnit> {
        let interval = self.kind() == Kind::Interval;
        interval.then(|| IntervalUnit::ALL[self.number()])
    }

    /// The length of a FixedSizeBinary or FixedSizeList, at most 2,147,483,647.
    pub fn length(self) -> Option<u32> {
        let sized = matches!(self.kind(), Kind::FixedSizeBinary | Kind::FixedSizeList);
        sized.then(|| self.word(word::NUMBER))
    }

    /// The precision of a decimal.
    pub fn precision(self) -> Option<u8> {
        let decimal = self.kind().is_decimal();
        decimal.then(|| u8::try_from(self.number()).expect("a sound precision is at most 76"))
    }

    /// The scale of a decimal.
    pub fn scale(self) -> Option<i8> {
        let scale = i64::from(self.word(word::SCALE)) - 128;
        let decimal = self.kind().is_decimal();
        decimal.then(|| i8::try_from(scale).expect("a sound scale is at most 127"))
    }

    /// The mode of a Union.
    pub fn union_mode(self) -> Option<UnionMode> {
        (self.kind() == Kind::Union).then(|| UnionMode::ALL[self.number()])
    }

    /// Whether the keys of a Map are sorted.
    pub fn keys_sorted(self) -> Option<bool> {
        (self.kind() == Kind::Map).then(|| self.number() == 1)
    }

    /// The id of a field of a Union, 0 to 127.
    pub fn union_id(self) -> Option<i8> {
        let parent = self.parent()?;
        let id = self.word(word::UNION_ID);
        (parent.kind() == Kind::Union).then(|| i8::try_from(id).expect("a sound id is at most 127"))
    }

    /// Word 4: a unit, a precision, a mode, or sorted.
    fn number(self) -> usize {
        self.word(word::NUMBER) as usize
    }

    /// What contains the field, as its row says; none for the root.
    ///
    /// ```
    /// use arrow_types::DataType;
    ///
    /// let row: DataType = r#"Struct("tags": List(Utf8), "id": Int32)"#.parse()?;
    /// let tag = row.field("tags").unwrap().children().next().unwrap();
    /// let path: Vec<_> = std::iter::successors(Some(tag), |field| field.parent()).map(|field| field.row()).collect();
    /// assert_eq!(path, [2, 1, 0]);
    /// assert!(row.root().parent().is_none());
    /// # Ok::<(), arrow_types::Error>(())
    /// ```
    pub fn parent(self) -> Option<Field<'a>> {
        let parent = self.word(word::PARENT) as usize;
        (self.row > 0).then(|| self.at(parent))
    }

    /// The row behind all that the field contains.
    pub(crate) fn end(self) -> usize {
        self.row + self.row_count()
    }

    /// What the type contains, in order: fields, or key and value of a Dictionary.
    ///
    /// ```
    /// use arrow_types::DataType;
    ///
    /// let row: DataType = r#"Struct("id": Int32, "at": Timestamp(s), "tags": List(Utf8))"#.parse()?;
    /// let names: Vec<_> = row.root().children().filter_map(|field| field.name()).collect();
    /// assert_eq!(names, ["id", "at", "tags"]);
    /// # Ok::<(), arrow_types::Error>(())
    /// ```
    pub fn children(self) -> Children<'a> {
        Children::of(self)
    }

    /// The first child with a name. Equal names are no fault in a type.
    pub fn child(self, name: &str) -> Option<Field<'a>> {
        self.children().find(|child| child.name() == Some(name))
    }

    /// The field and all that it contains, in the order of the rows.
    pub fn subtree(self) -> impl Iterator<Item = Field<'a>> {
        (self.row..self.end()).map(move |row| self.at(row))
    }
}

impl fmt::Debug for Field<'_> {
    fn fmt(&self, formatter: &mut fmt::Formatter<'_>) -> fmt::Result {
        let mut shown = formatter.debug_struct("Field");
        shown.field("row", &self.row).field("kind", &self.kind());
        shown.field("name", &self.name()).finish_non_exhaustive()
    }
}
