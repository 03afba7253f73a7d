//! The columns that a caller needs, and whether a type has them.

use crate::field::word;
use crate::{DataType, Error, Field, IntervalUnit, Kind, MAX_NEEDS, MAX_TEXT};
use crate::{TimeUnit, UnionMode, ffi};

/// A column that is needed: its name and kind with the numbers that belong to it, whether null is allowed, and whether a
/// zone must stand. What a field contains is not asked for.
///
/// Null is not allowed unless [`null_allowed`](Need::null_allowed) says so, and no zone may stand unless
/// [`with_zone`](Need::with_zone) says that one must. A need borrows its name and may be a constant.
///
/// ```
/// use arrow_types::{DataType, Error, Kind, Need, TimeUnit};
///
/// const SLOT_FILE: [Need; 3] = [
///     Need::timestamp("slot", TimeUnit::Second).with_zone(),
///     Need::decimal64("kwh", 12, 3).null_allowed(),
///     Need::of("meter", Kind::Utf8),
/// ];
/// let row: DataType = r#"Struct("slot": non-null Timestamp(s, "CET"), "meter": Utf8, "kwh": Decimal64(12, 3))"#.parse()?;
/// assert_eq!(row.first_unmet(&SLOT_FILE[..2])?, None);
///
/// // The meter may not be null.
/// let unmet = row.first_unmet(&SLOT_FILE)?;
/// assert_eq!(unmet.map(|need| SLOT_FILE[need].name()), Some("meter"));
/// # Ok::<(), Error>(())
/// ```
///
/// [`Field::need`] takes needs from a type that is as it should be.
#[derive(Clone, Copy, Debug, PartialEq, Eq, Hash)]
pub struct Need<'a> {
    name: &'a str,
    kind: Kind,
    number: u32,
    scale: u32,
    null_allowed: bool,
    zoned: bool,
}

/// What no sound row has in word 4.
const NO_NUMBER: u32 = u32::MAX;

impl<'a> Need<'a> {
    const fn with_number(name: &'a str, kind: Kind, number: u32) -> Need<'a> {
        Need {
            name,
            kind,
            number,
            scale: 0,
            null_allowed: false,
            zoned: false,
        }
    }

    /// A column of a kind that has no numbers, such as `Int32`, `Utf8` or `List`. For kinds with numbers there are the
    /// functions below; a need of such a kind made by this one is never met.
    ///
    /// ```
    /// use arrow_types::{DataType, Kind, Need};
    ///
    /// let row: DataType = r#"Struct("tags": non-null List(Utf8), "at": non-null Timestamp(s))"#.parse()?;
    /// assert_eq!(row.first_unmet(&[Need::of("tags", Kind::List)])?, None);
    /// assert_eq!(row.first_unmet(&[Need::of("at", Kind::Timestamp)])?, Some(0));
    /// # Ok::<(), arrow_types::Error>(())
    /// ```
    pub const fn of(name: &'a str, kind: Kind) -> Need<'a> {
        let number = if has_number(kind) { NO_NUMBER } else { 0 };
        Need::with_number(name, kind, number)
    }

    /// A Timestamp, without a zone unless [`with_zone`](Need::with_zone) follows.
    pub const fn timestamp(name: &'a str, unit: TimeUnit) -> Need<'a> {
        Need::with_number(name, Kind::Timestamp, unit as u32)
    }

    /// A Time32, of seconds or milliseconds.
    pub const fn time32(name: &'a str, unit: TimeUnit) -> Need<'a> {
        Need::with_number(name, Kind::Time32, unit as u32)
    }

    /// A Time64, of microseconds or nanoseconds.
    pub const fn time64(name: &'a str, unit: TimeUnit) -> Need<'a> {
        Need::with_number(name, Kind::Time64, unit as u32)
    }

    /// A Duration.
    pub const fn duration(name: &'a str, unit: TimeUnit) -> Need<'a> {
        Need::with_number(name, Kind::Duration, unit as u32)
    }

    /// An Interval.
    pub const fn interval(name: &'a str, unit: IntervalUnit) -> Need<'a> {
        Need::with_number(name, Kind::Interval, unit as u32)
    }

    /// A FixedSizeBinary of a length.
    pub const fn fixed_size_binary(name: &'a str, length: u32) -> Need<'a> {
        Need::with_number(name, Kind::FixedSizeBinary, length)
    }

    /// A FixedSizeList of a length, of any field.
    pub const fn fixed_size_list(name: &'a str, length: u32) -> Need<'a> {
        Need::with_number(name, Kind::FixedSizeList, length)
    }

    /// A Decimal32 of just this precision and scale.
    pub const fn decimal32(name: &'a str, precision: u8, scale: i8) -> Need<'a> {
        decimal(name, Kind::Decimal32, precision, scale)
    }

    /// A Decimal64 of just this precision and scale.
    pub const fn decimal64(name: &'a str, precision: u8, scale: i8) -> Need<'a> {
        decimal(name, Kind::Decimal64, precision, scale)
    }

    /// A Decimal128 of just this precision and scale.
    pub const fn decimal128(name: &'a str, precision: u8, scale: i8) -> Need<'a> {
        decimal(name, Kind::Decimal128, precision, scale)
    }

    /// A Decimal256 of just this precision and scale.
    pub const fn decimal256(name: &'a str, precision: u8, scale: i8) -> Need<'a> {
        decimal(name, Kind::Decimal256, precision, scale)
    }

    /// A Union of a mode, of any fields.
    pub const fn union_of(name: &'a str, mode: UnionMode) -> Need<'a> {
        Need::with_number(name, Kind::Union, mode as u32)
    }

    /// A Map whose keys are sorted or not, of any entries.
    pub const fn map(name: &'a str, sorted: bool) -> Need<'a> {
        Need::with_number(name, Kind::Map, sorted as u32)
    }

    /// The same, with null allowed: a nullable field meets it too, and a non-null one still does.
    pub const fn null_allowed(mut self) -> Need<'a> {
        self.null_allowed = true;
        self
    }

    /// The same, but a zone must stand, whichever it is. Only a Timestamp has one.
    pub const fn with_zone(mut self) -> Need<'a> {
        self.zoned = true;
        self
    }

    /// The name of the column.
    pub fn name(self) -> &'a str {
        self.name
    }

    /// The need as the library takes it, with its name set behind others. A name that is longer than any text is no
    /// field's, however much of it is left out.
    fn record(self, names: &mut Vec<u8>) -> ffi::Need {
        let name = self.name.as_bytes();
        let name = &name[..name.len().min(MAX_TEXT + 1)];
        let place = |length: usize| u32::try_from(length).expect("a few names of bounded length");
        let name_start = place(names.len());
        names.extend(name);
        ffi::Need {
            name_start,
            name_length: place(name.len()),
            kind: self.kind.number(),
            number: self.number,
            scale: self.scale,
            null_allowed: self.null_allowed,
            zoned: self.zoned,
        }
    }
}

/// Whether a kind has a number in word 4.
const fn has_number(kind: Kind) -> bool {
    use Kind::{Decimal32, Decimal64, Decimal128, Decimal256, Duration, FixedSizeBinary};
    use Kind::{FixedSizeList, Interval, Map, Time32, Time64, Timestamp, Union};
    matches!(
        kind,
        Timestamp
            | Time32
            | Time64
            | Duration
            | Interval
            | FixedSizeBinary
            | FixedSizeList
            | Union
            | Decimal32
            | Decimal64
            | Decimal128
            | Decimal256
            | Map
    )
}

const fn decimal(name: &str, kind: Kind, precision: u8, scale: i8) -> Need<'_> {
    let mut need = Need::with_number(name, kind, precision as u32);
    need.scale = (scale as i32 + 128) as u32;
    need
}

impl DataType {
    /// The first need, from 0, that the type does not meet, and none where it meets them all: so with no needs.
    ///
    /// A need is met by the type's one field of its name, if that is of the kind and has the numbers, is non-null unless
    /// null is allowed, and has a zone exactly where one must stand. A name that two fields have fails.
    ///
    /// The needs are not checked, and this is the first that holds, if the type is not a Struct
    /// ([`Error::NotStruct`]), if there are more than [`MAX_NEEDS`] needs ([`Error::TooManyNeeds`]), or if the name of
    /// one is empty ([`Error::WrongNeedName`]), also behind one that is not met.
    ///
    /// ```
    /// use arrow_types::{DataType, Error, Kind, Need};
    ///
    /// let id = Need::of("id", Kind::Int32);
    /// let once: DataType = r#"Struct("id": non-null Int32)"#.parse()?;
    /// assert_eq!(once.first_unmet(&[id])?, None);
    /// let twice: DataType = r#"Struct("id": non-null Int32, "id": non-null Int32)"#.parse()?;
    /// assert_eq!(twice.first_unmet(&[id])?, Some(0));
    ///
    /// let bare: DataType = "Int32".parse()?;
    /// assert_eq!(bare.first_unmet(&[id]), Err(Error::NotStruct));
    /// assert_eq!(once.first_unmet(&[Need::of("", Kind::Int32)]), Err(Error::WrongNeedName));
    /// # Ok::<(), Error>(())
    /// ```
    pub fn first_unmet(&self, needs: &[Need<'_>]) -> Result<Option<usize>, Error> {
        // One too many is refused as any more are.
        let needs = &needs[..needs.len().min(MAX_NEEDS + 1)];
        let mut names = Vec::new();
        let records: Vec<ffi::Need> = needs.iter().map(|need| need.record(&mut names)).collect();
        ffi::needs(self.tree(), &names, &records)
    }
}

impl<'a> Field<'a> {
    /// The need that asks for a column as this field is; none for a bare type. Null is allowed if the field may be null,
    /// and a zone must stand if it has one.
    ///
    /// So what a file must have can be said as a type text. The type itself meets these needs, unless two of its fields
    /// have one name.
    ///
    /// ```
    /// use arrow_types::{DataType, Need};
    ///
    /// let wanted: DataType = r#"Struct("slot": non-null Timestamp(s, "CET"), "kwh": Decimal64(12, 3))"#.parse()?;
    /// let needs: Vec<Need> = wanted.fields().filter_map(|field| field.need()).collect();
    ///
    /// let row: DataType = r#"Struct("kwh": Decimal64(12, 3), "slot": non-null Timestamp(s, "EET"), "id": Int8)"#.parse()?;
    /// assert_eq!(row.first_unmet(&needs)?, None);
    /// let row: DataType = r#"Struct("kwh": Decimal64(12, 3), "slot": non-null Timestamp(s))"#.parse()?;
    /// assert_eq!(row.first_unmet(&needs)?, Some(0));
    /// # Ok::<(), arrow_types::Error>(())
    /// ```
    pub fn need(self) -> Option<Need<'a>> {
        Some(Need {
            name: self.name()?,
            kind: self.kind(),
            number: self.word(word::NUMBER),
            scale: self.word(word::SCALE),
            null_allowed: self.nullable()?,
            zoned: self.zone().is_some(),
        })
    }
}
