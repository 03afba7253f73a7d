//! Types put together by hand. Each ends in the check of `from_parts`: what it answers is a sound tree.

use crate::field::{IN_TEXT, word};
use crate::pack::{pack, place_behind};
use crate::{DataType, Error, IntervalUnit, Kind, ROW_WORDS, TimeUnit, UnionMode, set_parents};

/// The name of a list's field that is given none.
const ITEM: &str = "item";

/// Word 2 of a field.
const NULLABLE: u32 = 1;
const NON_NULL: u32 = 2;

/// A field to put a type together with: a name, a nullability and a type. [`DataType::named`] makes one; where a list
/// is given a type alone, its field is nullable and named `item`.
#[derive(Clone, Debug)]
pub struct NewField {
    name: String,
    role: u32,
    data_type: DataType,
}

impl NewField {
    /// The field, not nullable.
    pub fn non_null(mut self) -> NewField {
        self.role = NON_NULL;
        self
    }
}

impl From<DataType> for NewField {
    fn from(data_type: DataType) -> NewField {
        data_type.named(ITEM)
    }
}

/// A type while it is put together: the row of the whole, and those of its children behind it.
struct Builder {
    text: String,
    rows: Vec<u32>,
}

impl Builder {
    /// A type of a kind, with a number in word 4.
    fn of(kind: Kind, number: u32) -> Builder {
        let mut rows = vec![0; ROW_WORDS];
        rows[word::KIND] = kind.number();
        rows[word::NUMBER] = number;
        Builder {
            text: String::new(),
            rows,
        }
    }

    fn scale(mut self, scale: i8) -> Builder {
        self.rows[word::SCALE] = (i32::from(scale) + 128) as u32;
        self
    }

    fn zone(mut self, zone: &str) -> Builder {
        self.rows[word::ZONE_START] = place_behind(&self.text);
        self.text += zone;
        self.rows[word::ZONE_LENGTH] = place_behind(zone);
        self
    }

    /// A bare type behind what is there.
    fn bare(mut self, child: &DataType) -> Builder {
        let mut rows = child.rows().to_vec();
        pack(child.text(), &mut rows, &mut self.text);
        self.rows.extend(rows);
        self
    }

    /// A field behind what is there. Its name stands before those that its type contains.
    fn field(self, field: &NewField) -> Builder {
        self.union_field(0, field)
    }

    fn union_field(mut self, id: u32, field: &NewField) -> Builder {
        let first = self.rows.len();
        let name_start = place_behind(&self.text);
        self.text += &field.name;
        let mut builder = self.bare(&field.data_type);
        let row = &mut builder.rows[first..];
        row[word::ROLE] = field.role;
        row[word::UNION_ID] = id;
        row[word::HOME] = IN_TEXT;
        row[word::NAME_START] = name_start;
        row[word::NAME_LENGTH] = place_behind(&field.name);
        builder
    }

    /// The type, if it is a sound tree.
    fn build(mut self) -> Result<DataType, Error> {
        self.rows[word::ROWS] = u32::try_from(self.rows.len() / ROW_WORDS).unwrap_or(u32::MAX);
        set_parents(&mut self.rows);
        DataType::from_parts(self.text, self.rows)
    }
}

/// Types by hand. What no text could say is refused with [`Error::NotSound`].
///
/// ```
/// use arrow_types::{DataType, Error, Kind, TimeUnit};
///
/// let slot = DataType::timestamp(TimeUnit::Second, Some("CET"))?;
/// let kwh = DataType::decimal64(12, 3)?;
/// let row = DataType::struct_of([slot.named("slot").non_null(), kwh.named("kwh")])?;
/// assert_eq!(row.to_string(), r#"Struct("slot": non-null Timestamp(s, "CET"), "kwh": Decimal64(12, 3))"#);
///
/// let days = DataType::list(DataType::of(Kind::Date32)?)?;
/// assert_eq!(days, "List(Date32)".parse().unwrap());
///
/// assert_eq!(DataType::decimal32(10, 0), Err(Error::NotSound));
/// assert_eq!(DataType::timestamp(TimeUnit::Second, Some("")), Err(Error::NotSound));
/// # Ok::<(), Error>(())
/// ```
///
/// The text of such a type is its names and zones, end to end.
impl DataType {
    /// A type that its kind says all of, such as `Int32` or `Utf8`. Other kinds are refused.
    pub fn of(kind: Kind) -> Result<DataType, Error> {
        if !kind.is_word() {
            return Err(Error::NotSound);
        }
        Builder::of(kind, 0).build()
    }

    /// The type as a nullable field with a name, to put another type together with.
    pub fn named(self, name: impl Into<String>) -> NewField {
        NewField {
            name: name.into(),
            role: NULLABLE,
            data_type: self,
        }
    }

    /// A Timestamp, with a zone or without. An empty zone is refused.
    pub fn timestamp(unit: TimeUnit, zone: Option<&str>) -> Result<DataType, Error> {
        let timestamp = Builder::of(Kind::Timestamp, unit as u32);
        match zone {
            None => timestamp.build(),
            Some("") => Err(Error::NotSound),
            Some(zone) => timestamp.zone(zone).build(),
        }
    }

    /// A Time32, of seconds or milliseconds.
    pub fn time32(unit: TimeUnit) -> Result<DataType, Error> {
        Builder::of(Kind::Time32, unit as u32).build()
    }

    /// A Time64, of microseconds or nanoseconds.
    pub fn time64(unit: TimeUnit) -> Result<DataType, Error> {
        Builder::of(Kind::Time64, unit as u32).build()
    }

    /// A Duration.
    pub fn duration(unit: TimeUnit) -> Result<DataType, Error> {
        Builder::of(Kind::Duration, unit as u32).build()
    }

    /// An Interval.
    pub fn interval(unit: IntervalUnit) -> Result<DataType, Error> {
        Builder::of(Kind::Interval, unit as u32).build()
    }

    /// A FixedSizeBinary. Its length is at most 2,147,483,647.
    pub fn fixed_size_binary(length: u32) -> Result<DataType, Error> {
        Builder::of(Kind::FixedSizeBinary, length).build()
    }

    /// A Decimal32. Its precision is 1 to 9, and its scale at most that.
    pub fn decimal32(precision: u8, scale: i8) -> Result<DataType, Error> {
        decimal(Kind::Decimal32, precision, scale)
    }

    /// A Decimal64. Its precision is 1 to 18, and its scale at most that.
    pub fn decimal64(precision: u8, scale: i8) -> Result<DataType, Error> {
        decimal(Kind::Decimal64, precision, scale)
    }

    /// A Decimal128. Its precision is 1 to 38, and its scale at most that.
    pub fn decimal128(precision: u8, scale: i8) -> Result<DataType, Error> {
        decimal(Kind::Decimal128, precision, scale)
    }

    /// A Decimal256. Its precision is 1 to 76, and its scale at most that.
    pub fn decimal256(precision: u8, scale: i8) -> Result<DataType, Error> {
        decimal(Kind::Decimal256, precision, scale)
    }

    /// A List of a field, or of a type, whose field is then nullable and named `item`.
    ///
    /// ```
    /// use arrow_types::{DataType, Kind};
    ///
    /// let names = DataType::of(Kind::Utf8)?.named("name").non_null();
    /// assert_eq!(DataType::list(names)?.to_string(), "List(non-null Utf8, field: 'name')");
    /// # Ok::<(), arrow_types::Error>(())
    /// ```
    pub fn list(item: impl Into<NewField>) -> Result<DataType, Error> {
        list(Kind::List, 0, &item.into())
    }

    /// A ListView, as [`list`](DataType::list).
    pub fn list_view(item: impl Into<NewField>) -> Result<DataType, Error> {
        list(Kind::ListView, 0, &item.into())
    }

    /// A LargeList, as [`list`](DataType::list).
    pub fn large_list(item: impl Into<NewField>) -> Result<DataType, Error> {
        list(Kind::LargeList, 0, &item.into())
    }

    /// A LargeListView, as [`list`](DataType::list).
    pub fn large_list_view(item: impl Into<NewField>) -> Result<DataType, Error> {
        list(Kind::LargeListView, 0, &item.into())
    }

    /// A FixedSizeList, as [`list`](DataType::list). Its length is at most 2,147,483,647.
    pub fn fixed_size_list(length: u32, item: impl Into<NewField>) -> Result<DataType, Error> {
        list(Kind::FixedSizeList, length, &item.into())
    }

    /// A Struct. Two fields of one name are no fault.
    pub fn struct_of(fields: impl IntoIterator<Item = NewField>) -> Result<DataType, Error> {
        let none = Builder::of(Kind::Struct, 0);
        let all = fields
            .into_iter()
            .fold(none, |some, field| some.field(&field));
        all.build()
    }

    /// A Union of fields, each with its id. No id is negative or used twice.
    ///
    /// ```
    /// use arrow_types::{DataType, Error, Kind, UnionMode};
    ///
    /// let reading = DataType::decimal64(12, 3)?.named("reading");
    /// let fault = DataType::of(Kind::Utf8)?.named("fault");
    /// let union = DataType::union_of(UnionMode::Dense, [(0, reading.clone()), (5, fault)])?;
    /// assert_eq!(union.to_string(), r#"Union(Dense, 0: ("reading": Decimal64(12, 3)), 5: ("fault": Utf8))"#);
    ///
    /// let twice = DataType::union_of(UnionMode::Dense, [(0, reading.clone()), (0, reading)]);
    /// assert_eq!(twice, Err(Error::NotSound));
    /// # Ok::<(), Error>(())
    /// ```
    pub fn union_of(
        mode: UnionMode,
        fields: impl IntoIterator<Item = (i8, NewField)>,
    ) -> Result<DataType, Error> {
        let none = Builder::of(Kind::Union, mode as u32);
        let all = fields.into_iter().fold(none, |some, (id, field)| {
            some.union_field(id_word(id), &field)
        });
        all.build()
    }

    /// A Dictionary of a key and a value. Any types are taken; the [`verdict`](DataType::verdict) says whether Arrow can
    /// lay it out.
    pub fn dictionary(key: DataType, value: DataType) -> Result<DataType, Error> {
        let none = Builder::of(Kind::Dictionary, 0);
        none.bare(&key).bare(&value).build()
    }

    /// A Map. Its entries are a non-null Struct of two fields, whose first, the key, is non-null.
    ///
    /// ```
    /// use arrow_types::{DataType, Kind};
    ///
    /// let key = DataType::of(Kind::Utf8)?.named("key").non_null();
    /// let value = DataType::of(Kind::Int32)?.named("value");
    /// let entries = DataType::struct_of([key, value])?.named("entries").non_null();
    /// let map = DataType::map(entries, false)?;
    /// assert_eq!(
    ///     map.to_string(),
    ///     r#"Map("entries": non-null Struct("key": non-null Utf8, "value": Int32), unsorted)"#
    /// );
    /// # Ok::<(), arrow_types::Error>(())
    /// ```
    pub fn map(entries: NewField, sorted: bool) -> Result<DataType, Error> {
        Builder::of(Kind::Map, u32::from(sorted))
            .field(&entries)
            .build()
    }

    /// A RunEndEncoded. Its run ends are non-null; the usual names are `run_ends` and `values`.
    ///
    /// ```
    /// use arrow_types::{DataType, Kind};
    ///
    /// let run_ends = DataType::of(Kind::Int32)?.named("run_ends").non_null();
    /// let values = DataType::of(Kind::Utf8)?.named("values");
    /// let encoded = DataType::run_end_encoded(run_ends, values)?;
    /// assert_eq!(encoded.to_string(), "RunEndEncoded(non-null Int32, Utf8)");
    /// # Ok::<(), arrow_types::Error>(())
    /// ```
    pub fn run_end_encoded(run_ends: NewField, values: NewField) -> Result<DataType, Error> {
        let none = Builder::of(Kind::RunEndEncoded, 0);
        none.field(&run_ends).field(&values).build()
    }
}

fn decimal(kind: Kind, precision: u8, scale: i8) -> Result<DataType, Error> {
    let decimal = Builder::of(kind, u32::from(precision));
    decimal.scale(scale).build()
}

fn list(kind: Kind, length: u32, item: &NewField) -> Result<DataType, Error> {
    Builder::of(kind, length).field(item).build()
}

/// A union id as a word: a negative one is that of no sound row.
fn id_word(id: i8) -> u32 {
    u32::try_from(id).unwrap_or(u32::MAX)
}
