//! Which kinds are numeric, temporal and nested, as arrow-schema has it.

use crate::{DataType, Field, Kind};

impl Kind {
    /// Whether this is an integer, a float or a decimal.
    ///
    /// ```
    /// use arrow_types::Kind;
    ///
    /// assert!(Kind::UInt8.is_numeric() && Kind::Float16.is_numeric() && Kind::Decimal256.is_numeric());
    /// assert!(!Kind::Boolean.is_numeric() && !Kind::Date32.is_numeric());
    /// ```
    pub fn is_numeric(self) -> bool {
        (Kind::Int8..=Kind::Float64).contains(&self) || self.is_decimal()
    }

    /// Whether this is a date, a time, a timestamp, a duration or an interval.
    ///
    /// ```
    /// use arrow_types::Kind;
    ///
    /// assert!(Kind::Timestamp.is_temporal() && Kind::Date64.is_temporal() && Kind::Interval.is_temporal());
    /// assert!(!Kind::Int64.is_temporal());
    /// ```
    pub fn is_temporal(self) -> bool {
        (Kind::Timestamp..=Kind::Interval).contains(&self)
    }

    /// Whether the word says all of a type of this kind: no number, unit or other type belongs to it.
    pub(crate) fn is_word(self) -> bool {
        use Kind::{Binary, Date32, Date64, Float64, LargeBinary, Utf8View};
        self <= Float64
            || matches!(self, Date32 | Date64 | Binary)
            || (LargeBinary..=Utf8View).contains(&self)
    }

    /// Whether this is a list of some sort, a Struct, a Union or a Map: whether its types have fields of their own.
    fn has_fields(self) -> bool {
        (Kind::List..=Kind::Union).contains(&self) || self == Kind::Map
    }
}

impl Field<'_> {
    /// Whether the field's type is numeric: [`Kind::is_numeric`].
    pub fn is_numeric(self) -> bool {
        self.kind().is_numeric()
    }

    /// Whether the field's type is temporal: [`Kind::is_temporal`].
    pub fn is_temporal(self) -> bool {
        self.kind().is_temporal()
    }

    /// Whether the field's type is nested: [`DataType::is_nested`].
    pub fn is_nested(self) -> bool {
        match self.kind() {
            Kind::Dictionary | Kind::RunEndEncoded => {
                self.children().next_back().is_some_and(Field::is_nested)
            }
            kind => kind.has_fields(),
        }
    }
}

impl DataType {
    /// Whether the type is numeric: [`Kind::is_numeric`].
    pub fn is_numeric(&self) -> bool {
        self.root().is_numeric()
    }

    /// Whether the type is temporal: [`Kind::is_temporal`].
    pub fn is_temporal(&self) -> bool {
        self.root().is_temporal()
    }

    /// Whether the type is a list of some sort, a Struct, a Union or a Map, or a Dictionary or RunEndEncoded of one.
    ///
    /// ```
    /// use arrow_types::DataType;
    ///
    /// let nested = |text: &str| text.parse().map(|read: DataType| read.is_nested());
    /// assert!(nested("List(Int8)")? && nested("Dictionary(Int8, Struct())")?);
    /// assert!(!nested("Utf8")? && !nested("Dictionary(Int8, Utf8)")?);
    /// # Ok::<(), Box<dyn std::error::Error>>(())
    /// ```
    pub fn is_nested(&self) -> bool {
        self.root().is_nested()
    }
}
