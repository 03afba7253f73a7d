//! Kinds of types, and the few values that belong to some of them.

use std::fmt;

/// The kinds in document 01's order, which is the numbers' order: variants, numbers and `Kind::ALL` from one list.
macro_rules! kinds {
    ($($kind:ident),* $(,)?) => {
        /// What a type is, whatever it contains: word 0 of its row.
        ///
        /// ```
        /// use arrow_types::Kind;
        ///
        /// assert_eq!(Kind::Timestamp.number(), 13);
        /// assert_eq!(Kind::from_number(40), Some(Kind::RunEndEncoded));
        /// assert_eq!(Kind::Utf8View.to_string(), "Utf8View");
        /// ```
        #[derive(Clone, Copy, Debug, PartialEq, Eq, PartialOrd, Ord, Hash)]
        #[repr(u32)]
        pub enum Kind {
            $(
                #[doc = concat!("`", stringify!($kind), "`.")]
                $kind
            ),*
        }

        impl Kind {
            /// Every kind, in the order of the numbers.
            pub const ALL: [Kind; 41] = [$(Kind::$kind),*];

            /// The word that a type of this kind begins with.
            pub fn name(self) -> &'static str {
                match self {
                    $(Kind::$kind => stringify!($kind)),*
                }
            }
        }
    };
}

kinds! {
    Null, Boolean, Int8, Int16, Int32, Int64, UInt8, UInt16, UInt32, UInt64, Float16, Float32, Float64, Timestamp,
    Date32, Date64, Time32, Time64, Duration, Interval, Binary, FixedSizeBinary, LargeBinary, BinaryView, Utf8,
    LargeUtf8, Utf8View, List, ListView, FixedSizeList, LargeList, LargeListView, Struct, Union, Dictionary, Decimal32,
    Decimal64, Decimal128, Decimal256, Map, RunEndEncoded,
}

impl Kind {
    /// The kind's number, 0 to 40.
    pub fn number(self) -> u32 {
        self as u32
    }

    /// The kind that has a number.
    pub fn from_number(number: u32) -> Option<Kind> {
        Kind::ALL.get(usize::try_from(number).ok()?).copied()
    }

    /// Whether this is one of the four decimals.
    pub fn is_decimal(self) -> bool {
        Kind::Decimal32 <= self && self <= Kind::Decimal256
    }
}

impl fmt::Display for Kind {
    fn fmt(&self, formatter: &mut fmt::Formatter<'_>) -> fmt::Result {
        formatter.write_str(self.name())
    }
}

/// The unit of a Timestamp, Time32, Time64 or Duration.
#[derive(Clone, Copy, Debug, PartialEq, Eq, PartialOrd, Ord, Hash)]
pub enum TimeUnit {
    /// `s`
    Second,
    /// `ms`
    Millisecond,
    /// `us`, or `µs`
    Microsecond,
    /// `ns`
    Nanosecond,
}

impl TimeUnit {
    pub(crate) const ALL: [TimeUnit; 4] = [
        TimeUnit::Second,
        TimeUnit::Millisecond,
        TimeUnit::Microsecond,
        TimeUnit::Nanosecond,
    ];
}

/// Writes the unit as it is printed in a type.
///
/// ```
/// use arrow_types::TimeUnit;
///
/// assert_eq!(TimeUnit::Millisecond.to_string(), "ms");
/// ```
impl fmt::Display for TimeUnit {
    fn fmt(&self, formatter: &mut fmt::Formatter<'_>) -> fmt::Result {
        formatter.write_str(match self {
            TimeUnit::Second => "s",
            TimeUnit::Millisecond => "ms",
            TimeUnit::Microsecond => "us",
            TimeUnit::Nanosecond => "ns",
        })
    }
}

/// The unit of an Interval.
#[derive(Clone, Copy, Debug, PartialEq, Eq, PartialOrd, Ord, Hash)]
pub enum IntervalUnit {
    /// `YearMonth`
    YearMonth,
    /// `DayTime`
    DayTime,
    /// `MonthDayNano`
    MonthDayNano,
}

impl IntervalUnit {
    pub(crate) const ALL: [IntervalUnit; 3] = [
        IntervalUnit::YearMonth,
        IntervalUnit::DayTime,
        IntervalUnit::MonthDayNano,
    ];
}

/// Writes the unit as it is printed in a type.
impl fmt::Display for IntervalUnit {
    fn fmt(&self, formatter: &mut fmt::Formatter<'_>) -> fmt::Result {
        formatter.write_str(match self {
            IntervalUnit::YearMonth => "YearMonth",
            IntervalUnit::DayTime => "DayTime",
            IntervalUnit::MonthDayNano => "MonthDayNano",
        })
    }
}

/// How a Union lays out its values.
#[derive(Clone, Copy, Debug, PartialEq, Eq, PartialOrd, Ord, Hash)]
pub enum UnionMode {
    /// `Sparse`
    Sparse,
    /// `Dense`
    Dense,
}

impl UnionMode {
    pub(crate) const ALL: [UnionMode; 2] = [UnionMode::Sparse, UnionMode::Dense];
}

/// Writes the mode as it is printed in a type.
impl fmt::Display for UnionMode {
    fn fmt(&self, formatter: &mut fmt::Formatter<'_>) -> fmt::Result {
        formatter.write_str(match self {
            UnionMode::Sparse => "Sparse",
            UnionMode::Dense => "Dense",
        })
    }
}
