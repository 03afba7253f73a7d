//! Refusals.

use std::fmt;

/// Why a text or an image is not read, a tree not printed, needs not checked or a column not taken out: the numbers that a
/// caller may get, as docs/SCOPE.md of the repository has them.
///
/// 1 to 16 are the reader's: 1 and 2 come first, then the first that is met from left to right; reading answers them in
/// a [`ReadError`](crate::ReadError), with their place. 17 to 19 are the printer's, in that order. 25 to 27 are
/// those of [`DataType::first_unmet`](crate::DataType::first_unmet), in that order.
/// [`DataType::without_field`](crate::DataType::without_field) refuses with 25, 29 and 28, in that order.
/// [`DataType::from_archive`](crate::DataType::from_archive) refuses with 30, 31 and 28, of which the first in the image
/// counts, and then with 17. There is none of 20 to 24.
///
/// ```
/// use arrow_types::{DataType, Error};
///
/// let row: DataType = r#"Struct("дом": Int8)"#.parse()?;
/// let error = row.print().unwrap_err();
/// assert_eq!(error, Error::NotLatin);
/// assert_eq!(error.number(), 18);
/// assert_eq!(error.to_string(), "a name or zone to print in double quotes has a character above U+017F");
/// # Ok::<(), Error>(())
/// ```
#[derive(Clone, Copy, Debug, PartialEq, Eq, PartialOrd, Ord, Hash)]
#[repr(u32)]
pub enum Error {
    /// The text is longer than 16,384 bytes.
    TextTooLong = 1,
    /// The text is not UTF-8.
    NotUtf8,
    /// A type would begin at level 65.
    TooDeep,
    /// A type would begin where 1,024 rows, or all that [`read`](crate::read) is lent, are taken.
    TooManyRows,
    /// The text ends where a token is needed; also the empty text.
    TextEnds,
    /// A quoted string never ends.
    StringNeverEnds,
    /// A quoted string is empty.
    StringEmpty,
    /// A word is neither one of those that types are spelled with nor a number of 64 bits.
    UnknownWord,
    /// A token is of the wrong sort where it stands.
    UnexpectedToken,
    /// A number misses its range: lengths 0 to 2,147,483,647, precision 0 to 255, scale and union id -128 to 127.
    NumberOutOfRange,
    /// Time32 with µs or ns, or Time64 with s or ms.
    WrongTimeUnit,
    /// A decimal's precision is 0 or above its greatest (9, 18, 38, 76), or its scale is above its precision.
    WrongDecimal,
    /// Map entries, a Map key or run ends are nullable.
    MustBeNonNull,
    /// Map entries are not a Struct, or not of two fields.
    WrongMapEntries,
    /// A union id is negative or used twice.
    WrongUnionId,
    /// Something other than spaces follows the type.
    TrailingText,
    /// Text and rows are no sound tree.
    NotSound,
    /// A name or zone that would print in double quotes holds a character above U+017F.
    NotLatin,
    /// The printed text would be longer than 16,384 bytes.
    PrintTooLong,
    /// The root is not a Struct.
    NotStruct = 25,
    /// There are more than 32 needs.
    TooManyNeeds,
    /// The name of a need is empty, or outside its text.
    WrongNeedName,
    /// The names and zones of a type, end to end, take more than 16,384 bytes, or an image has more than 1,024 rows.
    NoRoom,
    /// There is no field of that number.
    NoSuchField,
    /// A length in an image is not whole, too short, or runs past what it stands in, or bytes stand behind the image.
    WrongLength,
    /// An image has a kind that there is not.
    UnknownKind,
}

impl Error {
    /// Every refusal, in the order of the numbers.
    pub const ALL: [Error; 26] = [
        Error::TextTooLong,
        Error::NotUtf8,
        Error::TooDeep,
        Error::TooManyRows,
        Error::TextEnds,
        Error::StringNeverEnds,
        Error::StringEmpty,
        Error::UnknownWord,
        Error::UnexpectedToken,
        Error::NumberOutOfRange,
        Error::WrongTimeUnit,
        Error::WrongDecimal,
        Error::MustBeNonNull,
        Error::WrongMapEntries,
        Error::WrongUnionId,
        Error::TrailingText,
        Error::NotSound,
        Error::NotLatin,
        Error::PrintTooLong,
        Error::NotStruct,
        Error::TooManyNeeds,
        Error::WrongNeedName,
        Error::NoRoom,
        Error::NoSuchField,
        Error::WrongLength,
        Error::UnknownKind,
    ];

    /// The refusal's number, 1 to 19 or 25 to 31.
    pub fn number(self) -> u32 {
        self as u32
    }

    /// The refusal that has a number.
    pub fn from_number(number: u32) -> Option<Error> {
        Error::ALL
            .into_iter()
            .find(|error| error.number() == number)
    }

    fn sentence(self) -> &'static str {
        match self {
            Error::TextTooLong => "the text is longer than 16,384 bytes",
            Error::NotUtf8 => "the text is not UTF-8",
            Error::TooDeep => "types are nested deeper than 64 levels",
            Error::TooManyRows => "there are more types in the text than rows for them",
            Error::TextEnds => "the text ends where more is needed",
            Error::StringNeverEnds => "a quoted string never ends",
            Error::StringEmpty => "a quoted string is empty",
            Error::UnknownWord => "a word is neither known nor a number of 64 bits",
            Error::UnexpectedToken => "a token stands where one of another sort is needed",
            Error::NumberOutOfRange => "a number is outside its range",
            Error::WrongTimeUnit => "Time32 takes s or ms, and Time64 takes us or ns",
            Error::WrongDecimal => "a decimal's precision or scale is not one that it may have",
            Error::MustBeNonNull => "Map entries, Map keys and run ends must be non-null",
            Error::WrongMapEntries => "Map entries must be a Struct of two fields",
            Error::WrongUnionId => "a union id is negative or used twice",
            Error::TrailingText => "something follows the type",
            Error::NotSound => "text and rows are no sound tree",
            Error::NotLatin => {
                "a name or zone to print in double quotes has a character above U+017F"
            }
            Error::PrintTooLong => "the printed text is longer than 16,384 bytes or the buffer",
            Error::NotStruct => "the root is not a Struct",
            Error::TooManyNeeds => "there are more than 32 needs",
            Error::WrongNeedName => "a need's name is empty or outside its text",
            Error::NoRoom => "there is no room for what is to be written",
            Error::NoSuchField => "there is no such field",
            Error::WrongLength => "a length does not fit what is there",
            Error::UnknownKind => "there is no such kind",
        }
    }
}

impl fmt::Display for Error {
    fn fmt(&self, formatter: &mut fmt::Formatter<'_>) -> fmt::Result {
        formatter.write_str(self.sentence())
    }
}

impl std::error::Error for Error {}
