//! Why a text is not read, and where.

use crate::{Error, picture};
use std::fmt;

/// Why a text is not read, and the place in it: document 02's 'where in the text'.
///
/// The place is that of the last token taken, a token that was only looked at not counting. [`ReadError::place`] has it
/// for each refusal.
///
/// ```
/// use arrow_types::{DataType, Error};
///
/// let text = r#"Struct("Küche" Int8)"#;
/// let error = text.parse::<DataType>().unwrap_err();
/// assert_eq!(error.error(), Error::UnexpectedToken);
/// assert_eq!((error.number(), error.place()), (9, 16));
/// assert_eq!(error.to_string(), "a token stands where one of another sort is needed, at byte 16");
/// assert_eq!(
///     error.picture(text),
///     concat!(
///         " | Struct(\"Küche\" Int8)\n",
///         " |                ^",
///     )
/// );
/// ```
///
/// It becomes an [`Error`] by `?`, which is the number without the place.
#[derive(Clone, Copy, Debug, PartialEq, Eq, Hash)]
pub struct ReadError {
    error: Error,
    place: usize,
}

impl ReadError {
    pub(crate) fn new(error: Error, place: usize) -> ReadError {
        ReadError { error, place }
    }

    /// Why: one of the reader's refusals, 1 to 16.
    pub fn error(self) -> Error {
        self.error
    }

    /// The refusal's number, 1 to 16.
    pub fn number(self) -> u32 {
        self.error.number()
    }

    /// Where, in bytes from the text's start; at most the text's length.
    ///
    /// | refusal | place |
    /// |---|---|
    /// | [`TextTooLong`](Error::TextTooLong) | 16,384 |
    /// | [`NotUtf8`](Error::NotUtf8) | 0, wherever the bytes are that are not UTF-8 |
    /// | [`TooDeep`](Error::TooDeep), [`TooManyRows`](Error::TooManyRows) | the token that would have begun the type, the text's length if there is none |
    /// | [`TextEnds`](Error::TextEnds) | the text's length |
    /// | [`StringNeverEnds`](Error::StringNeverEnds), [`StringEmpty`](Error::StringEmpty) | the opening mark |
    /// | [`TrailingText`](Error::TrailingText) | the first byte behind the type that is no space |
    /// | every other one | the last token taken |
    pub fn place(self) -> usize {
        self.place
    }

    /// Two lines for a person: the text, and a caret under the place.
    ///
    /// Each is 80 columns wide at the most. Of a longer text the part around the place is shown, with `...` where it is
    /// cut. What would not show, or not with a certain width, is spelled by its code point: `<U+0009>` is a tab,
    /// `<U+200B>` a space without width. A byte that is not UTF-8 is spelled `<FF>`.
    ///
    /// The text is to be the one that was refused; of another one the picture is of no use.
    ///
    /// ```
    /// # use arrow_types::DataType;
    /// let text = b"List(Int8\t\xff)".as_slice();
    /// let error = DataType::try_from(text).unwrap_err();
    /// println!("{error}\n{}", error.picture(text));
    /// # assert_eq!(error.picture(text), " | List(Int8<U+0009><FF>)\n | ^");
    /// ```
    pub fn picture(self, text: impl AsRef<[u8]>) -> String {
        picture::picture(text.as_ref(), self.place)
    }
}

/// The sentence of the refusal, and the place.
impl fmt::Display for ReadError {
    fn fmt(&self, formatter: &mut fmt::Formatter<'_>) -> fmt::Result {
        write!(formatter, "{}, at byte {}", self.error, self.place)
    }
}

impl std::error::Error for ReadError {}

/// The refusal without its place, for callers that handle reading and printing alike.
impl From<ReadError> for Error {
    fn from(error: ReadError) -> Error {
        error.error
    }
}
