//! Types kept in half the memory.

use crate::{DataType, Error, ROW_WORDS, ffi};
use std::fmt;

/// How many half words a row takes.
pub const HALF_ROW_WORDS: usize = 13;

/// A type kept in half the memory: its text, and its rows in 16-bit words, [`HALF_ROW_WORDS`] to a row.
///
/// A row of a [`DataType`] takes 48 bytes, and one in halves 26. Halves are for keeping, not for working in: what is asked
/// of a type is asked of the [`DataType`] that they give back. Text and halves are boxes just as long as they are. It is
/// always a sound tree.
///
/// Two are equal if their types are: kinds, numbers, names and zones count, and not how the texts spell them.
///
/// ```
/// use arrow_types::DataType;
///
/// let slot: DataType = r#"Timestamp(s, "CET")"#.parse()?;
/// let kept = slot.to_half_rows();
/// assert_eq!(kept.halves().len(), 13);
/// assert_eq!(kept.to_data_type().root().zone(), Some("CET"));
/// # Ok::<(), arrow_types::Error>(())
/// ```
#[derive(Clone)]
pub struct HalfRows {
    text: Box<str>,
    halves: Box<[u16]>,
}

impl HalfRows {
    /// A type from a text and half words, such as `into_parts` gives or another program has stored.
    ///
    /// They must be a sound tree in whole thirteens, else this is refused with [`Error::NotSound`].
    ///
    /// ```
    /// use arrow_types::{Error, HalfRows};
    ///
    /// let halves = [16, 1, 0, 0, 1, 0, 0, 0, 0, 0, 0, 0, 0];
    /// assert_eq!(HalfRows::from_parts("", halves)?.to_data_type().to_string(), "Time32(ms)");
    /// assert_eq!(HalfRows::from_parts("", [16, 1, 0]), Err(Error::NotSound));
    /// # Ok::<(), Error>(())
    /// ```
    pub fn from_parts(
        text: impl Into<Vec<u8>>,
        halves: impl Into<Vec<u16>>,
    ) -> Result<HalfRows, Error> {
        let (text, halves) = (text.into(), halves.into());
        let mut rows = vec![0; halves.len() / HALF_ROW_WORDS * ROW_WORDS];
        ffi::from_half_rows(&text, &halves, &mut rows)?;
        let text = String::from_utf8(text).map_err(|_| Error::NotSound)?;
        Ok(HalfRows {
            text: text.into(),
            halves: halves.into(),
        })
    }

    /// The text and the half words.
    pub fn into_parts(self) -> (String, Vec<u16>) {
        (self.text.into(), self.halves.into())
    }

    /// The text that the rows point into.
    pub fn text(&self) -> &str {
        &self.text
    }

    /// The half words, [`HALF_ROW_WORDS`] for each row: a row's words in order, word 4 as its low half and then its high half.
    pub fn halves(&self) -> &[u16] {
        &self.halves
    }

    /// How many rows the tree has, 1 to 1,024.
    pub fn row_count(&self) -> usize {
        self.halves.len() / HALF_ROW_WORDS
    }

    /// The type, with rows to work in.
    pub fn to_data_type(&self) -> DataType {
        let mut rows = vec![0; self.row_count() * ROW_WORDS];
        let text = self.text.as_bytes();
        ffi::from_half_rows(text, &self.halves, &mut rows).expect("the halves are a sound tree");
        DataType::from_parts(text, rows).expect("the rows are a sound tree")
    }
}

impl DataType {
    /// The type in half the memory, to be kept: its text, and its rows in 16-bit words.
    pub fn to_half_rows(&self) -> HalfRows {
        let mut halves = vec![0; self.row_count() * HALF_ROW_WORDS];
        ffi::to_half_rows(self.tree(), &mut halves).expect("the tree is sound");
        HalfRows {
            text: self.text().into(),
            halves: halves.into(),
        }
    }
}

impl PartialEq for HalfRows {
    fn eq(&self, other: &HalfRows) -> bool {
        self.to_data_type() == other.to_data_type()
    }
}

impl Eq for HalfRows {}

/// The type, as [`DataType`] shows it.
impl fmt::Debug for HalfRows {
    fn fmt(&self, f: &mut fmt::Formatter<'_>) -> fmt::Result {
        fmt::Debug::fmt(&self.to_data_type(), f)
    }
}
