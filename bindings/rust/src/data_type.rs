//! A type that owns its text and its rows.

use crate::ffi::{self, Tree};
use crate::{Children, Error, Field, ROW_WORDS, ReadError, Spelling, buffers};
use std::fmt;
use std::str::FromStr;

/// A type: the text that it was read from, and its tree as rows. It is always a sound tree.
///
/// Two types are equal if their trees are: kinds, numbers, names and zones count, and not how the texts spell them.
///
/// ```
/// use arrow_types::DataType;
///
/// let read: DataType = r#"Struct("at": Timestamp(Second, Some("CET")),)"#.parse()?;
/// assert_eq!(read.to_string(), r#"Struct("at": Timestamp(s, "CET"))"#);
/// assert_eq!(read.row_count(), 2);
/// assert_eq!(read.depth(), 2);
///
/// let again: DataType = read.print()?.parse()?;
/// assert_eq!(read, again);
/// # Ok::<(), arrow_types::Error>(())
/// ```
#[derive(Clone)]
pub struct DataType {
    text: String,
    rows: Vec<u32>,
}

/// Whether the Arrow columnar format can lay a type out.
#[derive(Clone, Copy, Debug, PartialEq, Eq, Hash)]
pub enum Verdict {
    /// It can.
    Yes,
    /// The first row that breaks a rule: a dictionary key that is none of the eight integer types, or run ends that are
    /// not Int16, Int32 or Int64.
    Row(usize),
}

impl DataType {
    /// A type from a text and row words, such as `into_parts` gives or another program has stored.
    ///
    /// They must be a sound tree, else this is refused with [`Error::NotSound`].
    ///
    /// ```
    /// use arrow_types::{DataType, Error};
    ///
    /// let words = [16, 1, 0, 0, 1, 0, 0, 0, 0, 0, 0, 0];
    /// assert_eq!(DataType::from_parts("", words)?.to_string(), "Time32(ms)");
    ///
    /// let words = [16, 1, 0, 0, 3, 0, 0, 0, 0, 0, 0, 0];
    /// assert_eq!(DataType::from_parts("", words), Err(Error::NotSound));
    /// # Ok::<(), Error>(())
    /// ```
    ///
    /// Rows that were stored when a row had eleven words, without its parent's number, are refused so too: a tree that
    /// was sound then is never taken for one of twelve words a row. [`widen_rows`](crate::widen_rows) makes twelve words
    /// of eleven.
    ///
    /// ```
    /// use arrow_types::{DataType, Error, widen_rows};
    ///
    /// let stored = [16, 1, 0, 0, 1, 0, 0, 0, 0, 0, 0];
    /// assert_eq!(DataType::from_parts("", stored), Err(Error::NotSound));
    /// assert_eq!(DataType::from_parts("", widen_rows(&stored))?.to_string(), "Time32(ms)");
    /// # Ok::<(), Error>(())
    /// ```
    pub fn from_parts(
        text: impl Into<Vec<u8>>,
        rows: impl Into<Vec<u32>>,
    ) -> Result<DataType, Error> {
        let (text, rows) = (text.into(), rows.into());
        let tree = Tree {
            text: &text,
            rows: &rows,
        };
        if !ffi::is_sound(tree) {
            return Err(Error::NotSound);
        }
        let text = String::from_utf8(text).map_err(|_| Error::NotSound)?;
        Ok(DataType { text, rows })
    }

    /// The text and the row words.
    pub fn into_parts(self) -> (String, Vec<u32>) {
        (self.text, self.rows)
    }

    /// The text that the rows point into: as it was read.
    pub fn text(&self) -> &str {
        &self.text
    }

    /// The row words, [`ROW_WORDS`] for each row: those of document 01's row table, and the parent's number of document
    /// 02.
    pub fn rows(&self) -> &[u32] {
        &self.rows
    }

    /// Reads a text, which the type keeps.
    pub(crate) fn read(text: String) -> Result<DataType, ReadError> {
        let rows = read(text.as_bytes())?;
        Ok(DataType { text, rows })
    }

    pub(crate) fn tree(&self) -> Tree<'_> {
        Tree {
            text: self.text.as_bytes(),
            rows: &self.rows,
        }
    }

    /// How many rows the tree has, 1 to 1,024.
    pub fn row_count(&self) -> usize {
        self.rows.len() / ROW_WORDS
    }

    /// How deep the tree is, 1 to 64.
    pub fn depth(&self) -> usize {
        ffi::depth(self.tree()).expect("the tree is sound")
    }

    /// The layout verdict.
    ///
    /// ```
    /// use arrow_types::{DataType, Kind, Verdict};
    ///
    /// let good: DataType = "Dictionary(UInt8, Utf8)".parse()?;
    /// assert_eq!(good.verdict(), Verdict::Yes);
    ///
    /// let bad: DataType = "Dictionary(Utf8, Int32)".parse()?;
    /// assert_eq!(bad.verdict(), Verdict::Row(1));
    /// assert_eq!(bad.row(1).unwrap().kind(), Kind::Utf8);
    /// # Ok::<(), arrow_types::Error>(())
    /// ```
    pub fn verdict(&self) -> Verdict {
        match ffi::verdict(self.tree()).expect("the tree is sound") {
            None => Verdict::Yes,
            Some(row) => Verdict::Row(row),
        }
    }

    /// The printed text, in the default spelling: with `us` for microseconds.
    ///
    /// A type can be refused: with [`Error::NotLatin`] if a name or zone that prints in double quotes holds a character
    /// above U+017F, with [`Error::PrintTooLong`] if the text would be longer than 16,384 bytes.
    ///
    /// ```
    /// use arrow_types::{DataType, Error};
    ///
    /// let row: DataType = r#"Struct("Küche":Int8)"#.parse()?;
    /// assert_eq!(row.print()?, r#"Struct("Küche": Int8)"#);
    ///
    /// let list: DataType = "List(Int8, field: 'дом')".parse()?;
    /// assert_eq!(list.print()?, "List(Int8, field: 'дом')");
    ///
    /// let row: DataType = r#"Struct("дом": Int8)"#.parse()?;
    /// assert_eq!(row.print(), Err(Error::NotLatin));
    /// # Ok::<(), Error>(())
    /// ```
    pub fn print(&self) -> Result<String, Error> {
        self.print_with(Spelling::default())
    }

    /// The printed text in a spelling, which is refused as [`print`](DataType::print) says. It is this text that may not
    /// be longer than 16,384 bytes.
    pub fn print_with(&self, spelling: Spelling) -> Result<String, Error> {
        print(self.tree(), spelling)
    }

    /// The row of the whole type.
    pub fn root(&self) -> Field<'_> {
        Field::new(self, 0)
    }

    /// A row by its place, from 0.
    pub fn row(&self, row: usize) -> Option<Field<'_>> {
        (row < self.row_count()).then(|| Field::new(self, row))
    }

    /// What the type contains: the fields of a Struct, say.
    ///
    /// ```
    /// use arrow_types::DataType;
    ///
    /// let row: DataType = r#"Struct("from": Timestamp(s, "CET"), "to": Timestamp(s, "EET"))"#.parse()?;
    /// let zones: Vec<_> = row.fields().map(|field| field.zone()).collect();
    /// assert_eq!(zones, [Some("CET"), Some("EET")]);
    /// # Ok::<(), arrow_types::Error>(())
    /// ```
    pub fn fields(&self) -> Children<'_> {
        self.root().children()
    }

    /// The first of these with a name. Equal names are no fault in a type.
    pub fn field(&self, name: &str) -> Option<Field<'_>> {
        self.root().child(name)
    }
}

/// Reads any bytes. Those that are not UTF-8 are refused with [`Error::NotUtf8`].
///
/// ```
/// use arrow_types::{DataType, Error};
///
/// assert_eq!(DataType::try_from(b"Int32".as_slice())?.to_string(), "Int32");
/// assert_eq!(DataType::try_from(b"\xff".as_slice()).unwrap_err().error(), Error::NotUtf8);
/// # Ok::<(), Error>(())
/// ```
impl TryFrom<&[u8]> for DataType {
    type Error = ReadError;

    fn try_from(text: &[u8]) -> Result<DataType, ReadError> {
        let rows = read(text)?;
        let text = std::str::from_utf8(text).map_err(|_| ReadError::new(Error::NotUtf8, 0))?;
        Ok(DataType {
            text: text.to_owned(),
            rows,
        })
    }
}

/// Reads a text.
///
/// ```
/// use arrow_types::{DataType, Error};
///
/// let list: DataType = "FixedSizeList(4, Int32)".parse()?;
/// assert_eq!(list.to_string(), "FixedSizeList(4 x Int32)");
///
/// let error = "Time32(us)".parse::<DataType>().unwrap_err();
/// assert_eq!((error.error(), error.place()), (Error::WrongTimeUnit, 7));
/// # Ok::<(), Error>(())
/// ```
impl FromStr for DataType {
    type Err = ReadError;

    fn from_str(text: &str) -> Result<DataType, ReadError> {
        Ok(DataType {
            rows: read(text.as_bytes())?,
            text: text.to_owned(),
        })
    }
}

/// The rows of a text. Where those lent by its length run out it is refused in any case, and all rows give it its own
/// number and place.
fn read(text: &[u8]) -> Result<Vec<u32>, ReadError> {
    buffers::with_rows(|rows| {
        let lent = ffi::rows_to_lend(text.len()) * ROW_WORDS;
        let count = match ffi::read(text, &mut rows[..lent]) {
            Err(error) if error.error() == Error::TooManyRows => ffi::read(text, rows)?,
            answer => answer?,
        };
        Ok(rows[..count * ROW_WORDS].to_vec())
    })
}

/// The printed text of a sound tree in a spelling.
pub(crate) fn print(tree: Tree<'_>, spelling: Spelling) -> Result<String, Error> {
    buffers::with_out(|out| {
        let length = ffi::print(tree, spelling, out)?;
        let printed = std::str::from_utf8(&out[..length]);
        Ok(printed.expect("a sound tree prints UTF-8").to_owned())
    })
}

/// Writes the printed text, in the default spelling.
///
/// A type that [`DataType::print`] refuses gives `fmt::Error`. `write!` and `writeln!` into a `fmt::Write`, such as a
/// `String`, hand that on. All others **panic**, as they do for every such type: `to_string`, `format!`, `print!`,
/// `println!`, `eprint!`, `eprintln!`, and `write!` and `writeln!` into an `io::Write`, and so a logger's macros where it
/// writes by one of these. The message of `panic!`, `assert!` and their like ends where the type would stand. So where names
/// come from outside, call [`print`](DataType::print), or [`lossy`](DataType::lossy) for a log, or show the type by `{:?}`;
/// these never panic.
impl fmt::Display for DataType {
    fn fmt(&self, formatter: &mut fmt::Formatter<'_>) -> fmt::Result {
        let printed = self.print().map_err(|_| fmt::Error)?;
        formatter.write_str(&printed)
    }
}

/// Shows the printed text, or text and rows of a type that is not printed.
impl fmt::Debug for DataType {
    fn fmt(&self, formatter: &mut fmt::Formatter<'_>) -> fmt::Result {
        match self.print() {
            Ok(printed) => write!(formatter, "DataType({printed})"),
            Err(_) => {
                let rows: Vec<&[u32]> = self.rows.chunks(ROW_WORDS).collect();
                let mut shown = formatter.debug_struct("DataType");
                shown
                    .field("text", &self.text)
                    .field("rows", &rows)
                    .finish()
            }
        }
    }
}

impl PartialEq for DataType {
    fn eq(&self, other: &DataType) -> bool {
        ffi::equal(self.tree(), other.tree())
    }
}

impl Eq for DataType {}
