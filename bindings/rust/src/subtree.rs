//! A row with all that it contains, taken for itself: as a type, and printed.

use crate::data_type::print;
use crate::ffi::Tree;
use crate::field::word;
use crate::pack::pack;
use crate::{DataType, Error, Field, Kind, ROW_WORDS, Spelling, set_parents};
use std::fmt;

impl Field<'_> {
    /// The field's type, by itself: a bare type with all that the field contains. Its text is its names and zones, end to
    /// end, or the text of the whole type, if that is shorter. Names that stand in the name list, as the `item` of
    /// `List(Int8)` that was read, stay there; [`DataType::without_field`] has them in the text.
    ///
    /// ```
    /// use arrow_types::DataType;
    ///
    /// let row: DataType = r#"Struct("slots": non-null List(Timestamp(s, "CET")), "id": Int32)"#.parse()?;
    /// let slots = row.field("slots").unwrap().to_data_type();
    /// assert_eq!(slots, r#"List(Timestamp(s, "CET"))"#.parse()?);
    /// assert_eq!((slots.root().name(), slots.text()), (None, "CET"));
    /// # Ok::<(), Box<dyn std::error::Error>>(())
    /// ```
    pub fn to_data_type(self) -> DataType {
        let whole = self.data_type().text();
        let mut rows = bare_rows(self);
        let mut packed_rows = rows.clone();
        let mut text = String::new();
        pack(whole, &mut packed_rows, &mut text);
        // Names may overlap in a tree that was put together: end to end they can be longer than the text.
        if text.len() <= whole.len() {
            rows = packed_rows;
        } else {
            text = whole.to_owned();
        }
        DataType::from_parts(text, rows).expect("a subtree of a sound tree is sound")
    }

    /// The field as it is printed in a Struct, with its name and nullability; a bare type as it is printed alone.
    ///
    /// It is refused where [`DataType::print`] refuses the Struct that has this field alone: with
    /// [`Error::PrintTooLong`] if it has more than 16,376 bytes.
    ///
    /// ```
    /// use arrow_types::DataType;
    ///
    /// let row: DataType = r#"Struct("slot": non-null Timestamp(Second, Some("CET")))"#.parse()?;
    /// assert_eq!(row.field("slot").unwrap().print()?, r#""slot": non-null Timestamp(s, "CET")"#);
    /// # Ok::<(), Box<dyn std::error::Error>>(())
    /// ```
    pub fn print(self) -> Result<String, Error> {
        let text = self.data_type().text().as_bytes();
        if self.nullable().is_none() {
            let rows = &bare_rows(self);
            return print(Tree { text, rows }, Spelling::default());
        }
        let rows = &rows_in_struct(self);
        let printed = print(Tree { text, rows }, Spelling::default())?;
        let field = printed.strip_prefix("Struct(");
        let field = field.and_then(|field| field.strip_suffix(')'));
        Ok(field.expect("a Struct prints so").to_owned())
    }
}

/// The rows of a field as those of a bare type.
fn bare_rows(field: Field<'_>) -> Vec<u32> {
    let mut rows = field.words().to_vec();
    for at in [
        word::ROLE,
        word::UNION_ID,
        word::HOME,
        word::NAME_START,
        word::NAME_LENGTH,
    ] {
        rows[at] = 0;
    }
    set_parents(&mut rows);
    rows
}

/// The rows of the Struct that has a field alone.
fn rows_in_struct(field: Field<'_>) -> Vec<u32> {
    let mut rows = vec![0; ROW_WORDS];
    rows.extend(field.words());
    rows[word::KIND] = Kind::Struct.number();
    rows[word::ROWS] = field.word(word::ROWS) + 1;
    rows[ROW_WORDS + word::UNION_ID] = 0;
    set_parents(&mut rows);
    rows
}

/// Writes what [`Field::print`] answers. Where that refuses, this gives `fmt::Error`, and the macros that
/// [`DataType`](DataType#impl-Display-for-DataType) names panic.
///
/// ```
/// use arrow_types::DataType;
///
/// let row: DataType = r#"Union(Dense, 3: ("fault": non-null Utf8))"#.parse()?;
/// assert_eq!(row.field("fault").unwrap().to_string(), r#""fault": non-null Utf8"#);
/// # Ok::<(), Box<dyn std::error::Error>>(())
/// ```
impl fmt::Display for Field<'_> {
    fn fmt(&self, formatter: &mut fmt::Formatter<'_>) -> fmt::Result {
        let printed = self.print().map_err(|_| fmt::Error)?;
        formatter.write_str(&printed)
    }
}
