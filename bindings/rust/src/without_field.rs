//! A type without one of its columns.

use crate::{DataType, Error, ROW_WORDS, buffers, ffi};

impl DataType {
    /// The type without one of its fields, counted from 0: the Struct of the others, in order. Without its only field it is
    /// `Struct()`.
    ///
    /// The new type owns a text and rows of its own. The text is the names and zones that stay, end to end, and has nothing of
    /// the field and of what it contained, neither names nor zones. This type is as it was, and still has them.
    ///
    /// It is refused, by the first of these that holds, if the type is not a Struct ([`Error::NotStruct`]), if it has no
    /// such field ([`Error::NoSuchField`]), or if names and zones take more than 16,384 bytes, end to end
    /// ([`Error::NoRoom`]). No type that was read is refused with the last: its text has more bytes than its names and zones.
    /// In types from stored rows names may overlap, or stand in the name list.
    ///
    /// ```
    /// use arrow_types::{DataType, Error};
    ///
    /// let row: DataType = r#"Struct("slot": non-null Timestamp(s, "CET"), "tenant": Utf8, "kwh": Int64)"#.parse()?;
    /// let shown = row.without_field(1)?;
    /// assert_eq!(shown.print()?, r#"Struct("slot": non-null Timestamp(s, "CET"), "kwh": Int64)"#);
    /// assert_eq!(shown.text(), "slotCETkwh");
    /// assert_eq!(row.without_field(3), Err(Error::NoSuchField));
    /// # Ok::<(), Error>(())
    /// ```
    ///
    /// All fields of a name, of which there may be several:
    ///
    /// ```
    /// use arrow_types::DataType;
    ///
    /// let mut row: DataType = r#"Struct("tenant": Utf8, "kwh": Int64, "tenant": Int32)"#.parse()?;
    /// while let Some(tenant) = row.fields().position(|field| field.name() == Some("tenant")) {
    ///     row = row.without_field(tenant)?;
    /// }
    /// assert_eq!(row.print()?, r#"Struct("kwh": Int64)"#);
    /// # Ok::<(), arrow_types::Error>(())
    /// ```
    pub fn without_field(&self, field: usize) -> Result<DataType, Error> {
        buffers::with_rows(|rows| {
            buffers::with_out(|text| {
                let (count, length) = ffi::take_column_out(self.tree(), field, rows, text)?;
                let left = DataType::from_parts(&text[..length], &rows[..count * ROW_WORDS]);
                Ok(left.expect("what stays is a sound tree"))
            })
        })
    }
}
