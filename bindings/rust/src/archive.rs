//! Types in the archive record.

use crate::{DataType, Error, RECORD_BYTES, ROW_WORDS, buffers, ffi};

/// The words of a row that say how long its name and its zone are.
const NAME_LENGTH: usize = 8;
const ZONE_LENGTH: usize = 10;

impl DataType {
    /// The type's image: the bytes of its record in the archive, which has the records of its children in it. No type is
    /// refused.
    ///
    /// Equal types have the same image, however their texts spell them. It has [`RECORD_BYTES`](crate::RECORD_BYTES) bytes for
    /// each row, and the bytes of all names and zones.
    ///
    /// ```
    /// use arrow_types::DataType;
    ///
    /// let slot: DataType = r#"Timestamp(Second, Some("CET"))"#.parse()?;
    /// let image = slot.to_archive();
    /// assert_eq!(image, b"\x14\0\0\0\x0d\0\0\0\0\0\0\0\0\0\0\x03\0CET");
    ///
    /// let again: DataType = r#"Timestamp(s, "CET")"#.parse()?;
    /// assert_eq!(again.to_archive(), image);
    /// # Ok::<(), arrow_types::Error>(())
    /// ```
    pub fn to_archive(&self) -> Vec<u8> {
        let length = self.rows().chunks(ROW_WORDS).map(record_length).sum();
        let mut image = vec![0; length];
        let written = ffi::to_archive(self.tree(), &mut image);
        assert_eq!(written, Ok(length), "the image has just this length");
        image
    }

    /// The type of an image, over a text of its own: the names and zones end to end. Whatever is read has this image and no
    /// other.
    ///
    /// It is refused, by the first in the image of these, if a length is not whole, or runs past its record, its parent's or
    /// the image, or is too short for a record ([`Error::WrongLength`]), if there is no such kind ([`Error::UnknownKind`]), or
    /// if there are more than 1,024 rows, or more than 16,384 bytes of names and zones ([`Error::NoRoom`]); then if bytes
    /// stand behind the record ([`Error::WrongLength`] too); and then if it says no sound tree ([`Error::NotSound`]).
    ///
    /// The image of a type that was read is never refused: its text has at least as many bytes as its names and zones. In types
    /// from stored rows names may overlap, or stand in the name list, and the image of such a type may be refused with
    /// [`Error::NoRoom`].
    ///
    /// ```
    /// use arrow_types::{DataType, Error};
    ///
    /// let row: DataType = r#"Struct("slot": non-null Timestamp(s, "CET"), "kwh": List(Int64))"#.parse()?;
    /// let image = row.to_archive();
    /// let stored = DataType::from_archive(&image)?;
    /// assert_eq!(stored, row);
    /// assert_eq!(stored.text(), "slotCETkwhitem");
    ///
    /// assert_eq!(DataType::from_archive(&image[1..]), Err(Error::WrongLength));
    /// # Ok::<(), Error>(())
    /// ```
    pub fn from_archive(image: &[u8]) -> Result<DataType, Error> {
        buffers::with_rows(|rows| {
            buffers::with_out(|text| {
                let (count, length) = ffi::from_archive(image, rows, text)?;
                let read = DataType::from_parts(&text[..length], &rows[..count * ROW_WORDS]);
                Ok(read.expect("what is read is a sound tree"))
            })
        })
    }
}

/// How many bytes a row's record has without its children's.
fn record_length(row: &[u32]) -> usize {
    RECORD_BYTES + row[NAME_LENGTH] as usize + row[ZONE_LENGTH] as usize
}
