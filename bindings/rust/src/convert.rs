//! Types from strings, by `try_from`.

use crate::DataType;
use std::str::FromStr;

/// Reads a text, as `parse` does.
///
/// ```
/// use arrow_types::DataType;
///
/// assert_eq!(DataType::try_from("Timestamp(Second)")?.to_string(), "Timestamp(s)");
/// # Ok::<(), Box<dyn std::error::Error>>(())
/// ```
impl TryFrom<&str> for DataType {
    type Error = <DataType as FromStr>::Err;

    fn try_from(text: &str) -> Result<DataType, Self::Error> {
        text.parse()
    }
}

/// Reads a text and keeps it: a string that is at hand is not copied.
///
/// ```
/// use arrow_types::DataType;
///
/// let text = String::from("List(Int8)");
/// let at = text.as_ptr();
/// let list = DataType::try_from(text)?;
/// assert_eq!(list.text(), "List(Int8)");
/// assert_eq!(list.text().as_ptr(), at);
/// # Ok::<(), Box<dyn std::error::Error>>(())
/// ```
impl TryFrom<String> for DataType {
    type Error = <DataType as FromStr>::Err;

    fn try_from(text: String) -> Result<DataType, Self::Error> {
        DataType::read(text)
    }
}
