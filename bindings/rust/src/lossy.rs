//! A type for a log: shown in any case.

use crate::DataType;
use std::fmt;

/// Shows a type whether or not it prints: what [`DataType::lossy`] gives.
#[derive(Clone, Copy, Debug)]
pub struct Lossy<'a>(&'a DataType);

impl DataType {
    /// The type for a log: shown by [`Lossy`], which never fails, so that no formatting of it panics.
    ///
    /// It is the printed text, or, of a type that [`print`](DataType::print) refuses, the number and the text that its
    /// names stand in, which is the one it was read from: `<18: "..">`, on one line. No reader takes that for a type.
    ///
    /// ```
    /// use arrow_types::DataType;
    ///
    /// let at: DataType = r#"Timestamp(Second, "CET")"#.parse()?;
    /// assert_eq!(at.lossy().to_string(), r#"Timestamp(s, "CET")"#);
    ///
    /// let list: DataType = r#"Timestamp(s, "北京")"#.parse()?;
    /// assert!(list.print().is_err());
    /// assert_eq!(list.lossy().to_string(), r#"<18: "Timestamp(s, \"北京\")">"#);
    /// assert!(list.lossy().to_string().parse::<DataType>().is_err());
    /// # Ok::<(), Box<dyn std::error::Error>>(())
    /// ```
    ///
    /// Names of lists print as they are: where one has a line's end, the printed text has it too.
    pub fn lossy(&self) -> Lossy<'_> {
        Lossy(self)
    }
}

impl fmt::Display for Lossy<'_> {
    fn fmt(&self, formatter: &mut fmt::Formatter<'_>) -> fmt::Result {
        match self.0.print() {
            Ok(printed) => formatter.write_str(&printed),
            Err(error) => write!(formatter, "<{}: {:?}>", error.number(), self.0.text()),
        }
    }
}
