//! A text rewritten, and read back to see that nothing is lost.

use crate::{Error, ReadError, Spelling, buffers, ffi};
use std::fmt;

/// Why a text is not rewritten.
#[derive(Clone, Copy, Debug, PartialEq, Eq, Hash)]
pub enum RewriteError {
    /// The text is not read.
    Read(ReadError),
    /// The type is not printed.
    Print(Error),
    /// What is printed does not read back; the place is one in the printed text, which
    /// [`print_with`](crate::DataType::print_with) gives.
    ReadBack(ReadError),
    /// What is printed reads back as another type.
    Different,
}

/// Rewrites a text: reads it, prints the type in the default spelling, and answers what is printed if that reads back as the
/// same type. All of this is one call of the proved library.
///
/// So nothing is lost, a zone least of all: this is what a service that rewrites texts calls. A name or zone that prints in
/// double quotes and holds a double quote mark, a backslash, a control character, U+00A0 or U+00AD would change, since the
/// printer escapes what the reader takes as it stands; a text with one is refused.
///
/// ```
/// use arrow_types::{RewriteError, rewrite};
///
/// assert_eq!(rewrite(r#"Timestamp(Second, Some("CET"))"#)?, r#"Timestamp(s, "CET")"#);
/// assert_eq!(rewrite(r#"Timestamp(s, "C\"ET")"#), Err(RewriteError::Different));
/// assert!(matches!(rewrite("Time32(us)"), Err(RewriteError::Read(_))));
/// # Ok::<(), RewriteError>(())
/// ```
pub fn rewrite(text: impl AsRef<[u8]>) -> Result<String, RewriteError> {
    rewrite_with(text, Spelling::default())
}

/// Rewrites a text in a spelling, as [`rewrite`] does.
///
/// ```
/// use arrow_types::{RewriteError, Spelling, rewrite_with};
///
/// assert_eq!(rewrite_with("Duration(Microsecond)", Spelling::Us)?, "Duration(us)");
/// assert_eq!(rewrite_with("Duration(Microsecond)", Spelling::Micro)?, "Duration(µs)");
/// # Ok::<(), RewriteError>(())
/// ```
pub fn rewrite_with(text: impl AsRef<[u8]>, spelling: Spelling) -> Result<String, RewriteError> {
    buffers::with_room(|mut room| {
        let length = ffi::rewrite(text.as_ref(), spelling, &mut room)?;
        let printed = std::str::from_utf8(&room.out[..length]);
        Ok(printed.expect("a sound tree prints UTF-8").to_owned())
    })
}

/// What the step is, and why.
impl fmt::Display for RewriteError {
    fn fmt(&self, formatter: &mut fmt::Formatter<'_>) -> fmt::Result {
        match self {
            RewriteError::Read(error) => write!(formatter, "the text is not read: {error}"),
            RewriteError::Print(error) => write!(formatter, "the type is not printed: {error}"),
            RewriteError::ReadBack(error) => {
                write!(formatter, "what is printed does not read back: {error}")
            }
            RewriteError::Different => {
                formatter.write_str("what is printed reads back as another type")
            }
        }
    }
}

impl std::error::Error for RewriteError {}
