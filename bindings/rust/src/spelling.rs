//! How microseconds are printed.

/// How microseconds are printed. Both are read, as the same unit.
///
/// ```
/// use arrow_types::{DataType, Spelling};
///
/// let duration: DataType = "Duration(Microsecond)".parse()?;
/// assert_eq!(duration.print()?, "Duration(us)");
/// assert_eq!(duration.print_with(Spelling::Micro)?, "Duration(µs)");
/// # Ok::<(), arrow_types::Error>(())
/// ```
#[derive(Clone, Copy, Debug, Default, PartialEq, Eq, Hash)]
pub enum Spelling {
    /// `us`, the default.
    #[default]
    Us,
    /// `µs`, as arrow-schema prints it: for what is compared with that.
    Micro,
}
