//! The parents of rows that did not come from this library's reader.

#[cfg(doc)]
use crate::{DataType, MAX_ROWS};
use crate::{ROW_WORDS, ffi};

/// Words to a row before rows had their parents: all but the last of today's.
const OLD_ROW_WORDS: usize = ROW_WORDS - 1;

/// Sets the parents of rows, word 11, of as many as the words hold, [`MAX_ROWS`] at the most.
///
/// Each is set to the row that it stands under: the last row before it whose subtree holds it by word 1, or 0 where
/// none does. All other words stay. It is for rows that a program puts together; whether they are a sound tree is for
/// [`DataType::from_parts`] to say.
///
/// ```
/// use arrow_types::{DataType, set_parents};
///
/// // A Dictionary and its key and value, both of which stand under row 0.
/// let mut rows = [34, 3, 0, 0, 0, 0, 0, 0, 0, 0, 0, 0].to_vec();
/// rows.extend([2, 1, 0, 0, 0, 0, 0, 0, 0, 0, 0, 9]);
/// rows.extend([24, 1, 0, 0, 0, 0, 0, 0, 0, 0, 0, 9]);
/// set_parents(&mut rows);
/// assert_eq!(DataType::from_parts("", rows)?.to_string(), "Dictionary(Int8, Utf8)");
/// # Ok::<(), arrow_types::Error>(())
/// ```
pub fn set_parents(rows: &mut [u32]) {
    ffi::set_parents(rows);
}

/// Rows of eleven words, as they were stored before rows had their parents, as rows of [`ROW_WORDS`]: each row's eleven
/// words, and its parent behind them.
///
/// [`DataType::from_parts`] refuses the old rows, and takes the new ones if the old ones were a sound tree with their
/// text. Words that make no whole row stay behind the rows, so that it refuses them too.
///
/// ```
/// use arrow_types::{DataType, Error, widen_rows};
///
/// let text = r#"Struct("at": Timestamp(s))"#;
/// let old = [32, 2, 0, 0, 0, 0, 0, 0, 0, 0, 0, 13, 1, 1, 0, 0, 0, 1, 8, 2, 0, 0];
/// assert_eq!(DataType::from_parts(text, old), Err(Error::NotSound));
///
/// let new = widen_rows(&old);
/// assert_eq!(DataType::from_parts(text, new)?, text.parse()?);
/// # Ok::<(), Error>(())
/// ```
pub fn widen_rows(rows: &[u32]) -> Vec<u32> {
    let old = rows.chunks_exact(OLD_ROW_WORDS);
    let left = old.remainder();
    let mut rows: Vec<u32> = old.flat_map(|row| row.iter().copied().chain([0])).collect();
    set_parents(&mut rows);
    rows.extend(left);
    rows
}
