//! Names and zones set end to end, for types that are put together from others.

use crate::ROW_WORDS;
use crate::field::{IN_TEXT, word};

/// The words of a row that are places in the text: its name's, if that stands there, and its zone's, if it has one. The
/// word behind each is the length.
fn places(row: &[u32]) -> impl Iterator<Item = usize> + use<> {
    let name = (row[word::HOME] == IN_TEXT).then_some(word::NAME_START);
    let zone = (row[word::ZONE_LENGTH] > 0).then_some(word::ZONE_START);
    name.into_iter().chain(zone)
}

/// Copies the names and zones of sound rows behind a text, row by row, the name before the zone, and sets the rows'
/// places to where they stand in it.
///
/// A name of the name list stays there, with home 2, and takes no bytes of the text. The core packs otherwise
/// (`packing::Packer`, by which `DataType::without_field` answers): there each name has home 1 and stands in the text. Both
/// say the same, so the types are equal; their rows and texts are not.
pub fn pack(from: &str, rows: &mut [u32], text: &mut String) {
    for row in rows.chunks_exact_mut(ROW_WORDS) {
        for at in places(row) {
            let (start, length) = (row[at] as usize, row[at + 1] as usize);
            row[at] = place_behind(text);
            text.push_str(&from[start..start + length]);
        }
    }
}

/// The place behind a text, as a word. No text is sound that it does not fit.
pub fn place_behind(text: &str) -> u32 {
    u32::try_from(text.len()).unwrap_or(u32::MAX)
}
