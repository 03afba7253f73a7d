//! A place in a text, drawn for a person.

/// The columns of a screen.
const SCREEN: usize = 80;

/// What stands before the text, so that spaces at its start are seen.
const MARGIN: &str = " | ";

/// The columns that are left for the text.
const ROOM: usize = SCREEN - MARGIN.len();

/// What stands for a part that is cut off.
const CUT: &str = "...";

/// How many bytes before the place, and behind it, can be in the picture: a character takes four at the most and one
/// column at the least.
const REACH: usize = 4 * SCREEN;

/// The text around a place, and a caret under the character that the place is in, or behind the last one.
pub fn picture(text: &[u8], place: usize) -> String {
    let (before, behind) = around(text, place.min(text.len()));
    // Both sides get half of the room, and what the other side leaves.
    let left = ROOM.saturating_sub(columns(&behind.concat()).max(1));
    let before = last_of(&before, left.max(ROOM / 2));
    let caret = columns(&before);
    let behind = first_of(&behind, ROOM - caret);
    format!("{MARGIN}{before}{behind}\n{MARGIN}{:caret$}^", "")
}

/// The characters before a place, and those from the one that it is in on, as they are drawn.
fn around(text: &[u8], place: usize) -> (Vec<String>, Vec<String>) {
    let mut end = place.saturating_sub(REACH);
    let part = &text[end..text.len().min(place + REACH)];
    let (mut before, mut behind) = (Vec::new(), Vec::new());
    for (bytes, drawn) in characters(part) {
        end += bytes;
        let side = if end <= place {
            &mut before
        } else {
            &mut behind
        };
        side.push(drawn);
    }
    (before, behind)
}

/// How many bytes each character has, and how it is drawn; bytes that are not UTF-8 one by one.
fn characters(text: &[u8]) -> impl Iterator<Item = (usize, String)> {
    text.utf8_chunks().flat_map(|chunk| {
        let valid = chunk.valid().chars();
        let invalid = chunk.invalid().iter();
        valid
            .map(|character| (character.len_utf8(), drawn(character)))
            .chain(invalid.map(|byte| (1, format!("<{byte:02X}>"))))
    })
}

fn drawn(character: char) -> String {
    if is_shown(character) {
        character.to_string()
    } else {
        format!("<U+{:04X}>", u32::from(character))
    }
}

/// Whether a character shows, and takes as many columns as [`width`] says.
///
/// `{:?}` escapes controls, spaces but the plain one, unassigned characters and those without a width, and besides them
/// the quote marks and the backslash. It lets pass what is blank for another reason, and symbols and pictographs about
/// whose width terminals disagree.
fn is_shown(character: char) -> bool {
    let unsure = matches!(character,
        '\u{115f}'..='\u{11ff}' | '\u{d7b0}'..='\u{d7ff}' // fillers and parts of Hangul syllables
        | '\u{2800}' | '\u{3164}' | '\u{ffa0}' // blanks
        | '\u{2300}'..='\u{23ff}' | '\u{25fd}' | '\u{25fe}' | '\u{2600}'..='\u{27bf}' // symbols
        | '\u{2b00}'..='\u{2bff}' | '\u{3248}'..='\u{324f}' | '\u{1f000}'..='\u{1faff}'); // and pictographs
    let escaped = character.escape_debug().count() > 1;
    !unsure && (!escaped || matches!(character, '"' | '\'' | '\\'))
}

/// How many columns what is drawn takes.
fn columns(drawn: &str) -> usize {
    drawn.chars().map(width).sum()
}

/// The columns of a character that is shown: two of the letters of East Asia that are as wide as they are high.
fn width(character: char) -> usize {
    match character {
        '\u{1100}'..='\u{115e}' | '\u{2e80}'..='\u{303e}' | '\u{3041}'..='\u{4dbf}' => 2,
        '\u{4e00}'..='\u{a4cf}' | '\u{a960}'..='\u{a97f}' | '\u{ac00}'..='\u{d7a3}' => 2,
        '\u{f900}'..='\u{faff}' | '\u{fe10}'..='\u{fe6f}' | '\u{ff01}'..='\u{ff60}' => 2,
        '\u{ffe0}'..='\u{ffe6}' | '\u{16fe0}'..='\u{1b2ff}' | '\u{20000}'..='\u{3ffff}' => 2,
        _ => 1,
    }
}

/// As many of the last characters as there is room for.
fn last_of(drawn: &[String], room: usize) -> String {
    match fitting(drawn.iter().rev(), room) {
        None => drawn.concat(),
        Some(count) => CUT.to_owned() + &drawn[drawn.len() - count..].concat(),
    }
}

/// As many of the first characters as there is room for.
fn first_of(drawn: &[String], room: usize) -> String {
    match fitting(drawn.iter(), room) {
        None => drawn.concat(),
        Some(count) => drawn[..count].concat() + CUT,
    }
}

/// How many characters fit into the room beside the dots; none where all of them fit without.
fn fitting<'a>(drawn: impl Iterator<Item = &'a String>, room: usize) -> Option<usize> {
    let mut used = 0;
    let mut count = 0;
    for drawn in drawn {
        used += columns(drawn);
        if used > room {
            return Some(count);
        }
        count += usize::from(used + CUT.len() <= room);
    }
    None
}
