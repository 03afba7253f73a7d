//! What files from other systems bring along, said to a person.

/// A sentence, on a line of its own, for each such thing in a text that is refused.
pub fn hints(text: &[u8]) -> String {
    let mut hints = String::new();
    if text.starts_with(b"\xef\xbb\xbf") {
        hints += "The text begins with a byte order mark, which is no part of a type.\n";
    }
    if text.ends_with(b"\r") {
        hints +=
            "The text ends with a carriage return, which is no space; `tr -d '\\r'` removes it.\n";
    }
    hints
}
