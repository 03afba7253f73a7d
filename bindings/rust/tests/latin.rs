//! Characters above 127 in double quotes: U+00A1 to U+017F print as themselves but for U+00AD, which prints by its number,
//! as U+0080 to U+00A0 do; those above are refused.

use arrow_types::{DataType, Error, MAX_TEXT, Spelling};

fn read(text: &str) -> DataType {
    text.parse().expect("a type")
}

/// What a text prints, in both spellings: it has no microseconds.
fn printed(text: &str) -> Result<String, Error> {
    let read = read(text);
    let printed = read.print();
    assert_eq!(read.print_with(Spelling::Micro), printed);
    printed
}

/// A text that prints as it is, and whose printed text reads back.
fn as_it_is(text: &str) {
    let printed = printed(text);
    assert_eq!(printed.as_deref(), Ok(text));
    assert_eq!(read(&printed.unwrap()), read(text));
}

#[test]
fn printed_as_themselves() {
    as_it_is("Struct(\"Küche\": Int8)");
    as_it_is("Timestamp(s, \"Zürich\")");
    as_it_is("Struct(\"\u{a1}\": Int8, \"\u{17f}\": Int8)");
    // Before the closing mark.
    as_it_is("Struct(\"a\u{ff}\": Int8)");
    let mut count = 0;
    for character in ('\u{a1}'..='\u{17f}').filter(|character| *character != '\u{ad}') {
        as_it_is(&format!(
            "Struct(\"{character}\": Int8, \"a{character}z\": Timestamp(s, \"{character}\"))"
        ));
        count += 1;
    }
    assert_eq!(count, 222);
}

#[test]
fn printed_by_their_number() {
    for (text, expected) in [
        ("Struct(\"\u{80}\": Int8)", r#"Struct("\u{80}": Int8)"#),
        ("Struct(\"\u{a0}\": Int8)", r#"Struct("\u{a0}": Int8)"#),
        ("Struct(\"\u{ad}\": Int8)", r#"Struct("\u{ad}": Int8)"#),
        (
            "Timestamp(s, \"\u{80}\u{a0}\u{ad}\")",
            r#"Timestamp(s, "\u{80}\u{a0}\u{ad}")"#,
        ),
    ] {
        assert_eq!(printed(text).as_deref(), Ok(expected));
    }
    // As Rust's `{:?}` has them.
    for character in ('\u{80}'..='\u{a0}').chain(['\u{ad}']) {
        let name = format!("a{character}z");
        let expected = format!("Struct({name:?}: Int8)");
        assert_eq!(expected.len(), r#"Struct("a\u{80}z": Int8)"#.len());
        assert_eq!(printed(&format!("Struct(\"{name}\": Int8)")), Ok(expected));
    }
}

#[test]
fn refused() {
    for text in [
        "Struct(\"\u{180}\": Int8)",
        "Struct(\"a\u{180}ü\": Int8)",
        "Timestamp(s, \"ü\u{180}\")",
        "List(Struct(\"дом\": Int8), field: 'a')",
    ] {
        assert_eq!(printed(text), Err(Error::NotLatin), "{text}");
    }
    // A list's name prints as it is.
    as_it_is("List(Int8, field: '\u{180}')");
    as_it_is("List(Int8, field: '\u{80}\u{ad}\u{180}дом')");
}

/// 18 comes before 19.
#[test]
fn refused_where_the_text_is_too_long_too() {
    let tabs = "\t".repeat(9_000);
    let long = format!("Struct(\"{tabs}\u{17f}\": Int8)");
    assert_eq!(printed(&long), Err(Error::PrintTooLong));
    let long = format!("Struct(\"{tabs}\u{180}\": Int8)");
    assert_eq!(printed(&long), Err(Error::NotLatin));
    let behind = format!("Struct(\"{tabs}\": Int8, \"\u{180}\": Int8)");
    assert_eq!(printed(&behind), Err(Error::NotLatin));
}

/// A no-break space is two bytes, and prints as six.
#[test]
fn the_longest_text() {
    let spaces = |count| format!("Struct(\"{}\": Int8)", "\u{a0}".repeat(count));
    let longest = printed(&spaces(2_728)).unwrap();
    assert_eq!(longest.len(), MAX_TEXT);
    assert_eq!(longest, spaces(2_728).replace('\u{a0}', r"\u{a0}"));
    assert_eq!(printed(&spaces(2_729)), Err(Error::PrintTooLong));
}
