//! A text rewritten: what is printed reads back as the same type, or the step that fails.

use arrow_types::{DataType, Error, RewriteError, Spelling, rewrite, rewrite_with};

#[test]
fn texts_that_stay_the_same_type() {
    for (text, printed) in [
        ("Timestamp(Second, Some(\"CET\"))", "Timestamp(s, \"CET\")"),
        ("Timestamp(µs, \"Küche\")", "Timestamp(us, \"Küche\")"),
        ("Struct( \"a\":Int8 , )", "Struct(\"a\": Int8)"),
        ("List(Int8, field: 'größe')", "List(Int8, field: 'größe')"),
        ("List(Int8, field: 'item')", "List(Int8)"),
    ] {
        assert_eq!(rewrite(text).as_deref(), Ok(printed));
        assert_eq!(rewrite(printed).as_deref(), Ok(printed));
        assert_eq!(text.parse::<DataType>(), printed.parse());
    }
    assert_eq!(rewrite(b"Int8".as_slice()).as_deref(), Ok("Int8"));
    assert_eq!(rewrite(String::from("Int8")).as_deref(), Ok("Int8"));
}

#[test]
fn spellings() {
    for text in ["Timestamp(us)", "Timestamp(µs)", "Timestamp(Microsecond)"] {
        assert_eq!(rewrite(text).as_deref(), Ok("Timestamp(us)"));
        let micro = rewrite_with(text, Spelling::Micro);
        assert_eq!(micro.as_deref(), Ok("Timestamp(µs)"));
        assert_eq!(rewrite_with(text, Spelling::Us), rewrite(text));
    }
}

/// A text of as many bytes as there may be, which is longer as `µs`.
#[test]
fn the_longest_text() {
    let name = "a".repeat(16_384 - "Struct(\"\": Time64(us))".len());
    let text = format!("Struct(\"{name}\": Time64(us))");
    assert_eq!(rewrite(&text).as_deref(), Ok(text.as_str()));
    let micro = rewrite_with(&text, Spelling::Micro);
    assert_eq!(micro, Err(RewriteError::Print(Error::PrintTooLong)));
    let longer = rewrite(format!("{text} ")).unwrap_err();
    assert!(matches!(longer, RewriteError::Read(error) if error.error() == Error::TextTooLong));
}

/// As many rows as there may be, and as many levels.
#[test]
fn the_largest_types() {
    let fields = vec!["\"a\": Int8"; 1_023].join(", ");
    let wide = format!("Struct({fields})");
    assert_eq!(rewrite(&wide).as_deref(), Ok(wide.as_str()));
    let deep = format!("{}Int8{}", "List(".repeat(63), ")".repeat(63));
    assert_eq!(rewrite(&deep).as_deref(), Ok(deep.as_str()));
}

#[test]
fn each_step_may_fail() {
    let refused = |text: &str| rewrite(text).unwrap_err();
    let read = "Time32(us)".parse::<DataType>().unwrap_err();
    assert_eq!(refused("Time32(us)"), RewriteError::Read(read));
    let not_utf8 = rewrite(b"\xff".as_slice()).unwrap_err();
    assert!(matches!(not_utf8, RewriteError::Read(error) if error.error() == Error::NotUtf8));
    assert_eq!(
        refused("Timestamp(s, \"北京\")"),
        RewriteError::Print(Error::NotLatin)
    );
    // A tab prints as `\t`, and that backslash keeps the closing mark.
    let back = r#"Struct("a\tb": Int8)"#.parse::<DataType>().unwrap_err();
    assert_eq!(
        refused("Struct(\"a\tb\": Int8)"),
        RewriteError::ReadBack(back)
    );
}

/// A name or zone with a backslash before its mark, and one with a character that prints as its number.
#[test]
fn texts_that_would_become_another_type() {
    for text in [
        r#"Timestamp(s, "C\"ET")"#,
        r#"Struct("a\"b": Int8)"#,
        r#"Struct("slot": Timestamp(s, "\"CET\"x"))"#,
        "Struct(\"a\\\"\u{a0}\\\"b\": Int8)",
    ] {
        assert_eq!(rewrite(text), Err(RewriteError::Different), "{text}");
    }
}

#[test]
fn sentences() {
    let said = |text: &str| rewrite(text).unwrap_err().to_string();
    assert_eq!(
        said("Int9"),
        "the text is not read: a word is neither known nor a number of 64 bits, at byte 0"
    );
    assert_eq!(
        said("Timestamp(s, \"北\")"),
        "the type is not printed: a name or zone to print in double quotes has a character above U+017F"
    );
    assert_eq!(
        said("Struct(\"\t\": Int8)"),
        "what is printed does not read back: a quoted string never ends, at byte 7"
    );
    assert_eq!(
        said(r#"Timestamp(s, "C\"ET")"#),
        "what is printed reads back as another type"
    );
}
