//! Microseconds are printed as `us`, and as `µs` on request; both read back. Nothing else depends on the spelling.

use arrow_types::{DataType, Error, MAX_TEXT, Spelling};

fn read(text: &str) -> DataType {
    text.parse().expect("a type")
}

#[test]
fn the_default_is_us() {
    assert_eq!(Spelling::default(), Spelling::Us);
    for (text, plain, micro) in [
        ("Timestamp(us)", "Timestamp(us)", "Timestamp(µs)"),
        ("Timestamp(µs)", "Timestamp(us)", "Timestamp(µs)"),
        ("Duration(Microsecond)", "Duration(us)", "Duration(µs)"),
        ("Time64(us)", "Time64(us)", "Time64(µs)"),
        (
            "Timestamp(Microsecond, Some(\"CET\"))",
            "Timestamp(us, \"CET\")",
            "Timestamp(µs, \"CET\")",
        ),
    ] {
        let read = read(text);
        assert_eq!(read.print().unwrap(), plain);
        assert_eq!(read.to_string(), plain);
        assert_eq!(format!("{read:?}"), format!("DataType({plain})"));
        assert_eq!(read.print_with(Spelling::Us).unwrap(), plain);
        assert_eq!(read.print_with(Spelling::Micro).unwrap(), micro);
        assert_eq!(read, plain.parse().unwrap());
        assert_eq!(read, micro.parse().unwrap());
    }
}

#[test]
fn units_alone_differ() {
    let text = concat!(
        r#"Struct("us": Duration(s), "a": List(Time64(us), field: '(us)'), "b": Interval(DayTime), "#,
        r#""(us)": Timestamp(ns, "us"), "c": Timestamp(us, "(us)"))"#
    );
    let micro = text
        .replace("Time64(us", "Time64(µs")
        .replace("Timestamp(us", "Timestamp(µs");
    let read = read(text);
    assert_eq!(read.print().unwrap(), text);
    assert_eq!(read.print_with(Spelling::Micro).unwrap(), micro);
}

/// A micro sign in a name is no unit: it prints as it is, in single quotes and in double quotes.
#[test]
fn a_micro_sign_in_a_name() {
    let list = read("List(Duration(us), field: 'µs')");
    assert_eq!(list.print().unwrap(), "List(Duration(us), field: 'µs')");
    let micro = list.print_with(Spelling::Micro).unwrap();
    assert_eq!(micro, "List(Duration(µs), field: 'µs')");

    for (text, micro) in [
        (
            "Struct(\"(µs)\": Timestamp(us))",
            "Struct(\"(µs)\": Timestamp(µs))",
        ),
        ("Timestamp(us, \"µs\")", "Timestamp(µs, \"µs\")"),
        (
            "Union(Dense, 0: (\"us, µs\": Int8))",
            "Union(Dense, 0: (\"us, µs\": Int8))",
        ),
    ] {
        let read = read(text);
        assert_eq!(read.print_with(Spelling::Us).as_deref(), Ok(text));
        assert_eq!(read.print_with(Spelling::Micro).as_deref(), Ok(micro));
    }
}

/// A Struct with a field of a type, whose text has so many bytes.
fn of_length(length: usize, field: &str) -> String {
    let name = "a".repeat(length - format!("Struct(\"\": {field})").len());
    format!("Struct(\"{name}\": {field})")
}

/// The text that is too long or not is the one that is printed.
#[test]
fn the_longest_text() {
    let text = of_length(MAX_TEXT, "Timestamp(us)");
    let longest = read(&text);
    assert_eq!(longest.print().as_ref(), Ok(&text));
    let refused = longest.print_with(Spelling::Micro);
    assert_eq!(refused, Err(Error::PrintTooLong));

    let text = of_length(MAX_TEXT - 1, "Timestamp(us)");
    let shorter = read(&text);
    assert_eq!(shorter.print().as_ref(), Ok(&text));
    let printed = shorter.print_with(Spelling::Micro).unwrap();
    assert_eq!(printed.len(), MAX_TEXT);

    // Without microseconds the two are one.
    let text = of_length(MAX_TEXT, "Timestamp(ns)");
    let other = read(&text);
    assert_eq!(other.print().as_ref(), Ok(&text));
    assert_eq!(other.print_with(Spelling::Micro).as_ref(), Ok(&text));
}
