//! Double-quoted names as they are printed: as Rust's `{:?}` writes them, escapes and characters of two bytes wherever
//! they stand, short names and long.

use arrow_types::{DataType, Error, ROW_WORDS};

/// A Struct of one Int8 field, whose name is the whole text.
fn named(name: &str) -> DataType {
    let size = u32::try_from(name.len()).unwrap();
    let mut rows = vec![0; 2 * ROW_WORDS];
    (rows[0], rows[1]) = (32, 2);
    rows[ROW_WORDS..].copy_from_slice(&[2, 1, 1, 0, 0, 0, 1, 0, size, 0, 0, 0]);
    DataType::from_parts(name.to_owned(), rows).unwrap()
}

fn assert_printed(name: &str) {
    assert_eq!(
        named(name).print().unwrap(),
        format!("Struct({name:?}: Int8)")
    );
}

#[test]
fn an_odd_character_at_each_place() {
    for length in 1..=70 {
        for place in 0..length {
            for odd in [
                "\0", "\t", "\n", "\r", "\u{1}", "\u{1f}", "\u{7f}", "\"", "\\", "\u{80}",
                "\u{a0}", "\u{a1}", "\u{ad}", "ü", "\u{ff}", "\u{17f}",
            ] {
                assert_printed(&("a".repeat(place) + odd + &"z".repeat(length - place - 1)));
            }
        }
    }
}

#[test]
fn escapes_alone_and_none() {
    for length in (1..=70).chain([1_000, 2_000]) {
        assert_printed(&"\u{1f}".repeat(length));
        assert_printed(&"\t".repeat(length));
        assert_printed(&" ~".repeat(length));
        assert_printed(&"\u{ad}".repeat(length));
        assert_printed(&"\u{a1}ü".repeat(length));
    }
}

#[test]
fn runs_between_escapes() {
    for run in 1..=40 {
        assert_printed(&("\n".to_owned() + &"x".repeat(run)).repeat(50));
        assert_printed(&("x".repeat(run) + "\\\"").repeat(50));
        assert_printed(&("x".repeat(run) + "\u{a0}¿ü").repeat(50));
    }
}

#[test]
fn the_longest() {
    assert_printed(&"n".repeat(16_368));
    assert_printed(&("\t".to_owned() + &"n".repeat(16_366)));
    assert_printed(&("n".repeat(16_366) + "\t"));
    for name in [
        "n".repeat(16_369),
        "n".repeat(16_384),
        "\t".repeat(9_000),
        "n".repeat(16_367) + "\t",
    ] {
        assert_eq!(named(&name).print().map_err(Error::number), Err(19));
    }
}
