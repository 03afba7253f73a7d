//! Which dictionary keys and run ends the Arrow columnar format can lay out.

use arrow_types::{DataType, Verdict};

fn verdict(text: &str) -> Verdict {
    text.parse::<DataType>().unwrap().verdict()
}

#[test]
fn a_dictionary_key_is_any_integer() {
    for key in [
        "Int8", "Int16", "Int32", "Int64", "UInt8", "UInt16", "UInt32", "UInt64",
    ] {
        let text = format!("Dictionary({key}, Utf8)");
        assert_eq!(verdict(&text), Verdict::Yes, "{text}");
    }
    for key in ["Null", "Boolean", "Float16", "Utf8", "List(Int8)"] {
        let text = format!("Dictionary({key}, Utf8)");
        assert_eq!(verdict(&text), Verdict::Row(1), "{text}");
    }
    assert_eq!(verdict("Dictionary(Utf8, Int32)"), Verdict::Row(1));
}

#[test]
fn the_row_is_the_keys_own() {
    let text = "Dictionary(UInt8, Dictionary(Utf8, Int8))";
    assert_eq!(verdict(text), Verdict::Row(3));
}

#[test]
fn run_ends_are_signed_and_of_16_bits_or_more() {
    for run_ends in ["Int16", "Int32", "Int64"] {
        let text = format!("RunEndEncoded(non-null {run_ends}, Utf8)");
        assert_eq!(verdict(&text), Verdict::Yes, "{text}");
    }
    for run_ends in ["Int8", "UInt8", "UInt16", "UInt32", "UInt64", "Float16"] {
        let text = format!("RunEndEncoded(non-null {run_ends}, Utf8)");
        assert_eq!(verdict(&text), Verdict::Row(1), "{text}");
    }
}
