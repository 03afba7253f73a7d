//! How many rows to lend, and what is read with as many and with fewer.

use arrow_types::{DataType, Error, MAX_ROWS, ROW_WORDS, ReadError, read, rows_to_lend};

/// What reading a text answers with so many rows lent.
fn with_rows(text: &str, rows: usize) -> Result<usize, ReadError> {
    read(text.as_bytes(), &mut vec![7; rows * ROW_WORDS])
}

/// How a text is refused with so many rows lent, and where.
fn refused_with(text: &str, rows: usize) -> (Error, usize) {
    let error = with_rows(text, rows).unwrap_err();
    (error.error(), error.place())
}

#[test]
fn small_texts() {
    for (text, rows) in [("Int8", 1), ("Struct()", 1), ("List(List(Int8))", 3)] {
        assert_eq!(rows_to_lend(text.len()), rows);
        assert_eq!(with_rows(text, rows), Ok(rows));
        assert_eq!(refused_with(text, rows - 1).0, Error::TooManyRows);
    }
    assert_eq!(
        refused_with("List(List(Int8))", 2),
        (Error::TooManyRows, 10)
    );
    assert_eq!(rows_to_lend(0), 0);
    assert_eq!(refused_with("", 0), (Error::TooManyRows, 0));
}

#[test]
fn limits() {
    assert_eq!(rows_to_lend(5_118), 1_023);
    assert_eq!(rows_to_lend(5_119), MAX_ROWS);
    assert_eq!(rows_to_lend(usize::MAX), MAX_ROWS);
}

/// A refused text has the number and the place that 1,024 rows give it, whether or not those lent by its length run out
/// before.
#[test]
fn refusals_keep_their_numbers() {
    let rows = Error::TooManyRows;
    for (text, first, own) in [
        ("", (rows, 0), (Error::TextEnds, 0)),
        ("@", (rows, 0), (Error::UnknownWord, 0)),
        ("Map", (rows, 0), (Error::TextEnds, 3)),
        ("List(Map", (rows, 5), (Error::TextEnds, 8)),
        ("List(List(", (rows, 10), (Error::TextEnds, 10)),
        ("Int7", (Error::UnknownWord, 0), (Error::UnknownWord, 0)),
        (
            "Time32(us)",
            (Error::WrongTimeUnit, 7),
            (Error::WrongTimeUnit, 7),
        ),
    ] {
        assert_eq!(refused_with(text, rows_to_lend(text.len())), first);
        assert_eq!(refused_with(text, MAX_ROWS), own);
        let all = with_rows(text, MAX_ROWS).unwrap_err();
        assert_eq!(text.parse::<DataType>(), Err(all));
        assert_ne!(all.error(), Error::TooManyRows);
    }
}
