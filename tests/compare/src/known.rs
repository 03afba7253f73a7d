//! Texts whose answers are known beforehand: document 01's and those of the points that need care.

use crate::model::Refused;

/// A text with its row count or its refusal's number.
pub type Known = (String, Result<usize, u32>);

/// A text with the rows that it is lent, and its refusal.
pub type Placed = (Vec<u8>, usize, Refused);

/// Document 01's three lines, its texts to try and the points' smallest inputs.
#[rustfmt::skip]
const TEXTS: &[(&str, Result<usize, u32>)] = &[
    ("Struct(\"slot\": non-null Timestamp(Second), \"kwh\": Decimal64(12, 3),)", Ok(3)),
    ("FixedSizeList(4, Int32)", Ok(2)),
    ("RunEndEncoded(Int32, Utf8)", Err(13)),
    ("Int32", Ok(1)), ("", Err(5)), (" ", Err(5)), ("Struct()", Ok(1)),
    ("Struct(\"a\": Int32,)", Ok(2)), ("Union(Sparse)", Ok(1)),
    ("Union(Dense, 0: (\"a\": Int8), 0: (\"b\": Int8))", Err(15)),
    ("FixedSizeList(4x Int32)", Err(8)), ("FixedSizeList(4 xInt32)", Err(8)),
    ("FixedSizeList(4 x Int32)", Ok(2)), ("Decimal32(9, -128)", Ok(1)),
    ("Decimal32(9, 10)", Err(12)), ("List(Int8, field: 'item')", Ok(2)),
    ("Struct(\"a\\\\\": Int8)", Err(6)), ("Union(Sparse,)", Err(9)), ("Struct(,)", Err(9)),
    ("List", Err(5)), ("Int32 \"", Err(16)), ("Time32(us)", Err(11)),
    ("FixedSizeBinary(+5)", Err(8)), ("FixedSizeBinary(-1)", Err(10)),
    ("FixedSizeBinary(2147483648)", Err(10)), ("FixedSizeBinary(2147483647)", Ok(1)),
    ("FixedSizeBinary(9223372036854775808)", Err(8)),
    ("FixedSizeBinary(-9223372036854775808)", Err(10)), ("FixedSizeBinary(-0)", Ok(1)),
    ("Dictionary(Utf8, Int32)", Ok(3)),
    ("RunEndEncoded", Err(5)), ("RunEndEncoded)", Err(9)), ("RunEndEncoded(", Err(13)),
    ("RunEndEncoded(non-null", Err(5)), ("RunEndEncoded(\"a\"", Err(5)),
    ("RunEndEncoded(\"a", Err(13)), ("RunEndEncoded(\"\"", Err(13)), ("RunEndEncoded(@", Err(13)),
    ("RunEndEncoded('a'", Err(13)), ("RunEndEncoded(nullable", Err(13)),
    ("Timestamp(s, Some('a'))", Err(9)), ("Timestamp(s, Some(None))", Err(9)),
    ("Timestamp(s, Some(''))", Err(7)), ("Timestamp(s, Some(@))", Err(8)),
    ("Timestamp(s, Some(\"))", Err(6)),
    ("Map(\"e\": Int8", Err(13)), ("Map(\"e\": non-null List(Int8)", Err(14)),
    ("Map(\"e\": non-null Struct(\"k\": Int8), sorted)", Err(14)),
    ("Map(\"e\": non-null Struct(\"k\": Int8, \"v\": Int8), sorted)", Err(13)),
    ("Map(\"e\": non-null Struct(\"k\": non-null Int8, \"v\": Int8), sorted)", Ok(4)),
    ("Decimal32(0, 200", Err(10)), ("Decimal32(0, 0", Err(5)), ("Decimal32(0, 0,", Err(9)),
    ("Union(Dense, -1: (\"a\": Int8)", Err(5)), ("Union(Dense, -1: (\"a\": Int8), 200", Err(10)),
    ("Union(Dense, -1: (\"a\": Int8))", Err(15)),
    ("Int8\"a\"", Err(8)), ("Int8 \"", Err(16)), ("Int8 \"\"", Err(16)), ("Int8 @", Err(16)),
    ("Int8 '", Err(16)), ("Int8\t", Err(8)), ("Int8 \t", Err(16)), ("Int8\r", Err(8)),
    ("Struct(\"\\a\": Int8)", Err(6)), ("Struct(\"\\a\" b\": Int8)", Ok(2)),
    ("List(Int8, field: '\\\\')", Err(6)),
    ("FixedSizeList(4, non-null Int8)", Err(9)), ("FixedSizeList(4, Int8, field: 'a')", Err(9)),
    ("Timestamp(µs)", Ok(1)), ("Timestamp(μs)", Err(8)), ("Timestamp(µ)", Err(8)),
    ("Int", Err(8)), ("Utf8Vie", Err(8)), ("Decimal1", Err(8)), ("int8", Err(8)), ("Int8x", Err(8)),
    ("Int9", Err(8)), ("List\t", Err(8)), ("Int8\0", Err(8)), ("Int16", Ok(1)),
    ("List(Int8)", Ok(2)), ("ListView(Int8)", Ok(2)), ("s", Err(9)), ("sorted", Err(9)),
    ("Struct(\"a\": Int8, \"a\": Int8)", Ok(3)),
    ("Dictionary(Int8, Dictionary(Utf8, Int8))", Ok(5)),
];

/// A Struct of so many leaves.
fn leaves(count: usize) -> String {
    format!("Struct({})", "\"a\":Int8,".repeat(count))
}

/// Texts that are lent so many words, with what they give: around one row, and the words that 1,024 rows took when a
/// row had eleven.
pub fn lent() -> Vec<(String, usize, Result<usize, u32>)> {
    let rows_of_eleven = 1_024 * 11;
    vec![
        ("Int8".into(), 11, Err(4)),
        ("Int8".into(), 12, Ok(1)),
        (leaves(937), rows_of_eleven, Ok(938)),
        (leaves(938), rows_of_eleven, Err(4)),
    ]
}

/// Refused texts with their places (document 02, [2]): each number of the reader, around spaces and the text's end.
#[rustfmt::skip]
pub fn places() -> Vec<Placed> {
    let all = 1_024;
    let nested = |behind: &str| ("List(".repeat(64) + behind).into_bytes();
    let mut places = vec![
        (" ".repeat(16_385).into_bytes(), all, (1, 16_384)),
        (vec![0xff; 20_000], all, (1, 16_384)),
        (b"\xff".into(), all, (2, 0)),
        (b"Int8 \xff".into(), all, (2, 0)),
        (nested("nullable @"), all, (3, 329)),
        (nested(" "), all, (3, 321)),
        (nested("  nullable"), all, (3, 330)),
    ];
    let texts: &[(&str, usize, Refused)] = &[
        ("", 0, (4, 0)), (" @", 0, (4, 1)), ("  ", 0, (4, 2)), ("List( nullable Int8)", 1, (4, 15)),
        ("", all, (5, 0)), ("  ", all, (5, 2)), ("List", all, (5, 4)), ("List(Int8 ", all, (5, 10)),
        ("Timestamp(s, \"CET)", all, (6, 13)), ("Struct(\"a\\\\\": Int8)", all, (6, 7)),
        ("Timestamp(s,  \"\")", all, (7, 14)), ("List( @)", all, (8, 6)),
        ("List(\"a\")", all, (9, 5)), ("Struct(,)", all, (9, 7)), ("Struct(\"Küche\" Int8)", all, (9, 16)),
        ("FixedSizeBinary( -1)", all, (10, 17)), ("Time32( us)", all, (11, 8)),
        ("Decimal32(9, 10)", all, (12, 15)),
        ("RunEndEncoded(Int32, Utf8)", all, (13, 13)), ("RunEndEncoded( nullable Int8", all, (13, 15)),
        ("RunEndEncoded(nullable", all, (13, 14)), ("RunEndEncoded(", all, (13, 13)),
        ("RunEndEncoded( \"a", all, (13, 13)), ("RunEndEncoded(\"a\": List(Int8), ", all, (13, 28)),
        ("RunEndEncoded(\"a\": nullable Int8 , ", all, (13, 28)),
        ("Map(\"e\": Struct())", all, (13, 16)), ("Map(\"e\": Int8", all, (13, 9)),
        ("Map(\"e\": non-null Struct(\"k\": Int8, \"v\": Int8), sorted)", all, (13, 45)),
        ("Map(\"e\": non-null Int8, sorted)", all, (14, 18)),
        ("Map(\"e\": non-null Struct(\"k\": Int8 ) , sorted)", all, (14, 35)),
        ("Union(Dense, 0: (\"a\": Int8), 0: (\"b\": Int8) )", all, (15, 44)),
        ("Int32 \"", all, (16, 6)), ("Int8)", all, (16, 4)), ("Int8  \t", all, (16, 6)),
    ];
    places.extend(texts.iter().map(|(text, rows, refused)| (text.as_bytes().into(), *rows, *refused)));
    places
}

pub fn known() -> Vec<Known> {
    let mut known: Vec<Known> = TEXTS
        .iter()
        .map(|(text, answer)| (text.to_string(), *answer))
        .collect();
    let lists = |count: usize| "List(".repeat(count);
    let fields = |count: usize| "\"a\":Int8,".repeat(count);
    let closed = |count: usize| format!("{}Int8{}", lists(count), ")".repeat(count));
    known.extend([
        (closed(63), Ok(64)),
        (closed(64), Err(3)),
        (lists(64), Err(3)),
        (lists(64) + "\"", Err(3)),
        (lists(64) + "nullable @", Err(3)),
        (lists(63) + "RunEndEncoded(Int8", Err(13)),
        (lists(63) + "RunEndEncoded(non-null Int8", Err(3)),
        (leaves(1_023), Ok(1_024)),
        (leaves(1_024), Err(4)),
        (
            format!("Struct({}\"d\": {}", fields(960), lists(63)),
            Err(3),
        ),
        (
            format!("Struct({}\"d\": {}", fields(961), lists(63)),
            Err(4),
        ),
        (format!("FixedSizeBinary({}7)", "0".repeat(16_000)), Ok(1)),
        ("x".repeat(16_384), Err(8)),
        (" ".repeat(16_384), Err(5)),
        (" ".repeat(16_385), Err(1)),
    ]);
    known
}
