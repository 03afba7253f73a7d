//! Every word, every number near a bound, every short escape and every character above 127 up to U+0183 in every place
//! that could take it.

use super::Visit;
use crate::model::{KINDS, OTHER_WORDS};

/// Each text with `~` replaced, whole and cut off behind the replacement.
fn put(templates: &[&str], filling: &str, visit: Visit) {
    for template in templates {
        let (before, _) = template.split_once('~').expect("a place");
        visit(template.replace('~', filling).as_bytes());
        visit(format!("{before}{filling}").as_bytes());
        visit(format!("{before}{filling} ").as_bytes());
    }
}

/// Every character from U+0080 to U+0183 in a field's name, a list's and a zone, alone and between others.
pub fn characters(visit: Visit) {
    const PLACES: [&str; 3] = [
        "Struct(\"~\": Int8)",
        "List(Int8, field: '~')",
        "Timestamp(us, \"~\")",
    ];
    const AROUND: [&str; 5] = ["~", "a~", "~z", "a~z", "ü~\u{ff}"];
    for character in '\u{80}'..='\u{183}' {
        for around in AROUND {
            let name = around.replace('~', &character.to_string());
            for place in PLACES {
                visit(place.replace('~', &name).as_bytes());
            }
        }
    }
}

/// Every word and its near misses, in every place.
pub fn words(visit: Visit) {
    const PLACES: [&str; 38] = [
        "~",
        "~(",
        "~()",
        "~(Int8)",
        "Int8 ~",
        "List~(Int8)",
        "List(~)",
        "List(~ Int8)",
        "List(Int8 ~)",
        "List(Int8, ~: 'a')",
        "List(Int8, field: ~)",
        "FixedSizeList(~, Int8)",
        "FixedSizeList(3 ~ Int8)",
        "FixedSizeList(3, ~)",
        "FixedSizeList(3, ~ Int8)",
        "FixedSizeList(3 x ~)",
        "FixedSizeBinary(~)",
        "Decimal64(~, 1)",
        "Timestamp(~)",
        "Timestamp(s, ~)",
        "Timestamp(s, Some(~))",
        "Time32(~)",
        "Time64(~)",
        "Duration(~)",
        "Interval(~)",
        "Dictionary(~, Int8)",
        "Struct(\"a\": ~)",
        "Struct(~: Int8)",
        "Union(~)",
        "Union(Dense, 0: (\"a\": ~))",
        "Map(\"e\": non-null Struct(\"k\": non-null Int8, \"v\": Int8), ~)",
        "RunEndEncoded(~, Int8)",
        "RunEndEncoded(~ Int8, Int8)",
        "RunEndEncoded(non-null Int8, ~)",
        "RunEndEncoded(non-null Int8, ~ Int8)",
        "RunEndEncoded(\"r\": ~ Int8, \"v\": Int8)",
        "Map(\"e\": ~ Struct(\"k\": non-null Int8, \"v\": Int8), sorted)",
        "Map(\"e\": non-null Struct(\"k\": ~ Int8, \"v\": Int8), sorted)",
    ];
    for word in KINDS.iter().chain(&OTHER_WORDS) {
        put(&PLACES, word, visit);
        let mut cut = word.to_string();
        cut.pop();
        let misses = [
            cut,
            format!("{word}{}", word.chars().last().unwrap()),
            format!("{word}\""),
            format!("{word}'a'"),
            format!("'{word}'"),
            format!("\"{word}\""),
            word.to_lowercase(),
            word.to_uppercase(),
            format!("\t{word}"),
            format!("{word}\r"),
            format!("{word}\0"),
            word.replace('µ', "μ"),
        ];
        for miss in misses {
            put(&PLACES, &miss, visit);
        }
    }
}

/// Numbers near every bound in every spelling, wherever a number may stand; then decimals.
pub fn numbers(visit: Visit) {
    const PLACES: [&str; 16] = [
        "~",
        "Int8 ~",
        "List(~)",
        "Timestamp(~)",
        "FixedSizeBinary(~)",
        "FixedSizeList(~, Int8)",
        "FixedSizeList(~ x Int8)",
        "Decimal32(~, 1)",
        "Decimal64(~, -5)",
        "Decimal128(~, ~)",
        "Decimal256(76, ~)",
        "Decimal32(1, ~)",
        "Union(Dense, ~: (\"a\": Int8))",
        "Union(Sparse, 0: (\"a\": Int8), ~: (\"b\": Int8))",
        "Union(Sparse, ~: (\"a\": Int8), 127: (\"b\": Int8))",
        "Struct(\"a\": FixedSizeBinary(~), \"b\": Int8)",
    ];
    let bounds: [i128; 22] = [
        0,
        1,
        2,
        9,
        10,
        18,
        38,
        76,
        100,
        127,
        128,
        255,
        256,
        1_000,
        1 << 15,
        1 << 16,
        1 << 31,
        1 << 32,
        1 << 63,
        1 << 64,
        10_000_000_000_000_000_000,
        1 << 100,
    ];
    for bound in bounds {
        for number in bound - 2..=bound + 2 {
            for number in [number, -number] {
                put(&PLACES, &number.to_string(), visit);
                put(&PLACES, &format!("{number:05}"), visit);
                put(&PLACES, &format!("{number:040}"), visit);
                put(&PLACES[4..5], &format!("+{number}"), visit);
            }
        }
    }
    const SPELLINGS: [&str; 40] = [
        "-",
        "--",
        "--1",
        "-+1",
        "+",
        "+5",
        "+0",
        "-0",
        "-00",
        "00",
        "000",
        "007",
        "-007",
        "1.0",
        "1e3",
        "0x10",
        "1_000",
        "5x",
        "5a",
        "5\"",
        "5'",
        "5\\",
        "5\t",
        "\t5",
        "5-",
        "5-5",
        "-x",
        "-nullable",
        "²",
        "5²",
        "٣",
        "5٣",
        "５",
        "½",
        "Ⅷ",
        "①",
        "-٣",
        "−5",
        "1\u{301}",
        "\u{feff}5",
    ];
    for spelling in SPELLINGS {
        put(&PLACES, spelling, visit);
    }
    for width in ["32", "64", "128", "256"] {
        for precision in (0..=80).chain([127, 128, 254, 255, 256, -1]) {
            let near = [precision - 1, precision, precision + 1];
            let others = [
                -129, -128, -127, -1, 0, 1, 9, 10, 18, 19, 38, 39, 76, 77, 126, 127, 128,
            ];
            for scale in near.iter().chain(&others) {
                visit(format!("Decimal{width}({precision}, {scale})").as_bytes());
            }
        }
    }
    unions(visit);
}

/// Unions with all ids, and one too many.
fn unions(visit: Visit) {
    let field = |id: i64| format!(", {id}: (\"f\": Int8)");
    let all: String = (0..128).map(field).collect();
    let down: String = (0..128).rev().map(field).collect();
    for ids in [&all, &down] {
        visit(format!("Union(Dense{ids})").as_bytes());
        visit(format!("Union(Dense{ids}").as_bytes());
        for more in -129..=129 {
            visit(format!("Union(Dense{ids}{})", field(more)).as_bytes());
            visit(format!("Union(Sparse{}{})", field(more), field(64)).as_bytes());
            visit(format!("Union(Sparse{}{})", field(64), field(more)).as_bytes());
        }
    }
    for first in -2..130 {
        for second in [first - 1, first, first + 1, 0, 63, 64, 127] {
            let ids = [first, second].map(field).concat();
            visit(format!("Union(Sparse{ids})").as_bytes());
            visit(format!("Union(Sparse{ids}, ").as_bytes());
            visit(format!("Union(Sparse{ids}, 300").as_bytes());
        }
    }
}

/// Every string of up to six letters out of `a`, backslash and both marks.
pub fn escapes(visit: Visit) {
    const PLACES: [&str; 5] = [
        "Struct(\"~\": Int8)",
        "List(Int8, field: '~')",
        "Timestamp(s, \"~\")",
        "RunEndEncoded(\"~\": non-null Int8, \"b\": Int8)",
        "Int8 \"~",
    ];
    let mut strings = vec![String::new()];
    let mut begin = 0;
    for _ in 0..=6 {
        let end = strings.len();
        for at in begin..end {
            for place in PLACES {
                visit(place.replace('~', &strings[at]).as_bytes());
            }
            for letter in ['a', '\\', '"', '\''] {
                let longer = format!("{}{letter}", strings[at]);
                strings.push(longer);
            }
        }
        begin = end;
    }
}
