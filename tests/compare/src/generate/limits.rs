//! Texts at the limits: 64 levels, 1,024 rows, 16,384 bytes.

use super::{Random, Visit};

/// A type around another: what stands before and behind it, and the levels it adds.
const NESTS: [(&str, &str, usize); 19] = [
    ("List(", ")", 1),
    ("List(non-null ", ", field: 'f')", 1),
    ("ListView(", ")", 1),
    ("LargeList(nullable ", ")", 1),
    ("LargeListView(", ", field: 'item')", 1),
    ("FixedSizeList(3, ", ")", 1),
    ("FixedSizeList(3 x ", ")", 1),
    ("Struct(\"a\": ", ")", 1),
    ("Struct(\"a\": Int8, \"b\": non-null ", ",)", 1),
    ("Union(Dense, 0: (\"a\": ", "))", 1),
    ("Union(Sparse, 1: (\"a\": Int8), 0: (\"b\": ", "))", 1),
    ("Dictionary(", ", Int8)", 1),
    ("Dictionary(Int8, ", ")", 1),
    ("RunEndEncoded(non-null ", ", Int8)", 1),
    ("RunEndEncoded(non-null Int8, ", ")", 1),
    ("RunEndEncoded(\"r\": non-null ", ", \"v\": Int8)", 1),
    ("RunEndEncoded(\"r\": non-null Int8, \"v\": ", ")", 1),
    (
        "Map(\"e\": non-null Struct(\"k\": non-null ",
        ", \"v\": Int8), sorted)",
        2,
    ),
    (
        "Map(\"e\": non-null Struct(\"k\": non-null Int8, \"v\": ",
        "), unsorted)",
        2,
    ),
];

/// What stands innermost; the first begins one type and no more.
const INNERMOST: [&str; 20] = [
    "Int8",
    "",
    " ",
    "@",
    "\"",
    "\"\"",
    ")",
    ",",
    "5",
    "nullable @",
    "nullable",
    "non-null",
    "non-null Int8",
    "Struct()",
    "Union(Sparse)",
    "Timestamp(s, \"z\")",
    "Map(\"e\": non-null Int8",
    "RunEndEncoded(Int8",
    "RunEndEncoded(non-null Int8",
    "Dictionary(Int8",
];

/// The innermost in types around it, left open and whole.
fn nested(nests: &[usize], innermost: &str, visit: Visit) {
    let mut text: String = nests.iter().map(|nest| NESTS[*nest].0).collect();
    text += innermost;
    visit(text.as_bytes());
    text.extend(nests.iter().rev().map(|nest| NESTS[*nest].1));
    visit(text.as_bytes());
}

/// 62 to 66 levels through each nesting type, then through mixtures of them.
pub fn levels(random: &mut Random, mixtures: usize, visit: Visit) {
    for (nest, (_, _, step)) in NESTS.into_iter().enumerate() {
        for levels in 62..=66 {
            let mut nests = vec![nest; (levels - 1) / step];
            if (levels - 1) % step == 1 {
                nests.insert(0, 0);
            }
            for innermost in INNERMOST {
                nested(&nests, innermost, visit);
                // The last type around it of another sort.
                nests.pop();
                for last in 0..NESTS.len() - 2 {
                    nests.extend(vec![last; step]);
                    nested(&nests, innermost, visit);
                    nests.truncate(nests.len() - step);
                }
                nests.push(nest);
            }
        }
    }
    for _ in 0..mixtures {
        let levels = random.between(60, 68);
        let mut nests = Vec::new();
        let mut reached = 1;
        while reached < levels {
            let nest = random.below(NESTS.len());
            nests.push(nest);
            reached += NESTS[nest].2;
        }
        nested(&nests, INNERMOST[random.below(INNERMOST.len())], visit);
    }
    // Much too deep.
    for nest in [0, 6, 7, 12] {
        nested(&vec![nest; 1_000], "Int8", visit);
    }
}

/// Types of several rows, among which the limit may fall.
const CELLS: [(&str, usize); 12] = [
    ("Int8", 1),
    ("Struct()", 1),
    ("List(Int8)", 2),
    ("FixedSizeList(2, Int8)", 2),
    ("FixedSizeList(2 x non-null Int8)", 2),
    ("Dictionary(Int8, Utf8)", 3),
    ("Dictionary(Dictionary(Int8, Int8), Utf8)", 5),
    ("RunEndEncoded(non-null Int8, Utf8)", 3),
    ("RunEndEncoded(\"a\": non-null Int8, \"b\": Utf8)", 3),
    ("Union(Dense, 3: (\"a\": Int8), 2: (\"b\": Int8))", 3),
    ("Struct(\"a\": Int8, \"b\": Int8,)", 3),
    (
        "Map(\"e\": non-null Struct(\"k\": non-null Int8, \"v\": Int8), sorted)",
        4,
    ),
];

/// 1,021 to 1,027 rows.
pub fn rows(visit: Visit) {
    let leaves = |count: usize| "\"a\":Int8,".repeat(count);
    for rows in 1_021..=1_027 {
        for (cell, more) in CELLS {
            for end in [
                ")",
                ",)",
                "",
                ",",
                ", \"b\": @",
                ", \"b\": \"",
                " @",
                ")@",
                ", \"b\"",
                ": ",
            ] {
                let last = format!("Struct({}\"c\": {cell}{end}", leaves(rows - 1 - more));
                visit(last.as_bytes());
            }
            let first = format!("Struct(\"c\": {cell}, {})", leaves(rows - 1 - more));
            visit(first.as_bytes());
        }
        // Several levels of Struct, and Unions of 128.
        let halves = format!(
            "Struct(\"a\": Struct({}), \"b\": Struct({}))",
            leaves(500),
            leaves(rows - 503)
        );
        visit(halves.as_bytes());
        let ids = |count: usize| {
            let field = |id| format!(",{id}:(\"a\":Int8)");
            (0..count).map(field).collect::<String>()
        };
        let union = format!("\"u\":Union(Sparse{}),", ids(128));
        // Seven of them are 903 rows; a Struct and a last one make the rest.
        let last = format!("\"l\":Union(Dense{})", ids(rows - 905));
        visit(format!("Struct({}{last})", union.repeat(7)).as_bytes());
    }
    // Where 3 and 4 meet.
    for fields in 955..=965 {
        for levels in 61..=65 {
            let deep = format!("{}Int8{}", "List(".repeat(levels), ")".repeat(levels));
            visit(format!("Struct({}\"d\": {deep})", leaves(fields)).as_bytes());
            visit(format!("Struct({}\"d\": {}", leaves(fields), "List(".repeat(levels)).as_bytes());
        }
    }
    visit(format!("Struct({})", leaves(1_800)).as_bytes());
}

/// 16,382 to 16,387 bytes.
pub fn lengths(visit: Visit) {
    for length in 16_382..=16_387 {
        let pads: [(&str, &str, &str); 22] = [
            ("", " ", "Int8"),
            ("Int8", " ", ""),
            ("Int8", " ", "@"),
            ("List(", " ", "Int8)"),
            ("", " ", ""),
            ("@", " ", ""),
            ("", "a", ""),
            ("", "(", ""),
            ("Struct(\"", "a", "\": Int8)"),
            ("Struct(\"", "\\", "\": Int8)"),
            ("Struct(\"", "\u{1}", "\": Int8)"),
            ("Struct(\"", "\\\"", "x\": Int8)"),
            ("Struct(\"", "ü", "\": Int8)"),
            ("List(Int8, field: '", "ü", "')"),
            ("List(Int8, field: '", "日", "')"),
            ("List(Int8, field: '", "a", "')"),
            ("Timestamp(ns, \"", "z", "\")"),
            ("Timestamp(ns, \"", "z", ")"),
            ("FixedSizeBinary(", "0", "7)"),
            ("FixedSizeBinary(", "7", ")"),
            ("FixedSizeBinary(-", "0", ")"),
            ("List(", "(", ")"),
        ];
        for (before, pad, behind) in pads {
            let room = length - before.len() - behind.len();
            let mut text = format!("{before}{}", pad.repeat(room / pad.len()));
            text += &"a".repeat(room % pad.len());
            text += behind;
            visit(text.as_bytes());
            // Not UTF-8 at the very end, or cut within a character.
            let mut bytes = text.into_bytes();
            *bytes.last_mut().unwrap() = 0xc3;
            visit(&bytes);
        }
        visit(&vec![0xff; length]);
    }
}
