//! Order and hashes agree with `==`.

use arrow_types::{DataType, Field};
use std::cmp::Ordering;
use std::collections::{BTreeSet, HashSet};
use std::hash::{BuildHasher, RandomState};

/// Types that differ in one thing each, or in nothing but their spelling, or where their names stand.
const TEXTS: [&str; 34] = [
    "Int8",
    " Int8 ",
    "Int16",
    "Struct()",
    "Union(Sparse)",
    "Union(Dense)",
    "Timestamp(s)",
    "Timestamp(Second, None)",
    "Timestamp(ms)",
    "Timestamp(s, \"CET\")",
    "Timestamp(s, Some(\"CET\"))",
    "Timestamp(s, \"CEST\")",
    "Decimal32(9, 2)",
    "Decimal32(9, -2)",
    "Decimal32(8, 2)",
    "Decimal64(9, 2)",
    "FixedSizeBinary(4)",
    "FixedSizeBinary(5)",
    "List(Int8)",
    "List(Int8, field: 'item')",
    "List(non-null Int8)",
    "List(Int8, field: 'i')",
    "LargeList(Int8)",
    "FixedSizeList(4 x Int8)",
    "Struct(\"a\": Int8)",
    "Struct(\"b\": Int8)",
    "Struct( \"a\": nullable Int8, )",
    "Struct(\"a\": Int8, \"b\": Int8)",
    "Struct(\"a\": Struct(\"b\": Int8))",
    "Union(Dense, 0: (\"a\": Int8))",
    "Union(Dense, 1: (\"a\": Int8))",
    "Dictionary(Int8, Utf8)",
    "Map(\"e\": non-null Struct(\"k\": non-null Int8, \"v\": Int8), sorted)",
    "Map(\"e\": non-null Struct(\"k\": non-null Int8, \"v\": Int8), unsorted)",
];

fn types() -> Vec<DataType> {
    TEXTS.iter().map(|text| text.parse().unwrap()).collect()
}

#[test]
fn order_is_equal_where_types_are() {
    let types = types();
    for one in &types {
        for other in &types {
            let order = one.cmp(other);
            assert_eq!(one == other, order == Ordering::Equal, "{one} {other}");
            assert_eq!(other.cmp(one), order.reverse());
            assert_eq!(one.partial_cmp(other), Some(order));
        }
    }
    assert_eq!(types.iter().collect::<BTreeSet<_>>().len(), 29);
}

#[test]
fn order_holds_across_three() {
    let types = types();
    for a in &types {
        for b in &types {
            for c in &types {
                assert!(!(a <= b && b <= c) || a <= c, "{a} {b} {c}");
            }
        }
    }
}

#[test]
fn hashes_are_equal_where_types_are() {
    let hasher = RandomState::new();
    let types = types();
    for one in &types {
        for other in &types {
            let same = hasher.hash_one(one) == hasher.hash_one(other);
            assert_eq!(one == other, same, "{one} {other}");
        }
    }
    assert_eq!(types.iter().collect::<HashSet<_>>().len(), 29);
}

/// Names at other places of another text, or of the name list, are the same names.
#[test]
fn where_names_stand_does_not_count() {
    let read: DataType = "List(Timestamp(s, \"CET\"), field: 'item')"
        .parse()
        .unwrap();
    let rows = [
        [27, 2, 0, 0, 0, 0, 0, 0, 0, 0, 0, 0],
        [13, 1, 1, 0, 0, 0, 2, 0, 4, 2, 3, 0],
    ];
    let made = DataType::from_parts("..CET", rows.concat()).unwrap();
    assert_eq!(read, made);
    assert_eq!(read.cmp(&made), Ordering::Equal);
    let hasher = RandomState::new();
    assert_eq!(hasher.hash_one(&read), hasher.hash_one(&made));
}

/// What equal fields are, said by what they have.
fn same_field(one: Field<'_>, other: Field<'_>) -> bool {
    (one.name(), one.nullable()) == (other.name(), other.nullable())
        && one.to_data_type() == other.to_data_type()
}

#[test]
fn fields_are_equal_by_name_nullability_and_type() {
    let types = types();
    let fields: Vec<Field<'_>> = types
        .iter()
        .flat_map(|read| read.root().subtree())
        .collect();
    let hasher = RandomState::new();
    let mut equal = 0;
    for one in &fields {
        for other in &fields {
            let same = same_field(*one, *other);
            assert_eq!(one == other, same, "{one:?} {other:?}");
            assert_eq!(one.cmp(other) == Ordering::Equal, same);
            assert_eq!(hasher.hash_one(one) == hasher.hash_one(other), same);
            equal += usize::from(same);
        }
    }
    assert!(equal > fields.len());
}
