//! A type drawn as a tree: a line for each row, indented by its level.

use crate::paint::Paint;
use arrow_types::{DataType, Field, Kind};

/// The tree, each line with its end.
pub fn tree(data_type: &DataType, paint: Paint) -> String {
    let rows = data_type.root().subtree();
    rows.map(|field| line(field, paint)).collect()
}

fn line(field: Field<'_>, paint: Paint) -> String {
    let indent = "  ".repeat(level(field));
    let (label, kind) = (label(field, paint), field.kind());
    let (numbers, nullable, zone) = (numbers(field), nullable(field), zone(field, paint));
    format!("{indent}{label}{kind}{numbers}{nullable}{zone}\n")
}

/// How many rows the field stands under.
fn level(field: Field<'_>) -> usize {
    std::iter::successors(field.parent(), |parent| parent.parent()).count()
}

/// What stands before the type: a field's name, with its id in a Union; of a Dictionary's types which it is.
fn label(field: Field<'_>, paint: Paint) -> String {
    let id = field.union_id().map(|id| format!("{id}: "));
    let name = match (field.name(), field.parent()) {
        (Some(name), _) => format!("{}: ", paint.name(&format!("{name:?}"))),
        (None, Some(dictionary)) if field.row() == dictionary.row() + 1 => "key: ".to_owned(),
        (None, Some(_)) => "value: ".to_owned(),
        (None, None) => String::new(),
    };
    id.unwrap_or_default() + &name
}

/// What stands in brackets behind the kind.
fn numbers(field: Field<'_>) -> String {
    let decimal = field.precision().zip(field.scale());
    let numbers = [
        field.time_unit().map(|unit| unit.to_string()),
        field.interval_unit().map(|unit| unit.to_string()),
        field.length().map(|length| length.to_string()),
        decimal.map(|(precision, scale)| format!("{precision}, {scale}")),
        field.union_mode().map(|mode| mode.to_string()),
        field
            .keys_sorted()
            .map(|sorted| sorted_word(sorted).to_owned()),
    ];
    let shown = numbers
        .into_iter()
        .flatten()
        .map(|text| format!("({text})"));
    shown.collect()
}

fn sorted_word(sorted: bool) -> &'static str {
    if sorted { "sorted" } else { "unsorted" }
}

fn nullable(field: Field<'_>) -> &'static str {
    match field.nullable() {
        None => "",
        Some(true) => ", nullable",
        Some(false) => ", non-null",
    }
}

fn zone(field: Field<'_>, paint: Paint) -> String {
    match (field.kind(), field.zone()) {
        (Kind::Timestamp, None) => ", no zone".to_owned(),
        (_, None) => String::new(),
        (_, Some(zone)) => format!(", zone {}", paint.zone(&format!("{zone:?}"))),
    }
}
