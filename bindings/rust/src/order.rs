//! Order and hashes of types and fields. They agree with `==`: trees count, and not how the texts spell them.

use crate::field::word;
use crate::{DataType, Field};
use std::cmp::Ordering;
use std::hash::{Hash, Hasher};

/// How many words of a row are compared, from the first: kind, rows, role, union id, number and scale.
const COMPARED: usize = word::SCALE + 1;

/// What is compared of a row: words 0 to 5, and the bytes of its name and of its zone.
#[derive(PartialEq, Eq, PartialOrd, Ord, Hash)]
struct Key<'a> {
    words: [u32; COMPARED],
    name: Option<&'a str>,
    zone: Option<&'a str>,
}

impl<'a> Key<'a> {
    fn of(field: Field<'a>) -> Key<'a> {
        Key {
            words: std::array::from_fn(|at| field.word(at)),
            name: field.name(),
            zone: field.zone(),
        }
    }

    /// Of a field by itself: its id belongs to the Union that it stands in.
    fn without_union_id(mut self) -> Key<'a> {
        self.words[word::UNION_ID] = 0;
        self
    }
}

/// The keys of a field and of all that it contains. The first says how many there are.
fn keys(field: Field<'_>) -> impl Iterator<Item = Key<'_>> {
    let first = Key::of(field).without_union_id();
    std::iter::once(first).chain(field.subtree().skip(1).map(Key::of))
}

/// Equal fields have the same name, the same nullability and equal types. The id of a Union's field does not count, nor
/// where the fields stand.
///
/// ```
/// use arrow_types::DataType;
///
/// let row: DataType = r#"Struct("at": Timestamp(s, "CET"), "to": Timestamp(s, "CET"))"#.parse()?;
/// let other: DataType = r#"Union(Dense, 7: ("at": Timestamp(Second, Some("CET"))))"#.parse()?;
/// assert_eq!(row.field("at"), other.field("at"));
/// assert_ne!(row.field("at"), row.field("to"));
/// # Ok::<(), Box<dyn std::error::Error>>(())
/// ```
impl PartialEq for Field<'_> {
    fn eq(&self, other: &Self) -> bool {
        keys(*self).eq(keys(*other))
    }
}

impl Eq for Field<'_> {}

/// Row by row: the kinds' order first, then the numbers, the name and the zone.
impl Ord for Field<'_> {
    fn cmp(&self, other: &Self) -> Ordering {
        keys(*self).cmp(keys(*other))
    }
}

impl PartialOrd for Field<'_> {
    fn partial_cmp(&self, other: &Self) -> Option<Ordering> {
        Some(self.cmp(other))
    }
}

impl Hash for Field<'_> {
    fn hash<H: Hasher>(&self, state: &mut H) {
        keys(*self).for_each(|key| key.hash(state));
    }
}

/// An order of types in which equal ones are those that are `==`, for maps and for sorting: row by row the kinds' order
/// first, then the numbers, the name and the zone. It is not arrow-schema's.
///
/// ```
/// use arrow_types::DataType;
/// use std::collections::BTreeSet;
///
/// let texts = ["Timestamp(s, \"CET\")", "Int8", "Timestamp(Second, Some(\"CET\"))"];
/// let types = texts.iter().map(|text| text.parse()).collect::<Result<BTreeSet<DataType>, _>>()?;
/// let printed: Vec<String> = types.iter().map(DataType::to_string).collect();
/// assert_eq!(printed, ["Int8", "Timestamp(s, \"CET\")"]);
/// # Ok::<(), Box<dyn std::error::Error>>(())
/// ```
impl Ord for DataType {
    fn cmp(&self, other: &Self) -> Ordering {
        self.root().cmp(&other.root())
    }
}

impl PartialOrd for DataType {
    fn partial_cmp(&self, other: &Self) -> Option<Ordering> {
        Some(self.cmp(other))
    }
}

/// Equal types have equal hashes, whatever their texts.
///
/// ```
/// use arrow_types::DataType;
/// use std::collections::HashMap;
///
/// let mut columns: HashMap<DataType, usize> = HashMap::new();
/// for text in ["List(Int8)", "Utf8", "List(nullable Int8, field: 'item')"] {
///     *columns.entry(text.parse()?).or_default() += 1;
/// }
/// assert_eq!(columns[&"List(Int8)".parse()?], 2);
/// # Ok::<(), Box<dyn std::error::Error>>(())
/// ```
impl Hash for DataType {
    fn hash<H: Hasher>(&self, state: &mut H) {
        self.root().hash(state);
    }
}
