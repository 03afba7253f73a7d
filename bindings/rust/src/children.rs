//! The children of a row, from either end.

use crate::Field;
use std::iter::{FusedIterator, successors};

/// The children of a type, in order.
///
/// ```
/// use arrow_types::DataType;
///
/// let row: DataType = r#"Struct("id": Int32, "tags": List(Utf8), "at": Timestamp(s))"#.parse()?;
/// assert_eq!(row.fields().len(), 3);
/// let last_first: Vec<_> = row.fields().rev().filter_map(|field| field.name()).collect();
/// assert_eq!(last_first, ["at", "tags", "id"]);
/// # Ok::<(), Box<dyn std::error::Error>>(())
/// ```
#[derive(Clone, Debug)]
pub struct Children<'a> {
    parent: Field<'a>,
    next: usize,
    end: usize,
}

impl<'a> Children<'a> {
    pub(crate) fn of(parent: Field<'a>) -> Children<'a> {
        Children {
            parent,
            next: parent.row() + 1,
            end: parent.end(),
        }
    }
}

impl<'a> Iterator for Children<'a> {
    type Item = Field<'a>;

    fn next(&mut self) -> Option<Field<'a>> {
        if self.next == self.end {
            return None;
        }
        let child = self.parent.at(self.next);
        self.next = child.end();
        Some(child)
    }

    /// Exact. It counts the children that are left.
    fn size_hint(&self) -> (usize, Option<usize>) {
        let left = self.clone().count();
        (left, Some(left))
    }
}

impl ExactSizeIterator for Children<'_> {}

impl FusedIterator for Children<'_> {}

impl<'a> DoubleEndedIterator for Children<'a> {
    /// The last child is the one above the last row.
    fn next_back(&mut self) -> Option<Field<'a>> {
        if self.next == self.end {
            return None;
        }
        let last = self.parent.at(self.end - 1);
        let is_child =
            |field: &Field<'_>| field.parent().map(Field::row) == Some(self.parent.row());
        let child = successors(Some(last), |field| field.parent()).find(is_child)?;
        self.end = child.row();
        Some(child)
    }
}
