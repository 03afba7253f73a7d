//! Stand-ins for the parts of `schema.rs` that the supplied sources name. Only merging of fields
//! calls them; reading and printing never do.

use crate::{ArrowError, FieldRef, Fields};

/// Stands in for the published `Schema`.
pub struct Schema {
    pub fields: Fields,
}

/// Stands in for the published `SchemaBuilder`.
#[derive(Default)]
pub struct SchemaBuilder {}

impl SchemaBuilder {
    pub fn new() -> Self {
        Self::default()
    }

    pub fn try_merge(&mut self, _field: &FieldRef) -> Result<(), ArrowError> {
        unreachable!("schemas are not merged here")
    }

    pub fn finish(self) -> Schema {
        unreachable!("schemas are not merged here")
    }
}
