//! The supplied sources of arrow-schema 60.1.0, compiled unchanged from where they stand beside the
//! repository. Only this file and `schema.rs` are ours. `rustfmt::skip` keeps `cargo fmt` out of
//! the supplied files.

#[rustfmt::skip]
#[path = "../../../../../shared/docs/src/src/datatype.rs"]
mod datatype;
#[rustfmt::skip]
#[path = "../../../../../shared/docs/src/src/datatype_display.rs"]
mod datatype_display;
#[rustfmt::skip]
#[path = "../../../../../shared/docs/src/src/datatype_parse.rs"]
mod datatype_parse;
#[rustfmt::skip]
#[path = "../../../../../shared/docs/src/src/error.rs"]
mod error;
#[rustfmt::skip]
#[path = "../../../../../shared/docs/src/src/extension/mod.rs"]
pub mod extension;
#[rustfmt::skip]
#[path = "../../../../../shared/docs/src/src/field.rs"]
mod field;
#[rustfmt::skip]
#[path = "../../../../../shared/docs/src/src/fields.rs"]
mod fields;
#[rustfmt::skip]
#[path = "../../../../../shared/docs/src/src/metadata.rs"]
mod metadata;
mod schema;

pub use datatype::*;
pub use error::*;
pub use field::*;
pub use fields::*;
pub use metadata::*;
pub use schema::*;
