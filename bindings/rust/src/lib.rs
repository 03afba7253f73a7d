//! Reads the type texts of Apache Arrow into trees and prints them again, as the Rust crate arrow-schema 60.1.0 does.
//!
//! Reader, printer, rewrite, soundness, depth, equality, the layout verdict, the check of needed columns, the taking out of
//! one and the archive record are those of the proved library `arrow_types`, which is linked; this crate gives them the shape
//! that a Rust service expects. 'Document 01' is the library's scope.
//!
//! A service that rewrites a text calls [`rewrite`], which reads back what it prints, so that no name and no zone is lost:
//!
//! ```
//! use arrow_types::{RewriteError, rewrite};
//!
//! assert_eq!(rewrite(r#"Timestamp(Second, Some("CET"))"#)?, r#"Timestamp(s, "CET")"#);
//! # Ok::<(), RewriteError>(())
//! ```
//!
//! One that looks at a type, or keeps it, reads it:
//!
//! ```
//! use arrow_types::{DataType, Error, Kind};
//!
//! let row: DataType = r#"Struct("slot": non-null Timestamp(Second, "CET"), "kwh": Decimal64(12, 3),)"#.parse()?;
//! assert_eq!(row.root().kind(), Kind::Struct);
//! assert_eq!(row.field("slot").unwrap().zone(), Some("CET"));
//! assert_eq!(
//!     row.to_string(),
//!     r#"Struct("slot": non-null Timestamp(s, "CET"), "kwh": Decimal64(12, 3))"#
//! );
//!
//! let refused = "RunEndEncoded(Int32, Utf8)".parse::<DataType>().unwrap_err();
//! assert_eq!(refused.error(), Error::MustBeNonNull);
//! assert_eq!(refused.place(), 13);
//! # Ok::<(), Error>(())
//! ```
//!
//! Microseconds are printed as `us`; [`rewrite_with`] and [`DataType::print_with`] print them as `µs`, as arrow-schema does.
//!
//! Types are equal, ordered and hashed as trees, whatever their texts. [`DataType::timestamp`] and others put them together
//! by hand; [`DataType::lossy`] shows a type in a log in any case. [`DataType::first_unmet`] says whether a type has the
//! columns that a caller needs, and [`DataType::without_field`] takes a column out, with every name and zone of it.
//! [`DataType::to_archive`] and [`DataType::from_archive`] write a type into the bytes of an archive record and read it from them.
//! [`DataType::to_half_rows`] keeps a type in half the memory.
//!
//! A text is read into rows that each thread keeps, 49,152 bytes, of which it is lent as many as its length asks for
//! ([`rows_to_lend`]), and the rows filled are copied out of them; so a [`DataType`] has two allocations, its text and
//! its rows. Printing works likewise with 16,384 bytes, and a rewrite with both and as many rows again.
//!
//! The library keeps no state: any number of threads may read and print at once. A call of it takes at most 64 KiB of stack,
//! [`MAX_STACK`], the most to read a text of 64 levels; a thread with less must not be given such texts.

#![deny(missing_docs, unsafe_code)]

mod archive;
mod buffers;
mod builder;
mod children;
mod classes;
mod convert;
mod data_type;
mod error;
#[allow(unsafe_code)]
mod ffi;
mod field;
mod half_rows;
mod kind;
mod lossy;
mod need;
mod order;
mod pack;
mod picture;
mod read_error;
mod rewrite;
mod rows;
mod spelling;
mod subtree;
mod without_field;

pub use builder::NewField;
pub use children::Children;
pub use data_type::{DataType, Verdict};
pub use error::Error;
pub use ffi::{read, rows_to_lend};
pub use field::Field;
pub use half_rows::{HALF_ROW_WORDS, HalfRows};
pub use kind::{IntervalUnit, Kind, TimeUnit, UnionMode};
pub use lossy::Lossy;
pub use need::Need;
pub use read_error::ReadError;
pub use rewrite::{RewriteError, rewrite, rewrite_with};
pub use rows::{set_parents, widen_rows};
pub use spelling::Spelling;

/// Words to a row.
pub const ROW_WORDS: usize = 12;

/// The most rows that a type has.
pub const MAX_ROWS: usize = 1_024;

/// The most bytes that a text has, read or printed.
pub const MAX_TEXT: usize = 16_384;

/// The bytes of a row in the archive record; its name and its zone come on top.
pub const RECORD_BYTES: usize = 17;

/// The most needs that are checked at once.
pub const MAX_NEEDS: usize = 32;

/// The most bytes of stack that a call of the library takes.
pub const MAX_STACK: usize = 65_536;

/// The worked example of the README runs with the documentation's, where there is one beside the crate.
#[cfg(all(doctest, repository))]
#[doc = include_str!("../../README.md")]
struct Readme;
