//! mmdb, a proved relational database in main memory, in a program's own process.
//!
//! A [`Connection`] holds a database. It executes lines of a language: [`execute`](Connection::execute) executes one line,
//! [`prepare`](Connection::prepare) makes a [`Statement`] that runs any number of times, [`transaction`](Connection::transaction) makes
//! several changes atomic, and [`watch`](Connection::watch) materializes the rows of a query. The form is that of the crate rusqlite.
//!
//! Values are signed integers of 64 bits ([`Value::Int`]) and texts of up to 64 bytes without a line feed ([`Value::Text`]). There is no
//! NULL.
//!
//! A call that fails changes nothing. If an allocation fails, a call returns [`Refusal::Memory`], and the process goes on.
//!
//! The crate links to libmmdb. The build script looks for it in the folder `MMDB_LIB_DIR`, or else by pkg-config, or else where the linker
//! looks. With `MMDB_STATIC=1` it becomes part of the program.

#![deny(unsafe_code, unsafe_op_in_unsafe_fn, clippy::undocumented_unsafe_blocks)]
#![warn(missing_docs, unreachable_pub)]

mod append;
mod cache;
mod connection;
mod error;
mod line;
mod memory;
mod params;
mod raw;
mod reply;
mod row;
mod savepoints;
mod script;
mod statement;
mod transaction;
mod value;

pub use append::ColumnData;
pub use connection::{Connection, DefinitionKind};
pub use error::{Cause, Error, FromValueError, OptionalExtension, Refusal, Result};
pub use params::{params_from_iter, Params, ParamsFromIter};
pub use raw::Column;
pub use row::{AndThenRows, FromRow, MappedRows, Row, RowIndex, Rows};
pub use statement::Statement;
pub use transaction::{Savepoint, Transaction};
pub use value::{EncodedChar, FromValue, ToValue, ToValueOutput, Type, Value, ValueRef};

/// The programs of README.md, which are tested with those of the crate.
#[cfg(doctest)]
#[doc = include_str!("../README.md")]
struct Readme;
