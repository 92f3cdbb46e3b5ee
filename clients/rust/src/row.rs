//! Rows of a reply.

use crate::error::{Error, FromValueError, Result};
use crate::raw::Column;
use crate::reply::{PackedValue, Reply};
use crate::value::{FromValue, Type, ValueRef};
use std::fmt;
use std::iter::FusedIterator;

impl Column {
    /// Returns the name, as the table has it.
    #[must_use]
    pub fn name(&self) -> &str {
        std::str::from_utf8(self.name_bytes()).unwrap_or_default()
    }

    /// Returns the type of the values.
    #[must_use]
    pub fn data_type(&self) -> Type {
        if self.is_number() {
            Type::Int
        } else {
            Type::Text
        }
    }
}

impl fmt::Debug for Column {
    fn fmt(&self, f: &mut fmt::Formatter<'_>) -> fmt::Result {
        f.debug_struct("Column").field("name", &self.name()).field("data_type", &self.data_type()).finish()
    }
}

/// A column of a row: its position, counted from 0, or its name. If several columns have the name, it is the first of them.
pub trait RowIndex {
    /// Returns the position of the column. `InvalidColumnIndex` or `InvalidColumnName` if there is no such column.
    fn place(&self, columns: &[Column]) -> Result<usize>;
}

impl RowIndex for usize {
    #[inline]
    fn place(&self, columns: &[Column]) -> Result<usize> {
        if *self < columns.len() {
            Ok(*self)
        } else {
            Err(Error::InvalidColumnIndex(*self))
        }
    }
}

impl RowIndex for str {
    fn place(&self, columns: &[Column]) -> Result<usize> {
        let place = columns.iter().position(|column| column.name_bytes() == self.as_bytes());
        place.ok_or_else(|| Error::invalid_column_name(self))
    }
}

impl RowIndex for String {
    fn place(&self, columns: &[Column]) -> Result<usize> {
        self.as_str().place(columns)
    }
}

impl<T: RowIndex + ?Sized> RowIndex for &T {
    #[inline]
    fn place(&self, columns: &[Column]) -> Result<usize> {
        (**self).place(columns)
    }
}

/// The rows of a reply. The query read all of them, so no other call changes them.
///
/// ```
/// use mmdb::{Connection, Result};
///
/// # fn main() -> Result<()> {
/// let db = Connection::open()?;
/// db.execute_batch("TABLE t (id INT KEY)\nINSERT t (1), (2), (3)")?;
/// let mut scan = db.prepare("SCAN t")?;
/// for row in scan.query(())? {
///     db.execute("DELETE t WHERE id = ?", [row.get::<i64>(0)?])?;
/// }
/// assert_eq!(scan.query(())?.len(), 0);
/// # Ok(())
/// # }
/// ```
///
/// They are stored in the statement, which cannot run again while they are in use:
///
/// ```compile_fail,E0499
/// # fn main() -> mmdb::Result<()> {
/// # let db = mmdb::Connection::open()?;
/// let mut scan = db.prepare("SCAN t")?;
/// let rows = scan.query(())?;
/// scan.query(())?;
/// assert_eq!(rows.len(), 0);
/// # Ok(())
/// # }
/// ```
#[derive(Clone, Debug)]
pub struct Rows<'s> {
    /// The values of the remaining rows, row after row.
    values: &'s [PackedValue],
    texts: &'s [u8],
    columns: &'s [Column],
}

impl<'s> Rows<'s> {
    #[inline]
    pub(crate) fn new(reply: &'s Reply, columns: &'s [Column]) -> Rows<'s> {
        Rows { values: reply.values(), texts: reply.texts(), columns }
    }

    #[inline]
    fn row(&self, values: &'s [PackedValue]) -> Row<'s> {
        Row { values, texts: self.texts, columns: self.columns }
    }

    /// Returns the columns of the rows, from left to right.
    #[must_use]
    pub fn columns(&self) -> &'s [Column] {
        self.columns
    }

    /// Returns an iterator of what a function returns for each row.
    pub fn mapped<T, F>(self, function: F) -> MappedRows<'s, F>
    where
        F: FnMut(&Row<'s>) -> Result<T>,
    {
        MappedRows { rows: self, function }
    }

    /// Returns an iterator of what a function returns for each row. Its errors may be of any type.
    pub fn and_then<T, E, F>(self, function: F) -> AndThenRows<'s, F>
    where
        F: FnMut(&Row<'s>) -> Result<T, E>,
    {
        AndThenRows { rows: self, function }
    }
}

impl<'s> Iterator for Rows<'s> {
    type Item = Row<'s>;

    #[inline]
    fn next(&mut self) -> Option<Row<'s>> {
        if self.values.is_empty() {
            return None;
        }
        let (values, rest) = self.values.split_at(self.columns.len());
        self.values = rest;
        Some(self.row(values))
    }

    fn size_hint(&self) -> (usize, Option<usize>) {
        let rows = self.values.len() / self.columns.len().max(1);
        (rows, Some(rows))
    }
}

impl DoubleEndedIterator for Rows<'_> {
    fn next_back(&mut self) -> Option<Self::Item> {
        if self.values.is_empty() {
            return None;
        }
        let (rest, values) = self.values.split_at(self.values.len() - self.columns.len());
        self.values = rest;
        Some(self.row(values))
    }
}

impl ExactSizeIterator for Rows<'_> {}
impl FusedIterator for Rows<'_> {}

/// The iterator that [`Statement::query_map`](crate::Statement::query_map) returns.
#[derive(Clone, Debug)]
#[must_use = "the function is called as the iterator is used"]
pub struct MappedRows<'s, F> {
    rows: Rows<'s>,
    function: F,
}

/// The iterator that [`Statement::query_and_then`](crate::Statement::query_and_then) returns.
#[derive(Clone, Debug)]
#[must_use = "the function is called as the iterator is used"]
pub struct AndThenRows<'s, F> {
    rows: Rows<'s>,
    function: F,
}

macro_rules! iterator_of_rows {
    ($name:ident, $($error:ident)?, $result:ty) => {
        impl<'s, T, $($error,)? F: FnMut(&Row<'s>) -> $result> Iterator for $name<'s, F> {
            type Item = $result;

            #[inline]
            fn next(&mut self) -> Option<$result> {
                self.rows.next().map(|row| (self.function)(&row))
            }

            fn size_hint(&self) -> (usize, Option<usize>) {
                self.rows.size_hint()
            }
        }

        impl<'s, T, $($error,)? F: FnMut(&Row<'s>) -> $result> ExactSizeIterator for $name<'s, F> {}
        impl<'s, T, $($error,)? F: FnMut(&Row<'s>) -> $result> FusedIterator for $name<'s, F> {}
    };
}

iterator_of_rows! { MappedRows, , Result<T> }
iterator_of_rows! { AndThenRows, E, Result<T, E> }

/// A row of a reply. Its texts are borrowed from the statement that was queried.
///
/// ```
/// use mmdb::{Connection, Result};
///
/// # fn main() -> Result<()> {
/// let db = Connection::open()?;
/// db.execute_batch("TABLE person (id INT KEY, name TEXT)\nINSERT person (1, 'Ann'), (2, 'Bob')")?;
/// let mut people = db.prepare("SCAN person")?;
/// for row in people.query(())? {
///     let (id, name): (i64, &str) = row.values()?;
///     assert_eq!(row.get::<i64>(0)?, id);
///     assert_eq!(row.get::<&str>("name")?, name);
/// }
/// # Ok(())
/// # }
/// ```
#[derive(Clone, Copy, Debug)]
pub struct Row<'s> {
    values: &'s [PackedValue],
    texts: &'s [u8],
    columns: &'s [Column],
}

impl<'s> Row<'s> {
    /// Returns the value of a column, which is passed as its position or its name.
    ///
    /// - `InvalidColumnIndex` or `InvalidColumnName` if there is no such column
    /// - `InvalidColumnType` if the value is a text and `T` is made of a number, or the other way round
    /// - `ValueOutOfRange` if `T` does not have the number
    /// - `WrongLength` if `T` is an array or a `char`, and the text is shorter or longer
    /// - `NotUtf8` if `T` is UTF-8 and the text is not
    /// - `Refused(Memory)` if the copy of a text cannot be allocated
    #[inline]
    pub fn get<T: FromValue<'s>>(&self, column: impl RowIndex) -> Result<T> {
        let index = column.place(self.columns)?;
        let value = self.values[index].value(self.texts);
        T::from_value(value).map_err(|error| self.error(index, error))
    }

    /// Returns the value of a column without a conversion. `InvalidColumnIndex` or `InvalidColumnName` if there is no such column.
    #[inline]
    pub fn get_ref(&self, column: impl RowIndex) -> Result<ValueRef<'s>> {
        Ok(self.values[column.place(self.columns)?].value(self.texts))
    }

    /// Returns the first values of the row as a tuple, or the row as a type that implements [`FromRow`]. The errors are those of
    /// [`get`](Row::get).
    pub fn values<T: FromRow<'s>>(&self) -> Result<T> {
        T::from_row(self)
    }

    /// Returns the columns of the row, from left to right.
    #[must_use]
    pub fn columns(&self) -> &'s [Column] {
        self.columns
    }

    #[cold]
    fn error(&self, index: usize, error: FromValueError) -> Error {
        let column = self.columns[index];
        match error {
            FromValueError::WrongType => Error::InvalidColumnType { index, column },
            FromValueError::OutOfRange(number) => Error::ValueOutOfRange { index, column, number },
            FromValueError::WrongLength { found, wanted } => Error::WrongLength { index, column, found, wanted },
            FromValueError::NotUtf8(error) => Error::NotUtf8 { index, column, error },
            FromValueError::Memory => Error::MEMORY,
            FromValueError::Other(error) => Error::Other(error),
        }
    }
}

/// A type that is made from a row: a tuple of the first values, or a type of your own.
///
/// ```
/// use mmdb::{Connection, FromRow, Result, Row};
///
/// #[derive(Debug, PartialEq)]
/// struct Person {
///     id: i64,
///     name: String,
/// }
///
/// impl FromRow<'_> for Person {
///     fn from_row(row: &Row<'_>) -> Result<Self> {
///         Ok(Person { id: row.get("id")?, name: row.get("name")? })
///     }
/// }
///
/// # fn main() -> Result<()> {
/// let db = Connection::open()?;
/// db.execute_batch("TABLE person (id INT KEY, name TEXT)\nINSERT person (1, 'Ann')")?;
/// let ann: Person = db.query_row("SCAN person", (), |row| row.values())?;
/// assert_eq!(ann, Person { id: 1, name: "Ann".into() });
/// # Ok(())
/// # }
/// ```
pub trait FromRow<'s>: Sized {
    /// Makes the type from a row.
    fn from_row(row: &Row<'s>) -> Result<Self>;
}

macro_rules! from_row_of_tuples {
    ($($name:ident $place:literal)*) => {
        impl<'s, $($name: FromValue<'s>),*> FromRow<'s> for ($($name,)*) {
            #[inline]
            fn from_row(row: &Row<'s>) -> Result<Self> {
                Ok(($(row.get::<$name>($place)?,)*))
            }
        }
    };
}

from_row_of_tuples! { A 0 }
from_row_of_tuples! { A 0 B 1 }
from_row_of_tuples! { A 0 B 1 C 2 }
from_row_of_tuples! { A 0 B 1 C 2 D 3 }
from_row_of_tuples! { A 0 B 1 C 2 D 3 E 4 }
from_row_of_tuples! { A 0 B 1 C 2 D 3 E 4 F 5 }
from_row_of_tuples! { A 0 B 1 C 2 D 3 E 4 F 5 G 6 }
from_row_of_tuples! { A 0 B 1 C 2 D 3 E 4 F 5 G 6 H 7 }
from_row_of_tuples! { A 0 B 1 C 2 D 3 E 4 F 5 G 6 H 7 I 8 }
from_row_of_tuples! { A 0 B 1 C 2 D 3 E 4 F 5 G 6 H 7 I 8 J 9 }
from_row_of_tuples! { A 0 B 1 C 2 D 3 E 4 F 5 G 6 H 7 I 8 J 9 K 10 }
from_row_of_tuples! { A 0 B 1 C 2 D 3 E 4 F 5 G 6 H 7 I 8 J 9 K 10 L 11 }
from_row_of_tuples! { A 0 B 1 C 2 D 3 E 4 F 5 G 6 H 7 I 8 J 9 K 10 L 11 M 12 }
from_row_of_tuples! { A 0 B 1 C 2 D 3 E 4 F 5 G 6 H 7 I 8 J 9 K 10 L 11 M 12 N 13 }
from_row_of_tuples! { A 0 B 1 C 2 D 3 E 4 F 5 G 6 H 7 I 8 J 9 K 10 L 11 M 12 N 13 O 14 }
from_row_of_tuples! { A 0 B 1 C 2 D 3 E 4 F 5 G 6 H 7 I 8 J 9 K 10 L 11 M 12 N 13 O 14 P 15 }
