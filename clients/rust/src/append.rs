//! Appending rows that are passed as columns.

use crate::connection::Connection;
use crate::error::{Error, Result};
use crate::memory;
use crate::raw::{self, Array};

/// The values of a column for [`Connection::append`], as slices.
#[derive(Clone, Copy, Debug, PartialEq, Eq)]
pub enum ColumnData<'a> {
    /// The numbers of an `INT` column.
    Int(&'a [i64]),
    /// The texts of a `TEXT` column, one after another. The text at `i` is `bytes[offsets[i]..offsets[i + 1]]`, so there is one offset more
    /// than texts. The texts need not be UTF-8.
    Text {
        /// Where each text begins and the last one ends, in bytes. The first offset may be greater than 0.
        offsets: &'a [u32],
        /// The bytes of the texts.
        bytes: &'a [u8],
    },
}

impl<'a> ColumnData<'a> {
    fn array(&self) -> Array<'a> {
        match *self {
            ColumnData::Int(numbers) => Array::new(numbers, &[], &[]),
            ColumnData::Text { offsets, bytes } => Array::new(&[], offsets, bytes),
        }
    }
}

impl Connection {
    /// Inserts rows into a table, all of them or none, in one command. There is a column for each column of the table, from left to right.
    /// Returns the number of rows. Copies no values on its own.
    ///
    /// - `Refused`, as an `INSERT` of these rows: with [`TextTooLong`](crate::Refusal::TextTooLong) if a text has more than 64 bytes, and with
    ///   [`Syntax`](crate::Refusal::Syntax) if one contains a line feed or `table` is not a name
    /// - `NotColumns`: the columns have different numbers of values, or the offsets of texts decrease or are past the end of their bytes
    ///
    /// ```
    /// use mmdb::{ColumnData, Connection, Refusal, Result};
    ///
    /// # fn main() -> Result<()> {
    /// let db = Connection::open()?;
    /// db.execute("TABLE person (id INT KEY, name TEXT)", ())?;
    /// let names = ColumnData::Text { offsets: &[0, 3, 6], bytes: b"AnnBob" };
    /// assert_eq!(db.append("person", &[ColumnData::Int(&[1, 2]), names])?, 2);
    /// let error = db.append("person", &[ColumnData::Int(&[3, 1]), names]).unwrap_err();
    /// assert_eq!(error.refusal(), Some(Refusal::DuplicateKey));
    /// assert_eq!(db.query_row("SELECT p.name FROM person p WHERE p.id = ?", [2], |row| row.get::<String>(0))?, "Bob");
    /// assert_eq!(db.prepare("SCAN person")?.query(())?.len(), 2);
    /// # Ok(())
    /// # }
    /// ```
    pub fn append(&self, table: &str, columns: &[ColumnData<'_>]) -> Result<usize> {
        let arrays = memory::collected(columns.iter().map(|column| Ok(column.array())))?;
        match self.handle.append(table.as_bytes(), &arrays) {
            raw::COUNT => Ok(self.handle.count()),
            raw::MISUSE => Err(Error::NotColumns),
            status => Err(Error::of_status(status)),
        }
    }
}
