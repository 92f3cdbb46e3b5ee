//! Transactions and savepoints.

use crate::connection::Connection;
use crate::error::{Error, Refusal, Result};
use crate::line::Name;
use crate::raw::NAME_BYTES;
use std::ops::Deref;

/// An open transaction. Dropping it rolls it back, unless it was committed.
///
/// A `Transaction` dereferences to its [`Connection`] and has its calls. Tables and standing queries cannot be created or dropped in it
/// (`Refused(NotInTransaction)`). A refused command leaves it open.
///
/// A line such as `COMMIT` may end the transaction too. From then on the `Transaction` does nothing: its calls return
/// `Refused(NoTransaction)`, and dropping it does not touch a later transaction.
///
/// ```
/// use mmdb::{Connection, Result};
///
/// /// Moves money between accounts, or does nothing.
/// fn transfer(db: &mut Connection, from: i64, to: i64, amount: i64) -> Result<()> {
///     let transaction = db.transaction()?;
///     transaction.execute("UPDATE account SET money = money - ? WHERE id = ?", [amount, from])?;
///     transaction.execute("UPDATE account SET money = money + ? WHERE id = ?", [amount, to])?;
///     transaction.commit()
/// }
///
/// # fn main() -> Result<()> {
/// let mut db = Connection::open()?;
/// db.execute_batch("TABLE account (id INT KEY, money INT)\nINSERT account (1, 100), (2, 9223372036854775800)")?;
/// assert_eq!(transfer(&mut db, 1, 2, 50).unwrap_err().to_string(), "arithmetic out of range");
/// let money: i64 = db.query_row("SELECT a.money FROM account a WHERE a.id = 1", (), |row| row.get(0))?;
/// assert_eq!(money, 100);
/// # Ok(())
/// # }
/// ```
#[derive(Debug)]
#[must_use = "a transaction is rolled back when it is dropped"]
pub struct Transaction<'c> {
    connection: &'c Connection,
    /// The number of transactions that had ended when this one began. It is another one once this transaction has ended too.
    number: u64,
}

impl<'c> Transaction<'c> {
    pub(crate) fn begin(connection: &'c Connection) -> Result<Transaction<'c>> {
        connection.define(b"BEGIN")?;
        Ok(Transaction { connection, number: connection.ended_transactions.get() })
    }

    /// Commits all changes of the transaction. `Refused(NoTransaction)` if a line ended it before.
    pub fn commit(self) -> Result<()> {
        self.end(b"COMMIT")
    }

    /// Rolls back all changes of the transaction. `Refused(NoTransaction)` if a line ended it before.
    pub fn rollback(self) -> Result<()> {
        self.end(b"ROLLBACK")
    }

    fn end(&self, line: &[u8]) -> Result<()> {
        must_be_open(self.connection, self.number)?;
        self.connection.define(line)
    }

    /// Sets a savepoint. Dropping it rolls back the changes since, unless it was committed. The savepoint has this name in lines too.
    ///
    /// - `Refused(Syntax)` if this is not a name
    /// - `Refused(TooMany)` if the transaction has 64 savepoints
    /// - `Refused(NoTransaction)` if a line ended the transaction
    /// - `Refused(Memory)`
    pub fn savepoint(&mut self, name: &str) -> Result<Savepoint<'_>> {
        Savepoint::set(self.connection, self.number, name)
    }
}

/// `Refused(NoTransaction)` if the transaction with this number has ended.
fn must_be_open(connection: &Connection, number: u64) -> Result<()> {
    if connection.ended_transactions.get() == number {
        Ok(())
    } else {
        Err(Error::Refused(Refusal::NoTransaction))
    }
}

impl Deref for Transaction<'_> {
    type Target = Connection;

    fn deref(&self) -> &Connection {
        self.connection
    }
}

impl Drop for Transaction<'_> {
    fn drop(&mut self) {
        // This fails only if the transaction has ended, and then there is nothing to roll back.
        let _ = self.end(b"ROLLBACK");
    }
}

/// A savepoint of a transaction. Dropping it rolls back the changes since it was set, unless it was committed. Either way the savepoint is
/// released, so a transaction may set any number of them one after another.
///
/// A `Savepoint` dereferences to its [`Connection`] and has its calls. Savepoints may be nested, also with the same name. The calls of a
/// `Savepoint` always mean its own one. In lines, the name means the latest savepoint with the name, as in the language.
///
/// A line such as `ROLLBACK TO` an earlier savepoint may drop the savepoint. From then on the `Savepoint` does nothing: its calls return
/// `Refused(NoSuchSavepoint)`, and dropping it does not touch an earlier savepoint of the same name.
///
/// ```
/// use mmdb::{Connection, Result};
///
/// # fn main() -> Result<()> {
/// let mut db = Connection::open()?;
/// db.execute("TABLE t (id INT KEY)", ())?;
/// let mut transaction = db.transaction()?;
/// for id in [1, 2, 1, 3] {
///     let savepoint = transaction.savepoint("each")?;
///     if savepoint.execute("INSERT t (?)", [id]).is_ok() {
///         savepoint.commit()?;
///     }
/// }
/// transaction.commit()?;
/// assert_eq!(db.prepare("SCAN t")?.query(())?.len(), 3);
/// # Ok(())
/// # }
/// ```
#[derive(Debug)]
#[must_use = "the changes are rolled back when a savepoint is dropped"]
pub struct Savepoint<'t> {
    connection: &'t Connection,
    name: Name,
    transaction: u64,
    /// The number of this one in the list of savepoints that are set.
    number: u64,
    is_over: bool,
}

impl<'t> Savepoint<'t> {
    fn set(connection: &'t Connection, transaction: u64, name: &str) -> Result<Savepoint<'t>> {
        must_be_open(connection, transaction)?;
        let mut savepoint = Savepoint { connection, name: Name::new(name)?, transaction, number: 0, is_over: true };
        savepoint.execute_with_name(b"SAVEPOINT ")?;
        savepoint.number = connection.savepoints.borrow().newest();
        savepoint.is_over = false;
        Ok(savepoint)
    }

    /// Keeps the changes since the savepoint as changes of the transaction, and releases the savepoint.
    ///
    /// `Refused(NoTransaction)` or `Refused(NoSuchSavepoint)` if a line ended the transaction or went back to an earlier savepoint.
    pub fn commit(mut self) -> Result<()> {
        self.is_over = true;
        self.reveal()?;
        self.release()
    }

    /// Rolls back the changes since the savepoint, which stays set. The errors are those of [`commit`](Savepoint::commit).
    pub fn rollback(&mut self) -> Result<()> {
        self.reveal()?;
        self.execute_with_name(b"ROLLBACK TO ")
    }

    /// Sets a savepoint within this one, which may have the same name. The errors are those of [`Transaction::savepoint`].
    pub fn savepoint(&mut self, name: &str) -> Result<Savepoint<'_>> {
        Savepoint::set(self.connection, self.transaction, name)
    }

    /// Returns the name of the savepoint.
    #[must_use]
    pub fn name(&self) -> &str {
        self.name.as_str()
    }

    /// Releases the later savepoints that hide this one. `Refused(NoTransaction)` or `Refused(NoSuchSavepoint)` if this one is not set.
    fn reveal(&self) -> Result<()> {
        must_be_open(self.connection, self.transaction)?;
        if !self.connection.savepoints.borrow().contains(self.number) {
            return Err(Error::Refused(Refusal::NoSuchSavepoint));
        }
        while self.is_hidden() {
            self.release()?;
        }
        Ok(())
    }

    fn is_hidden(&self) -> bool {
        self.connection.savepoints.borrow().latest(self.name).map_or(false, |(_, number)| number != self.number)
    }

    /// Releases the latest savepoint with the name.
    fn release(&self) -> Result<()> {
        Error::check(self.connection.handle.release(self.name.as_bytes()))?;
        self.connection.savepoints.borrow_mut().release(self.name);
        Ok(())
    }

    /// Executes a command that ends in the name of the savepoint. It allocates nothing, so that a rollback cannot fail for want of memory.
    fn execute_with_name(&self, command: &[u8]) -> Result<()> {
        let mut line = [0; "ROLLBACK TO ".len() + NAME_BYTES];
        let length = command.len() + self.name.as_bytes().len();
        line[..command.len()].copy_from_slice(command);
        line[command.len()..length].copy_from_slice(self.name.as_bytes());
        self.connection.define(&line[..length])
    }
}

impl Deref for Savepoint<'_> {
    type Target = Connection;

    fn deref(&self) -> &Connection {
        self.connection
    }
}

impl Drop for Savepoint<'_> {
    fn drop(&mut self) {
        if !self.is_over {
            // Both fail only if a line ended the transaction or went back to an earlier savepoint, and then there is nothing to roll back.
            let _ = self.rollback().and_then(|()| self.release());
        }
    }
}
