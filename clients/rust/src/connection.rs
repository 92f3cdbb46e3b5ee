//! Connections.

use crate::cache::Cache;
use crate::error::{Cause, Error, Refusal, Result};
use crate::line::{one_line, Name};
use crate::memory;
use crate::params::{params_from_iter, Params};
use crate::raw::{self, Column, DumpPlace, Handle, Status};
use crate::row::Row;
use crate::savepoints::{Effect, Savepoints};
use crate::script::Script;
use crate::statement::{Prepared, Statement};
use crate::transaction::Transaction;
use std::cell::{Cell, RefCell};
use std::fmt;
use std::io;

/// The length of the buffer for a piece of a dump, in bytes.
const DUMP_BYTES: usize = 1 << 20;

/// What [`Connection::definition`] returns the definition of. A table, an index and a standing query may have the same name.
#[derive(Clone, Copy, Debug, PartialEq, Eq, Hash)]
#[repr(u8)]
pub enum DefinitionKind {
    /// A table, which a `TABLE` line defines.
    Table = 10,
    /// An index, which an `INDEX` line defines.
    Index = 12,
    /// A standing query, which a `WATCH` line defines.
    StandingQuery = 14,
}

/// A database in the program's own memory. Dropping the connection frees it.
///
/// ```
/// use mmdb::{Connection, Result};
///
/// # fn main() -> Result<()> {
/// let db = Connection::open()?;
/// db.execute("TABLE person (id INT KEY, name TEXT)", ())?;
/// assert_eq!(db.execute("INSERT person (?, ?), (?, ?)", (1, "Ann", 2, "Bob"))?, 2);
/// let name: String = db.query_row("SELECT p.name FROM person p WHERE p.id = ?", [2], |row| row.get(0))?;
/// assert_eq!(name, "Bob");
/// # Ok(())
/// # }
/// ```
///
/// A connection may move to another thread, and one thread at a time may use it: it is `Send` and not `Sync`. Threads share one through a
/// `Mutex`:
///
/// ```
/// use mmdb::{Connection, Result};
/// use std::sync::{Arc, Mutex};
///
/// # fn main() -> Result<()> {
/// let db = Arc::new(Mutex::new(Connection::open()?));
/// db.lock().unwrap().execute("TABLE t (id INT KEY)", ())?;
/// let other = db.clone();
/// std::thread::spawn(move || other.lock().unwrap().execute("INSERT t (1)", ())).join().unwrap()?;
/// assert_eq!(db.lock().unwrap().prepare("SCAN t")?.query(())?.len(), 1);
/// # Ok(())
/// # }
/// ```
///
/// ```compile_fail,E0277
/// let db = mmdb::Connection::open().unwrap();
/// std::thread::scope(|scope| {
///     scope.spawn(|| db.is_in_transaction()); // Two threads would use it at the same time.
/// });
/// ```
///
/// A line of the language may be passed as several lines: a line feed outside a text counts as a blank.
pub struct Connection {
    pub(crate) handle: Handle,
    /// At least the number of replies `ok`. Only a command with this reply can change the catalog.
    pub(crate) catalog: Cell<u64>,
    /// At least the number of replies `ok` that ended a transaction. It stays the same as long as a transaction is open.
    pub(crate) ended_transactions: Cell<u64>,
    pub(crate) savepoints: RefCell<Savepoints>,
    cache: RefCell<Cache>,
}

impl Connection {
    /// Opens an empty database. `Refused(Memory)`, or `LibraryVersion` if libmmdb has another major version or is too old.
    pub fn open() -> Result<Connection> {
        check_version(raw::version())?;
        Ok(Connection {
            handle: Handle::open().map_err(Error::of_status)?,
            catalog: Cell::new(0),
            ended_transactions: Cell::new(0),
            savepoints: RefCell::new(Savepoints::new()?),
            cache: RefCell::new(Cache::new()),
        })
    }

    /// Executes a line, with a value for each `?` in it. Returns the number of rows that it inserted, updated or deleted, or 0 for another
    /// kind of command. An empty line and a comment do nothing.
    ///
    /// A line with values is prepared for this call alone. To run it often, use [`prepare`](Connection::prepare).
    ///
    /// - `WrongParameterCount`, `TextTooLong`, `TextHasLineFeed`, `NumberOutOfRange`: the values do not fit
    /// - `CommentHasLineFeed`: the line is a comment and contains a line feed
    /// - `ExecuteReturnedRows`: the line returns rows or a text
    /// - `Refused`: the database refused the command
    pub fn execute(&self, line: &str, params: impl Params) -> Result<usize> {
        if params.are_none() {
            let line = one_line(line)?;
            let status = self.handle.execute(&line);
            // A line with a ? is a syntax error without values. As a statement it has parameters, and the error says so.
            if status != raw::SYNTAX {
                return self.changed_rows(status, Effect::of(&line));
            }
        }
        self.prepare_once(line)?.execute(params)
    }

    /// Executes the commands of a script one after another, and drops their replies. A command may extend over several lines; an empty line
    /// or a comment ends it.
    ///
    /// Stops at the first command that fails: `InLine` has the number of its first line, and the commands before it stay done.
    ///
    /// ```
    /// use mmdb::{Connection, Error, Result};
    ///
    /// # fn main() -> Result<()> {
    /// let db = Connection::open()?;
    /// let error = db.execute_batch("
    ///     TABLE t (id INT KEY)
    ///     INSERT t
    ///         (1),
    ///         (2)
    ///     INSERT t (2)
    /// ").unwrap_err();
    /// assert!(matches!(error, Error::InLine { line: 6, .. }));
    /// assert_eq!(error.to_string(), "line 6: duplicate key");
    /// # Ok(())
    /// # }
    /// ```
    pub fn execute_batch(&self, script: &str) -> Result<()> {
        Script::new(self, script).execute()
    }

    /// Executes the lines of a script one after another, in one call of the library, and drops their replies. Each line is a command of its
    /// own, as in a script that [`dump`](Connection::dump) wrote. The texts of the script need not be UTF-8.
    ///
    /// Stops at the first line that is refused: `InLine` has its number, and the lines before it stay done.
    ///
    /// ```
    /// use mmdb::{Connection, Error, Refusal, Result};
    ///
    /// # fn main() -> Result<()> {
    /// let db = Connection::open()?;
    /// db.load("TABLE t (id INT KEY)\nINSERT t (1), (2)\n")?;
    /// let error = db.load("INSERT t (3)\nINSERT t (3)\nINSERT t (4)").unwrap_err();
    /// assert!(matches!(error, Error::InLine { line: 2, .. }));
    /// assert_eq!(error.refusal(), Some(Refusal::DuplicateKey));
    /// assert_eq!(db.prepare("SCAN t")?.query(())?.len(), 3);
    /// # Ok(())
    /// # }
    /// ```
    pub fn load(&self, script: impl AsRef<[u8]>) -> Result<()> {
        let script = script.as_ref();
        let (status, lines) = self.handle.load(script);
        script.split(|byte| *byte == b'\n').take(lines).for_each(|line| self.note_loaded(line));
        Error::check(status).map_err(|error| Error::InLine { line: lines + 1, error: Cause::new(error) })
    }

    /// Writes a script that rebuilds the database: its tables, rows, indexes and standing queries. [`load`](Connection::load) runs it, and
    /// so does [`execute_batch`](Connection::execute_batch) if its texts are UTF-8. If a transaction is open, its changes are in the script.
    /// The rows are not copied, and the memory does not grow with their number. At the end the writer is flushed.
    ///
    /// Fails if the writer fails. If memory is short, the kind is [`OutOfMemory`](io::ErrorKind::OutOfMemory). If the writer executes a
    /// command other than a query, the inner error is [`Error::ChangedDuringDump`].
    ///
    /// ```
    /// use mmdb::{Connection, Result};
    ///
    /// # fn main() -> Result<()> {
    /// let db = Connection::open()?;
    /// db.execute_batch("TABLE t (id INT KEY, name TEXT)\nINSERT t (2, 'b'), (1, 'a')\nWATCH w SELECT x.id FROM t x WHERE x.id > 1")?;
    /// let mut script = Vec::new();
    /// db.dump(&mut script).unwrap();
    /// assert!(script.starts_with(b"TABLE t (id INT KEY, name TEXT)\nINSERT t (1, 'a'), (2, 'b')\n"));
    ///
    /// let copy = Connection::open()?;
    /// copy.load(&script)?;
    /// assert_eq!(copy.show("w", |row| row.get::<i64>(0))?, [2]);
    /// # Ok(())
    /// # }
    /// ```
    pub fn dump(&self, mut writer: impl io::Write) -> io::Result<()> {
        let mut bytes = Vec::new();
        memory::grow(&mut bytes, DUMP_BYTES, 0)?;
        let mut place = DumpPlace::START;
        loop {
            match self.handle.dump(&mut place, &mut bytes) {
                Ok(0) => return writer.flush(),
                Ok(length) => writer.write_all(&bytes[..length])?,
                Err(raw::MISUSE) => return Err(Error::ChangedDuringDump.into()),
                Err(status) => return Err(Error::of_status(status).into()),
            }
        }
    }

    /// Returns the line that defines a table, an index or a standing query: the one that [`dump`](Connection::dump) writes for it, without a
    /// line feed. A text in the line of a standing query may be bytes that are not UTF-8.
    ///
    /// `Refused`, with [`NoSuchTable`](Refusal::NoSuchTable), [`NoSuchIndex`](Refusal::NoSuchIndex) or
    /// [`NoSuchStandingQuery`](Refusal::NoSuchStandingQuery) if there is none, [`Syntax`](Refusal::Syntax) if this is not a name, or
    /// [`Memory`](Refusal::Memory).
    ///
    /// ```
    /// use mmdb::{Connection, DefinitionKind, Refusal, Result};
    ///
    /// # fn main() -> Result<()> {
    /// let db = Connection::open()?;
    /// db.load("TABLE seat (id INT KEY, taken INT)\nINDEX by_taken ON seat (taken) HASH")?;
    /// db.watch("free", "SELECT s.id FROM seat s WHERE s.taken = 0")?;
    /// assert_eq!(db.definition(DefinitionKind::Table, "seat")?, b"TABLE seat (id INT KEY, taken INT)");
    /// assert_eq!(db.definition(DefinitionKind::Index, "by_taken")?, b"INDEX by_taken ON seat (taken) HASH");
    /// assert_eq!(db.definition(DefinitionKind::StandingQuery, "free")?, b"WATCH free SELECT s.id FROM seat s WHERE s.taken=0");
    /// let error = db.definition(DefinitionKind::Index, "seat").unwrap_err();
    /// assert_eq!(error.refusal(), Some(Refusal::NoSuchIndex));
    /// # Ok(())
    /// # }
    /// ```
    pub fn definition(&self, kind: DefinitionKind, name: &str) -> Result<Vec<u8>> {
        self.handle.definition(kind as u8, name.as_bytes()).map_err(Error::of_status)
    }

    /// Prepares a line in which a `?` may replace a number or a text. The line is only read: names in it are looked up when it runs.
    ///
    /// - `Refused` with [`LineTooLong`](Refusal::LineTooLong), [`Syntax`](Refusal::Syntax),
    ///   [`NumberOutOfRange`](Refusal::NumberOutOfRange), [`TextTooLong`](Refusal::TextTooLong) or [`Memory`](Refusal::Memory)
    /// - `CommentHasLineFeed`: the line is a comment and contains a line feed
    pub fn prepare(&self, line: &str) -> Result<Statement<'_>> {
        Ok(Statement::new(self, Prepared::with_line(self, line)?, false))
    }

    /// Prepares a line for one call, without a copy of the line.
    pub(crate) fn prepare_once(&self, line: &str) -> Result<Statement<'_>> {
        Ok(Statement::new(self, Prepared::new(self, line)?, false))
    }

    /// Takes the statement of a line from the cache, or prepares the line. Dropping the statement puts it back into the cache. The errors
    /// are those of [`prepare`](Connection::prepare).
    ///
    /// ```
    /// use mmdb::{Connection, Result};
    ///
    /// fn name_of(db: &Connection, id: i64) -> Result<String> {
    ///     db.prepare_cached("SELECT p.name FROM person p WHERE p.id = ?")?.query_row([id], |row| row.get(0))
    /// }
    ///
    /// # fn main() -> Result<()> {
    /// let db = Connection::open()?;
    /// db.execute_batch("TABLE person (id INT KEY, name TEXT)\nINSERT person (1, 'Ann'), (2, 'Bob')")?;
    /// assert_eq!(name_of(&db, 1)? + &name_of(&db, 2)?, "AnnBob");
    /// # Ok(())
    /// # }
    /// ```
    pub fn prepare_cached(&self, line: &str) -> Result<Statement<'_>> {
        let cached = self.cache.borrow_mut().take(line);
        let prepared = cached.map_or_else(|| Prepared::with_line(self, line), Ok)?;
        Ok(Statement::new(self, prepared, true))
    }

    /// Sets the capacity of the cache, in statements. It is 16 at first.
    pub fn set_statement_cache_capacity(&self, capacity: usize) {
        let mut cache = self.cache.borrow_mut();
        cache.set_capacity(capacity);
        while let Some(prepared) = cache.surplus() {
            prepared.finalize(self);
        }
    }

    /// Puts a statement into the cache.
    pub(crate) fn give_back(&self, prepared: Prepared) {
        if let Some(surplus) = self.cache.borrow_mut().give_back(prepared) {
            surplus.finalize(self);
        }
    }

    /// Runs a query with a value for each `?`. Returns what a function returns for the first row. `QueryReturnedNoRows` if there is none;
    /// the other errors are those of [`prepare`](Connection::prepare), [`Statement::query`] and the function.
    pub fn query_row<T>(
        &self,
        line: &str,
        params: impl Params,
        function: impl FnOnce(&Row<'_>) -> Result<T>,
    ) -> Result<T> {
        self.prepare_once(line)?.query_row(params, function)
    }

    /// Begins a transaction, which is rolled back unless it is committed. `Refused(TransactionOpen)` if one is open.
    ///
    /// The connection is borrowed as `&mut`, so no other `Transaction` can begin at the same time. A statement that was prepared before
    /// cannot be used in it: prepare it in the transaction, or use [`prepare_cached`](Connection::prepare_cached).
    pub fn transaction(&mut self) -> Result<Transaction<'_>> {
        Transaction::begin(self)
    }

    /// Begins a transaction through a shared reference, so that earlier statements can be used in it. `Refused(TransactionOpen)` if one is
    /// open.
    pub fn unchecked_transaction(&self) -> Result<Transaction<'_>> {
        Transaction::begin(self)
    }

    /// Returns whether a transaction is open.
    #[must_use]
    pub fn is_in_transaction(&self) -> bool {
        self.handle.is_in_transaction()
    }

    /// Creates a standing query: [`show`](Connection::show) returns the rows that the query has at that time.
    ///
    /// `Refused`, with [`Syntax`](Refusal::Syntax) if this is not a name.
    pub fn watch(&self, name: &str, query: &str) -> Result<()> {
        let line = memory::joined(&["WATCH ", Name::new(name)?.as_str(), " ", query])?;
        self.define(&one_line(&line)?)
    }

    /// Drops a standing query. `Refused`, with [`Syntax`](Refusal::Syntax) if this is not a name.
    pub fn unwatch(&self, name: &str) -> Result<()> {
        self.define(memory::joined(&["UNWATCH ", Name::new(name)?.as_str()])?.as_bytes())
    }

    /// Returns what a function returns for each row of a standing query. `Refused`, with [`Syntax`](Refusal::Syntax) if this is not a name;
    /// or an error of the function.
    ///
    /// ```
    /// use mmdb::{Connection, Result};
    ///
    /// # fn main() -> Result<()> {
    /// let db = Connection::open()?;
    /// db.execute("TABLE seat (id INT KEY, taken INT)", ())?;
    /// db.watch("free", "SELECT s.id FROM seat s WHERE s.taken = 0")?;
    /// db.execute("INSERT seat (1, 0), (2, 1), (3, 0)", ())?;
    /// let free: Vec<i64> = db.show("free", |row| row.get(0))?;
    /// assert_eq!(free, [1, 3]);
    /// # Ok(())
    /// # }
    /// ```
    pub fn show<T>(&self, name: &str, function: impl FnMut(&Row<'_>) -> Result<T>) -> Result<Vec<T>> {
        let line = memory::joined(&["SHOW ", Name::new(name)?.as_str()])?;
        let mut statement = self.prepare_cached(&line)?;
        let rows = statement.query_map((), function)?;
        memory::collected(rows)
    }

    /// Returns the columns of the rows that a line returns, for the tables as they are now. There are none if it returns no rows, or if a
    /// name in it does not exist. The errors are those of [`prepare`](Connection::prepare).
    pub fn columns(&self, line: &str) -> Result<Vec<Column>> {
        let mut columns = Vec::new();
        self.handle.columns(&one_line(line)?, &mut columns).map_err(Error::of_status)?;
        Ok(columns)
    }

    /// Returns the byte offset in a line to show in an error message: where reading stopped, a number or text past its limit, or a name
    /// that does not exist. The offset is a hint. It is 0 if there is no such place.
    ///
    /// ```
    /// use mmdb::{Connection, Result};
    ///
    /// # fn main() -> Result<()> {
    /// let db = Connection::open()?;
    /// let line = "SCAN t;";
    /// let refusal = db.prepare(line).err().and_then(|error| error.refusal()).unwrap();
    /// assert_eq!((refusal.to_string().as_str(), db.place_of_refusal(line, refusal)), ("syntax", 6));
    /// # Ok(())
    /// # }
    /// ```
    #[must_use]
    pub fn place_of_refusal(&self, line: &str, refusal: Refusal) -> usize {
        one_line(line).map_or(0, |line| self.handle.place(&line, refusal.number()))
    }

    /// Returns the plan of a `SELECT`, a line for each of its tables. The query is not run.
    ///
    /// The plan does not depend on values, so the query may have parameters. Each of them counts as a number here;
    /// [`Statement::explain`] has values of both types. The errors are those of [`prepare`](Connection::prepare) and of
    /// [`Statement::explain`].
    ///
    /// ```
    /// use mmdb::{Connection, Result};
    ///
    /// # fn main() -> Result<()> {
    /// let db = Connection::open()?;
    /// db.execute("TABLE t (id INT KEY)", ())?;
    /// assert_eq!(db.explain("SELECT a.id FROM t a WHERE a.id = ?")?, ["a tree #key ="]);
    /// # Ok(())
    /// # }
    /// ```
    pub fn explain(&self, query: &str) -> Result<Vec<String>> {
        let mut statement = self.prepare_once(query)?;
        let count = statement.parameter_count();
        statement.explain(params_from_iter((0..count).map(|_| 0)))
    }

    /// Returns the tables, indexes and standing queries, a line for each, as `TABLES` lists them. `Refused(Memory)`.
    ///
    /// ```
    /// use mmdb::{Connection, Result};
    ///
    /// # fn main() -> Result<()> {
    /// let db = Connection::open()?;
    /// db.execute("TABLE t (id INT KEY, s TEXT)", ())?;
    /// assert_eq!(db.tables()?, ["TABLE t (id INT KEY, s TEXT) rows 0"]);
    /// # Ok(())
    /// # }
    /// ```
    pub fn tables(&self) -> Result<Vec<String>> {
        self.define(b"TABLES")?;
        self.lines_of_reply()
    }

    /// Executes a line, and drops the reply.
    pub(crate) fn define(&self, line: &[u8]) -> Result<()> {
        self.note(self.handle.execute(line), Effect::of(line))
    }

    /// Returns the lines of the reply, which is a text, without the last one, which is their number.
    pub(crate) fn lines_of_reply(&self) -> Result<Vec<String>> {
        let text = self.handle.text().map_err(Error::of_status)?;
        let text = std::str::from_utf8(&text).map_err(|_| Error::Unexpected(raw::TEXT))?;
        let count = text.lines().count().saturating_sub(1);
        memory::collected(text.lines().take(count).map(memory::string))
    }

    /// Takes note of the status of a command, and of what the command does to the savepoints if it succeeds. An error if it is not a
    /// success.
    #[inline]
    pub(crate) fn note(&self, status: Status, effect: Effect) -> Result<()> {
        if status == raw::DONE {
            self.note_ok(effect);
        }
        Error::check(status)
    }

    fn note_ok(&self, effect: Effect) {
        self.savepoints.borrow_mut().follow(effect);
        self.catalog.set(self.catalog.get() + 1);
        if !self.handle.is_in_transaction() {
            self.ended_transactions.set(self.ended_transactions.get() + 1);
        }
    }

    /// Takes note of a line of a script that was executed and not refused.
    fn note_loaded(&self, line: &[u8]) {
        let effect = Effect::of(line);
        // A `BEGIN` counts too. It was not refused, so no transaction was open that it could seem to end.
        if matches!(effect, Effect::Clear) {
            self.ended_transactions.set(self.ended_transactions.get() + 1);
        }
        self.savepoints.borrow_mut().follow(effect);
        self.catalog.set(self.catalog.get() + 1);
    }

    /// Returns the number of rows that a command with this status changed.
    #[inline]
    pub(crate) fn changed_rows(&self, status: Status, effect: Effect) -> Result<usize> {
        self.note(status, effect)?;
        match status {
            raw::COUNT => Ok(self.handle.count()),
            raw::ROWS | raw::TEXT => Err(Error::ExecuteReturnedRows),
            _ => Ok(0),
        }
    }
}

/// `LibraryVersion` if the library has another major version than the header, or is older.
fn check_version(version: u32) -> Result<()> {
    const OLDEST: u32 = raw::HEADER_VERSION;
    if version >= OLDEST && version / 1_000_000 == OLDEST / 1_000_000 {
        Ok(())
    } else {
        Err(Error::LibraryVersion(version))
    }
}

impl fmt::Debug for Connection {
    fn fmt(&self, f: &mut fmt::Formatter<'_>) -> fmt::Result {
        f.debug_struct("Connection").field("is_in_transaction", &self.is_in_transaction()).finish_non_exhaustive()
    }
}

#[cfg(test)]
mod tests {
    use super::check_version;
    use crate::Error;

    #[test]
    fn libraries_of_the_major_version_that_are_not_older_fit() {
        for version in [1_001_000, 1_001_001, 1_999_999] {
            assert!(check_version(version).is_ok());
        }
        for (version, name) in [(0, "0.0.0"), (1_000_000, "1.0.0"), (1_000_999, "1.0.999"), (2_001_003, "2.1.3")] {
            let error = check_version(version).unwrap_err();
            assert!(matches!(error, Error::LibraryVersion(found) if found == version));
            assert!(error.to_string().contains(&format!("version {name},")), "{error}");
        }
    }
}
