//! Prepared statements.

use crate::connection::Connection;
use crate::error::{Cause, Error, Result};
use crate::line::one_line;
use crate::memory;
use crate::params::{Binder, Params};
use crate::raw::{self, Cell, Column, Handle};
use crate::reply::Reply;
use crate::row::{AndThenRows, MappedRows, Row, Rows};
use crate::savepoints::Effect;

/// The maximum number of cells that cross at a time if there are many: 80 kilobytes.
const MOST_CELLS: usize = 1024;

/// The kind of a statement, as mmdb.h numbers it in groups of ten.
#[derive(Clone, Copy, Debug, Default, PartialEq, Eq)]
struct Kind(u8);

impl Kind {
    const NOTHING: Kind = Kind(0);
    const SELECT: Kind = Kind(32);
    const EXPLAIN: Kind = Kind(40);

    fn returns_rows(self) -> bool {
        self.0 / 10 == 3
    }

    fn returns_text(self) -> bool {
        self.0 / 10 == 4
    }

    fn has_plan(self) -> bool {
        self == Kind::SELECT || self == Kind::EXPLAIN
    }
}

/// A statement of the library, without the connection. The cache keeps these.
#[derive(Debug, Default)]
pub(crate) struct Prepared {
    /// The line, or nothing if the statement is prepared for one call.
    pub(crate) line: String,
    number: usize,
    kind: Kind,
    effect: Effect,
    /// A cell for each parameter.
    values: Vec<Cell>,
    /// The cells that the library writes rows to.
    cells: Vec<Cell>,
    reply: Reply,
    /// The columns of the rows, as they were after `catalog` possible changes of the catalog.
    columns: Vec<Column>,
    catalog: Option<u64>,
}

impl Prepared {
    /// Prepares a line for one call.
    pub(crate) fn new(connection: &Connection, line: &str) -> Result<Prepared> {
        let line = one_line(line)?;
        let number = connection.handle.prepare(&line).map_err(Error::of_status)?;
        let mut prepared = Prepared { number, effect: Effect::of(&line), ..Prepared::default() };
        match prepared.describe(&connection.handle) {
            Ok(()) => Ok(prepared),
            Err(error) => {
                prepared.finalize(connection);
                Err(error)
            }
        }
    }

    /// Prepares a line and keeps it.
    pub(crate) fn with_line(connection: &Connection, line: &str) -> Result<Prepared> {
        let copy = memory::string(line)?;
        Ok(Prepared { line: copy, ..Prepared::new(connection, line)? })
    }

    fn describe(&mut self, handle: &Handle) -> Result<()> {
        self.kind = Kind(handle.kind(self.number).map_err(Error::of_status)?);
        let count = handle.parameters(self.number).map_err(Error::of_status)?;
        memory::grow(&mut self.values, count, Cell::ZERO)
    }

    pub(crate) fn finalize(self, connection: &Connection) {
        // This fails only if there is no such statement, and then there is nothing to delete.
        connection.handle.finalize(self.number);
    }

    /// Frees the memory of a large reply.
    pub(crate) fn shrink(&mut self) {
        if self.reply.capacity() > MOST_CELLS {
            self.reply = Reply::default();
        }
    }

    #[inline]
    fn bind(&mut self, params: impl Params) -> Result<()> {
        let mut binder = Binder::new(&mut self.values);
        params.bind(&mut binder)?;
        binder.finish()
    }

    /// `ExecuteReturnedRows` if the statement returns rows or a text.
    #[inline]
    fn must_be_command(&self) -> Result<()> {
        if self.kind.returns_rows() || self.kind.returns_text() {
            return Err(Error::ExecuteReturnedRows);
        }
        Ok(())
    }

    fn execute(&mut self, connection: &Connection, params: impl Params) -> Result<usize> {
        self.must_be_command()?;
        self.bind(params)?;
        connection.changed_rows(connection.handle.run(self.number, &self.values), self.effect)
    }

    fn explain(&mut self, connection: &Connection, params: impl Params) -> Result<Vec<String>> {
        if !self.kind.has_plan() {
            return Err(Error::NotAQuery);
        }
        self.bind(params)?;
        Error::check(connection.handle.explain(self.number, &self.values))?;
        connection.lines_of_reply()
    }

    /// Runs a query and reads all rows of the reply.
    fn query(&mut self, connection: &Connection, params: impl Params) -> Result<Rows<'_>> {
        if !self.kind.returns_rows() {
            return Err(Error::NotAQuery);
        }
        self.bind(params)?;
        if self.catalog != Some(connection.catalog.get()) {
            self.update_columns(connection)?;
        }
        let (status, rows) = connection.handle.query(self.number, &self.values, &mut self.cells);
        if status != raw::ROWS {
            return Err(Error::of_status(status));
        }
        let width = self.columns.len();
        self.reply.clear();
        self.reply.push(&self.cells[..rows * width])?;
        // The reply has no further row if one more would have fitted.
        if (rows + 1) * width > self.cells.len() {
            self.read_rest(connection, rows)?;
        }
        Ok(Rows::new(&self.reply, &self.columns))
    }

    /// Reads the rows from `first` on. `Refused(Memory)` if they do not fit in memory.
    #[cold]
    fn read_rest(&mut self, connection: &Connection, first: usize) -> Result<()> {
        let (width, rows) = (self.columns.len(), connection.handle.count());
        memory::grow(&mut self.cells, ((rows + 1) * width).min(MOST_CELLS), Cell::ZERO)?;
        self.reply.reserve((rows - first) * width)?;
        let mut next = first;
        loop {
            let read = connection.handle.read(next, &mut self.cells);
            if read == 0 {
                return Ok(());
            }
            self.reply.push(&self.cells[..read * width])?;
            next += read;
        }
    }

    /// Reads the columns of the rows from the library, and makes room for two rows.
    #[cold]
    fn update_columns(&mut self, connection: &Connection) -> Result<()> {
        self.catalog = None;
        connection.handle.statement_columns(self.number, &mut self.columns).map_err(Error::of_status)?;
        memory::grow(&mut self.cells, 2 * self.columns.len(), Cell::ZERO)?;
        self.catalog = Some(connection.catalog.get());
        Ok(())
    }
}

/// A prepared statement: a line that is read once and run any number of times, with a value for each `?` in it.
///
/// Dropping it deletes it, or puts it back into the cache that it comes from ([`Connection::prepare_cached`]).
///
/// A statement may name tables that do not exist yet, and stays valid when tables are dropped and created again: a run does what its line
/// would do now.
///
/// ```
/// use mmdb::{Connection, Result};
///
/// # fn main() -> Result<()> {
/// let db = Connection::open()?;
/// db.execute("TABLE person (id INT KEY, name TEXT)", ())?;
/// let mut insert = db.prepare("INSERT person (?, ?)")?;
/// insert.execute((1, "Ann"))?;
/// insert.execute((2, "Bob"))?;
/// let mut find = db.prepare("SELECT p.name FROM person p WHERE p.id = ?")?;
/// assert_eq!(find.query_row([2], |row| row.get::<String>(0))?, "Bob");
/// # Ok(())
/// # }
/// ```
///
/// A statement borrows its connection, so it stays on the thread that uses the connection:
///
/// ```compile_fail,E0277
/// # fn main() -> mmdb::Result<()> {
/// let db = mmdb::Connection::open()?;
/// let mut scan = db.prepare("SCAN t")?;
/// std::thread::scope(|scope| {
///     scope.spawn(move || scan.query(()).is_ok());
/// });
/// # Ok(())
/// # }
/// ```
pub struct Statement<'c> {
    connection: &'c Connection,
    prepared: Prepared,
    is_cached: bool,
}

impl<'c> Statement<'c> {
    pub(crate) fn new(connection: &'c Connection, prepared: Prepared, is_cached: bool) -> Statement<'c> {
        Statement { connection, prepared, is_cached }
    }

    /// Runs the statement. Returns the number of rows that it inserted, updated or deleted, or 0 for a command of another kind.
    ///
    /// - `WrongParameterCount`, `TextTooLong`, `TextHasLineFeed`, `NumberOutOfRange`: the values do not fit
    /// - `ExecuteReturnedRows`: the statement returns rows or a text; it was not run
    /// - `Refused`: the database refused the command
    pub fn execute(&mut self, params: impl Params) -> Result<usize> {
        self.prepared.execute(self.connection, params)
    }

    /// Runs the statement once for each item. Returns the number of rows that all runs inserted, updated or deleted. This is faster than
    /// [`execute`](Statement::execute) for each item.
    ///
    /// Stops at the first run that fails: `InRun` has the number of runs before it, which stay done. For all or none, call it in a
    /// transaction. `ExecuteReturnedRows` if the statement returns rows or a text; it was not run.
    ///
    /// ```
    /// use mmdb::{Connection, Result};
    ///
    /// # fn main() -> Result<()> {
    /// let db = Connection::open()?;
    /// db.execute("TABLE square (n INT KEY, s INT)", ())?;
    /// let mut insert = db.prepare("INSERT square (?, ?)")?;
    /// assert_eq!(insert.execute_many((0..1000).map(|n| (n, n * n)))?, 1000);
    /// let mut delete = db.prepare("DELETE square WHERE n >= ? AND n < ?")?;
    /// assert_eq!(delete.execute_many([(10, 20), (30, 35)])?, 15);
    /// # Ok(())
    /// # }
    /// ```
    pub fn execute_many<P: Params>(&mut self, rows: impl IntoIterator<Item = P>) -> Result<usize> {
        self.prepared.must_be_command()?;
        let prepared = &mut self.prepared;
        let mut batch = Batch { connection: self.connection, prepared, gathered: Vec::new(), done: 0, changed: 0 };
        for row in rows {
            batch.add(row)?;
        }
        batch.run()?;
        Ok(batch.changed)
    }

    /// Runs a query and reads its rows. They stay valid until the statement is used again, whatever other calls do.
    ///
    /// - `WrongParameterCount`, `TextTooLong`, `TextHasLineFeed`, `NumberOutOfRange`: the values do not fit
    /// - `NotAQuery`: the statement is not a `SELECT`, `SCAN` or `SHOW`; it was not run
    /// - `Refused`: the database refused the query, or the rows do not fit in memory
    pub fn query(&mut self, params: impl Params) -> Result<Rows<'_>> {
        self.prepared.query(self.connection, params)
    }

    /// Runs a query. Returns an iterator of what a function returns for each row. The errors of the call are those of
    /// [`query`](Statement::query), and those of the items are the function's.
    pub fn query_map<'s, T, F>(&'s mut self, params: impl Params, function: F) -> Result<MappedRows<'s, F>>
    where
        F: FnMut(&Row<'s>) -> Result<T>,
    {
        Ok(self.query(params)?.mapped(function))
    }

    /// Runs a query, as [`query_map`](Statement::query_map) does, with a function whose errors may be of any type.
    ///
    /// ```
    /// use mmdb::{Connection, Error};
    ///
    /// #[derive(Debug)]
    /// enum Problem {
    ///     Database(Error),
    ///     NoName,
    /// }
    ///
    /// impl From<Error> for Problem {
    ///     fn from(error: Error) -> Problem {
    ///         Problem::Database(error)
    ///     }
    /// }
    ///
    /// # fn main() -> Result<(), Problem> {
    /// let db = Connection::open()?;
    /// db.execute_batch("TABLE person (id INT KEY, name TEXT)\nINSERT person (1, 'Ann'), (2, '')")?;
    /// let mut scan = db.prepare("SCAN person")?;
    /// let names = scan.query_and_then((), |row| {
    ///     let name: &str = row.get("name")?;
    ///     if name.is_empty() { Err(Problem::NoName) } else { Ok(name) }
    /// })?;
    /// let names: Vec<Result<&str, Problem>> = names.collect();
    /// assert!(matches!(names[..], [Ok("Ann"), Err(Problem::NoName)]));
    /// # Ok(())
    /// # }
    /// ```
    pub fn query_and_then<'s, T, E, F>(&'s mut self, params: impl Params, function: F) -> Result<AndThenRows<'s, F>>
    where
        F: FnMut(&Row<'s>) -> Result<T, E>,
    {
        Ok(self.query(params)?.and_then(function))
    }

    /// Runs a query. Returns what a function returns for the first row. `QueryReturnedNoRows` if there is none
    /// ([`optional`](crate::OptionalExtension::optional) turns that into `None`); the other errors are those of
    /// [`query`](Statement::query) and of the function.
    pub fn query_row<'s, T>(
        &'s mut self,
        params: impl Params,
        function: impl FnOnce(&Row<'s>) -> Result<T>,
    ) -> Result<T> {
        let row = self.query(params)?.next();
        function(&row.ok_or(Error::QueryReturnedNoRows)?)
    }

    /// Returns the plan of a `SELECT` or an `EXPLAIN` with these values, a line for each of its tables. The query is not run.
    ///
    /// - `WrongParameterCount`, `TextTooLong`, `TextHasLineFeed`, `NumberOutOfRange`: the values do not fit
    /// - `NotAQuery`: the statement is not a `SELECT` or an `EXPLAIN`
    /// - `Refused`: the database refused the query, or the plan does not fit in memory
    ///
    /// ```
    /// use mmdb::{Connection, Result};
    ///
    /// # fn main() -> Result<()> {
    /// let db = Connection::open()?;
    /// db.execute("TABLE person (id INT KEY, name TEXT)", ())?;
    /// let mut find = db.prepare("SELECT p.id FROM person p WHERE p.name = ?")?;
    /// assert_eq!(find.explain(["Ann"])?, ["p scan"]);
    /// db.execute("INDEX person_name ON person (name) HASH", ())?;
    /// assert_eq!(find.explain(["Ann"])?, ["p hash person_name"]);
    /// # Ok(())
    /// # }
    /// ```
    pub fn explain(&mut self, params: impl Params) -> Result<Vec<String>> {
        self.prepared.explain(self.connection, params)
    }

    /// Returns the number of parameters: one for each `?` in the line.
    #[must_use]
    pub fn parameter_count(&self) -> usize {
        self.prepared.values.len()
    }

    /// Returns the columns of the rows that the statement returns, for the tables as they are now. There are none if it returns no rows, or
    /// if a name in it does not exist. `Refused(Memory)`.
    pub fn columns(&self) -> Result<Vec<Column>> {
        let mut columns = Vec::new();
        self.connection.handle.statement_columns(self.prepared.number, &mut columns).map_err(Error::of_status)?;
        Ok(columns)
    }

    /// Returns the names of [`columns`](Statement::columns).
    pub fn column_names(&self) -> Result<Vec<String>> {
        memory::collected(self.columns()?.iter().map(|column| memory::string(column.name())))
    }

    /// Returns the line.
    #[must_use]
    pub fn line(&self) -> &str {
        &self.prepared.line
    }

    /// Runs the statement without values, and drops its reply. `WrongParameterCount` if it has parameters, or `Refused`.
    pub(crate) fn execute_in_script(&mut self) -> Result<()> {
        self.prepared.bind(())?;
        self.connection.note(self.connection.handle.run(self.prepared.number, &[]), self.prepared.effect)
    }

    /// Returns whether the line is empty or a comment.
    pub(crate) fn is_nothing(&self) -> bool {
        self.prepared.kind == Kind::NOTHING
    }

    /// Deletes the statement, even if it comes from the cache.
    pub fn finalize(mut self) {
        self.is_cached = false;
    }
}

/// The rows of values of one call of [`Statement::execute_many`].
struct Batch<'b> {
    connection: &'b Connection,
    prepared: &'b mut Prepared,
    /// The values of the runs that are still to be made.
    gathered: Vec<Cell>,
    /// The number of runs that succeeded.
    done: usize,
    /// The number of rows that they changed.
    changed: usize,
}

impl Batch<'_> {
    fn add(&mut self, params: impl Params) -> Result<()> {
        if let Err(error) = self.gather(params) {
            self.run()?;
            return Err(self.failed(error));
        }
        if self.prepared.values.is_empty() {
            let changed = self.prepared.execute(self.connection, ());
            self.changed += changed.map_err(|error| self.failed(error))?;
            self.done += 1;
        } else if self.gathered.len() + self.prepared.values.len() > MOST_CELLS {
            self.run()?;
        }
        Ok(())
    }

    /// Appends the values of a run.
    fn gather(&mut self, params: impl Params) -> Result<()> {
        self.prepared.bind(params)?;
        memory::reserve(&mut self.gathered, self.prepared.values.len())?;
        self.gathered.extend_from_slice(&self.prepared.values);
        Ok(())
    }

    /// Makes the runs whose values were gathered.
    fn run(&mut self) -> Result<()> {
        if self.gathered.is_empty() {
            return Ok(());
        }
        let (handle, width) = (&self.connection.handle, self.prepared.values.len());
        let before = handle.total_changes();
        let (status, runs) = handle.run_many(self.prepared.number, &self.gathered, width);
        self.changed += handle.total_changes().wrapping_sub(before) as usize;
        self.gathered.clear();
        self.done += runs;
        Error::check(status).map_err(|error| self.failed(error))
    }

    fn failed(&self, error: Error) -> Error {
        Error::InRun { done: self.done, error: Cause::new(error) }
    }
}

impl Drop for Statement<'_> {
    fn drop(&mut self) {
        let prepared = std::mem::take(&mut self.prepared);
        if self.is_cached {
            self.connection.give_back(prepared);
        } else {
            prepared.finalize(self.connection);
        }
    }
}

#[cfg(test)]
mod tests {
    use crate::{Connection, Result};

    #[test]
    fn dropped_statements_give_their_numbers_back() -> Result<()> {
        let db = Connection::open()?;
        db.execute("TABLE t (id INT KEY)", ())?;
        for n in 0..500 {
            let one = db.prepare("SCAN t")?;
            let other = db.prepare("INSERT t (?)")?;
            assert_eq!((one.prepared.number, other.prepared.number), (0, 1));
            drop(one);
            db.execute("INSERT t (?)", [n])?;
            db.query_row("SELECT a.id FROM t a WHERE a.id = ?", [n], |row| row.get::<i64>(0))?;
        }
        assert_eq!(db.prepare("SCAN t")?.prepared.number, 0);
        Ok(())
    }

    #[test]
    fn the_cache_gives_back_what_it_has_no_room_for() -> Result<()> {
        let db = Connection::open()?;
        db.set_statement_cache_capacity(4);
        for n in 0..100 {
            db.prepare_cached(&format!("DELETE t WHERE id = {n}"))?;
            let (one, other) = (db.prepare_cached("SCAN t")?, db.prepare_cached("SCAN t")?);
            assert!(one.prepared.number < 6 && other.prepared.number < 6);
        }
        db.set_statement_cache_capacity(0);
        assert_eq!(db.prepare("SCAN t")?.prepared.number, 0);
        let number = db.prepare_cached("SCAN t")?.prepared.number;
        assert_eq!(db.prepare_cached("SCAN t")?.prepared.number, number);
        Ok(())
    }

    #[test]
    fn the_cache_keeps_one_statement_of_a_line() -> Result<()> {
        let db = Connection::open()?;
        let both = [db.prepare_cached("SCAN t")?, db.prepare_cached("SCAN t")?];
        assert_eq!([both[0].prepared.number, both[1].prepared.number], [0, 1]);
        drop(both);
        // One of the numbers is free again, and both are when the other one does not go back to the cache.
        let free = db.prepare("SCAN u")?.prepared.number;
        assert!(free < 2);
        let cached = db.prepare_cached("SCAN t")?;
        assert_eq!(cached.prepared.number, 1 - free);
        cached.finalize();
        assert_eq!(db.prepare("SCAN u")?.prepared.number, 0);
        assert_eq!([db.prepare("SCAN u")?, db.prepare("SCAN u")?][1].prepared.number, 1);
        Ok(())
    }

    #[test]
    fn a_statement_of_the_cache_gives_back_the_room_of_a_large_reply() -> Result<()> {
        let db = Connection::open()?;
        db.execute("TABLE t (id INT KEY)", ())?;
        db.prepare("INSERT t (?)")?.execute_many((0..1500).map(|n| [n]))?;
        let mut scan = db.prepare_cached("SCAN t")?;
        assert_eq!(scan.query(())?.len(), 1500);
        assert!(scan.prepared.reply.capacity() >= 1500);
        drop(scan);
        let mut scan = db.prepare_cached("SCAN t")?;
        assert_eq!(scan.prepared.reply.capacity(), 0);
        assert_eq!(scan.query(())?.len(), 1500);
        Ok(())
    }
}
