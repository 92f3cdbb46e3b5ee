//! Random programs of calls against a model of lists.
//!
//! A program is a list of steps, each a number from which its choices are made. They nest: statements are held while other calls run,
//! transactions and savepoints contain steps, and a connection moves to another thread for some of them. Each reply is compared with the
//! model, which is in tests/model. [`Call`], [`Way`] and the functions of [`Session`] say what a program contains.
//!
//! `MMDB_SEED` and `MMDB_STEPS` are the seed and the number of steps. A failure prints both, drops halves of the steps as long as the rest
//! still fails, and prints the calls of the steps that are left.

mod model;

use mmdb::{
    params_from_iter, ColumnData, Connection, DefinitionKind, Error, Refusal, Result, Rows, Savepoint, Statement,
    Transaction, Type, Value,
};
use model::call::{Answer, Call, Random, NAMES};
use model::{Model, Reply, Row, Table, Test};
use std::panic::{catch_unwind, AssertUnwindSafe};
use std::time::{Duration, Instant};

const DEFAULT_SEED: u64 = 62;
const DEFAULT_STEPS: usize = 20_000;
/// How long a failing program is shortened.
const SHRINKING: Duration = Duration::from_secs(30);

#[test]
fn random_programs_agree_with_the_model() {
    let variable = |name: &str| std::env::var(name).ok().map(|value| value.parse::<u64>().expect(name));
    let seed = variable("MMDB_SEED").unwrap_or(DEFAULT_SEED);
    let count = variable("MMDB_STEPS").map_or(DEFAULT_STEPS, |steps| steps as usize);
    let mut random = Random::new(seed);
    let steps: Vec<u64> = (0..count).map(|_| random.next()).collect();
    if let Err(failure) = outcome(&steps) {
        println!("MMDB_SEED={seed} MMDB_STEPS={} fails: {}", failure.step, failure.message);
        let shrunk = shrunk(&steps[..failure.step], failure);
        panic!("these calls fail: {}\n{}", shrunk.message, shrunk.log.join("\n"));
    }
}

/// The way in which a call is made.
#[derive(Clone, Copy, Debug, PartialEq)]
enum Way {
    /// The line has the values as literals.
    Literals,
    /// The line has line feeds for its spaces.
    SeveralLines,
    /// The line is prepared for the call.
    Prepared,
    /// The statement comes from the cache.
    Cached,
}

/// A reply without what the model does not have: the number of a refusal, or the name of the variant of another error.
fn plain<T>(result: Result<T>) -> std::result::Result<T, String> {
    result.map_err(|error| match error.number() {
        Some(number) => number.to_string(),
        None => format!("{error:?}").split(|c: char| !c.is_alphanumeric()).next().unwrap_or_default().to_owned(),
    })
}

fn expected<T>(reply: Reply<T>) -> std::result::Result<T, String> {
    reply.map_err(|number| number.to_string())
}

fn values_of(row: &mmdb::Row<'_>) -> Row {
    (0..row.columns().len()).map(|place| row.get(place).unwrap()).collect()
}

fn columns_of(columns: &[mmdb::Column]) -> Vec<(String, Type)> {
    columns.iter().map(|column| (column.name().to_owned(), column.data_type())).collect()
}

fn dumped(db: &Connection) -> Vec<u8> {
    let mut script = Vec::new();
    db.dump(&mut script).unwrap();
    script
}

fn rows_of(rows: Rows<'_>) -> Vec<Row> {
    rows.map(|row| values_of(&row)).collect()
}

/// The dump of a database rebuilds it: the same catalog, rows and standing queries. A script with a text that is not UTF-8 is no `str`.
fn restores(db: &Connection) {
    let bytes = dumped(db);
    let Ok(script) = std::str::from_utf8(&bytes) else { return };
    let copy = Connection::open().unwrap();
    copy.execute_batch(script).unwrap();
    assert_eq!(copy.tables().unwrap(), db.tables().unwrap());
    for line in ["SCAN t", "SCAN u", "SHOW w"] {
        let rows =
            |db: &Connection| plain(db.prepare(line).and_then(|mut statement| Ok(rows_of(statement.query(())?))));
        assert_eq!(rows(&copy), rows(db), "{line} after the dump\n{script}");
    }
    assert_eq!(dumped(&copy), bytes);
}

/// A connection with its model.
struct World {
    db: Connection,
    model: Model,
}

impl World {
    fn new() -> World {
        let db = Connection::open().unwrap();
        db.execute_batch("TABLE t (n INT KEY, s TEXT)\nWATCH w SELECT a.s, a.n FROM t a WHERE a.n >= 0").unwrap();
        let mut model = Model::default();
        model.create("t", Table::new(&[("n", Type::Int), ("s", Type::Text)], 0)).unwrap();
        World { db, model }
    }
}

/// A prepared statement that is kept.
struct Held<'c> {
    call: Call,
    statement: Statement<'c>,
}

/// The values of a column that is appended.
#[derive(Debug)]
enum Values {
    Int(Vec<i64>),
    Text { offsets: Vec<u32>, bytes: Vec<u8> },
}

impl Values {
    /// Values for a column of this name, rarely of the other type.
    fn of(name: &str, rows: usize, random: &mut Random) -> Values {
        let mut column = match random.value_of(name) {
            Value::Int(_) => Values::Int(Vec::new()),
            Value::Text(_) => Values::Text { offsets: vec![random.below(3) as u32], bytes: b"before".to_vec() },
        };
        if let Values::Text { offsets, bytes } = &mut column {
            bytes.truncate(offsets[0] as usize);
        }
        for row in 0..rows {
            match &mut column {
                // Many rows have keys of their own.
                Values::Int(numbers) if rows > 9 => numbers.push(1000 + row as i64),
                Values::Int(numbers) => numbers.push(random.number()),
                Values::Text { .. } if rows > 9 => column.push(format!("{row}").as_bytes()),
                Values::Text { .. } => column.push(&random.text()),
            }
        }
        column
    }

    /// Adds a text.
    fn push(&mut self, text: &[u8]) {
        if let Values::Text { offsets, bytes } = self {
            bytes.extend_from_slice(text);
            offsets.push(bytes.len() as u32);
        }
    }

    fn data(&self) -> ColumnData<'_> {
        match self {
            Values::Int(numbers) => ColumnData::Int(numbers),
            Values::Text { offsets, bytes } => ColumnData::Text { offsets, bytes },
        }
    }

    fn value(&self, row: usize) -> Value {
        match self {
            Values::Int(numbers) => Value::Int(numbers[row]),
            Values::Text { offsets, bytes } => {
                Value::Text(bytes[offsets[row] as usize..offsets[row + 1] as usize].to_vec())
            }
        }
    }
}

/// Makes the last value of a column no value, or drops it. Returns the failure, or `None` if nothing was changed.
fn spoil(columns: &mut [Values], random: &mut Random) -> Option<&'static str> {
    let (place, count) = (random.below(columns.len()), columns.len());
    match (&mut columns[place], random.below(3)) {
        (Values::Int(numbers), 0) if count > 1 => drop(numbers.pop()),
        (Values::Text { offsets, .. }, 0) if count > 1 => drop(offsets.pop()),
        (Values::Text { bytes, .. }, 0) if !bytes.is_empty() => drop(bytes.pop()),
        (Values::Text { offsets, bytes }, wrong @ 1..=2) => {
            bytes.truncate(offsets[offsets.len() - 2] as usize);
            bytes.extend_from_slice(if wrong == 1 { &[b'x'; 65] } else { b"a\nb" });
            *offsets.last_mut()? = bytes.len() as u32;
            return Some(if wrong == 1 { "13" } else { "11" });
        }
        _ => return None,
    }
    Some("NotColumns")
}

/// How a savepoint ends.
#[derive(Debug, PartialEq)]
enum End {
    Commit,
    Drop,
    RollbackAndCommit,
    Leak,
}

/// A transaction or a savepoint.
trait Guard {
    fn set(&mut self, name: &str) -> Result<Savepoint<'_>>;

    fn db(&self) -> &Connection;
}

impl Guard for Transaction<'_> {
    fn set(&mut self, name: &str) -> Result<Savepoint<'_>> {
        self.savepoint(name)
    }

    fn db(&self) -> &Connection {
        self
    }
}

impl Guard for Savepoint<'_> {
    fn set(&mut self, name: &str) -> Result<Savepoint<'_>> {
        self.savepoint(name)
    }

    fn db(&self) -> &Connection {
        self
    }
}

/// A run of a program.
struct Session<'s> {
    steps: &'s [u64],
    /// The number of steps that were begun.
    step: usize,
    log: Vec<String>,
    logs: bool,
}

impl Session<'_> {
    fn next(&mut self) -> Option<Random> {
        let random = self.steps.get(self.step).copied().map(Random::new);
        self.step += usize::from(random.is_some());
        random
    }

    fn log(&mut self, line: impl FnOnce() -> String) {
        if self.logs {
            let line = line();
            self.log.push(line);
        }
    }

    /// Steps while no statement is held.
    fn program(&mut self, worlds: &mut [World; 2]) {
        while let Some(mut random) = self.next() {
            if random.once_in(2) {
                worlds.swap(0, 1);
                self.log(|| "the other connection".into());
            }
            let (world, other) = worlds.split_at_mut(1);
            let (world, other) = (&mut world[0], &mut other[0]);
            match random.below(12) {
                0..=2 => self.transaction_of_the_only_reference(world, other, &mut random),
                3..=5 => self.holding(&world.db, &mut world.model, other, &mut vec![]),
                6 => self.in_another_thread(world, other),
                7 if random.once_in(4) => {
                    self.log(|| "open again".into());
                    *world = World::new();
                }
                _ => self.simple(&world.db, &mut world.model, &mut random),
            }
            self.compare(&world.db, &mut world.model, random.once_in(4));
        }
    }

    /// Moves a connection to another thread, and back after some steps.
    fn in_another_thread(&mut self, world: &mut World, other: &mut World) {
        self.log(|| "in another thread {".into());
        let mut moved = std::mem::replace(world, World::new());
        *world = std::thread::scope(|scope| {
            let thread = scope.spawn(move || {
                self.holding(&moved.db, &mut moved.model, other, &mut vec![]);
                self.log(|| "}".into());
                moved
            });
            thread.join().unwrap_or_else(|failure| std::panic::resume_unwind(failure))
        });
    }

    fn transaction_of_the_only_reference(&mut self, world: &mut World, other: &mut World, random: &mut Random) {
        let begun = world.db.transaction();
        self.transaction(begun, None, &mut world.model, other, &mut vec![], random);
    }

    /// Steps while statements are held.
    fn holding<'c>(&mut self, db: &'c Connection, model: &mut Model, other: &mut World, held: &mut Vec<Held<'c>>) {
        while let Some(mut random) = self.next() {
            match random.below(24) {
                0..=1 => return,
                2..=3 => {
                    let begun = db.unchecked_transaction();
                    self.transaction(begun, Some(db), model, other, held, &mut random);
                }
                4 => self.simple(&other.db, &mut other.model, &mut random),
                _ => self.step_with_statements(db, model, held, &mut random),
            }
            self.compare(db, model, random.once_in(8));
        }
    }

    /// Steps in a transaction, if it has begun, and its end. Statements are held if there is another reference to the connection.
    fn transaction<'c>(
        &mut self,
        begun: Result<Transaction<'_>>,
        db: Option<&'c Connection>,
        model: &mut Model,
        other: &mut World,
        held: &mut Vec<Held<'c>>,
        random: &mut Random,
    ) {
        assert_eq!(plain(begun.as_ref().map(|_| ()).map_err(copy_of)), expected(model.begin()), "begin");
        let mut transaction = match begun {
            Ok(transaction) => transaction,
            Err(_) => return,
        };
        self.log(|| "transaction {".into());
        let number = model.ended;
        self.within(&mut transaction, db, number, model, other, held);
        let is_over = model.ended != number;
        let end = random.one_of(&[Call::Commit, Call::Commit, Call::Rollback, Call::Drop]);
        self.log(|| format!("}} {end:?}"));
        let found = match end {
            Call::Commit => transaction.commit(),
            Call::Rollback => transaction.rollback(),
            _ => {
                drop(transaction);
                if !is_over {
                    model.rollback().unwrap();
                }
                return;
            }
        };
        let reply = match end {
            _ if is_over => Err(51),
            Call::Commit => model.commit(),
            _ => model.rollback(),
        };
        assert_eq!(plain(found), expected(reply), "{end:?}");
    }

    /// Steps within a transaction or a savepoint, which is over if the transaction with this number has ended.
    fn within<'c>(
        &mut self,
        guard: &mut dyn Guard,
        db: Option<&'c Connection>,
        number: u64,
        model: &mut Model,
        other: &mut World,
        held: &mut Vec<Held<'c>>,
    ) {
        while let Some(mut random) = self.next() {
            match random.below(24) {
                0..=2 => return,
                3..=5 => {
                    let name = random.one_of(&NAMES);
                    let reply = if model.ended == number { model.savepoint(name) } else { Err(51) };
                    let set = guard.set(name);
                    let plain_reply = expected(reply.map(|_| ()));
                    assert_eq!(plain(set.as_ref().map(|_| ()).map_err(copy_of)), plain_reply, "savepoint {name}");
                    if let (Ok(mut savepoint), Ok(own)) = (set, reply) {
                        self.log(|| format!("savepoint {name} {{"));
                        self.within(&mut savepoint, db, number, model, other, held);
                        self.end_savepoint(savepoint, own, number, model, &mut random);
                    }
                }
                6 => self.simple(&other.db, &mut other.model, &mut random),
                _ => match db {
                    Some(db) => self.step_with_statements(db, model, held, &mut random),
                    None => self.simple(guard.db(), model, &mut random),
                },
            }
            self.compare(guard.db(), model, random.once_in(8));
        }
    }

    /// Ends the savepoint with the number `own`, which is over if the transaction with this number has ended.
    fn end_savepoint(
        &mut self,
        mut savepoint: Savepoint<'_>,
        own: u64,
        number: u64,
        model: &mut Model,
        random: &mut Random,
    ) {
        let is_over = model.ended != number;
        let end = match random.below(20) {
            0..=7 => End::Commit,
            8..=15 => End::Drop,
            16..=18 => End::RollbackAndCommit,
            _ => End::Leak,
        };
        self.log(|| format!("}} {end:?}"));
        if end == End::Leak {
            return std::mem::forget(savepoint);
        }
        if end == End::Drop {
            drop(savepoint);
            if !is_over && model.rollback_to_number(own).is_ok() {
                model.release(own).unwrap();
            }
            return;
        }
        if end == End::RollbackAndCommit {
            let reply = if is_over { Err(51) } else { model.rollback_to_number(own) };
            assert_eq!(plain(savepoint.rollback()), expected(reply), "rollback to {own}");
        }
        let reply = if is_over { Err(51) } else { model.release(own) };
        assert_eq!(plain(savepoint.commit()), expected(reply), "commit {own}");
    }

    fn step_with_statements<'c>(
        &mut self,
        db: &'c Connection,
        model: &mut Model,
        held: &mut Vec<Held<'c>>,
        random: &mut Random,
    ) {
        let place = random.below(held.len().max(1));
        match random.below(12) {
            0..=2 if held.len() < 6 => {
                let call = if random.once_in(4) { Call::any(random) } else { Call::of_rows(random) };
                self.log(|| format!("hold {}", call.line()));
                let is_cached = random.once_in(3);
                let statement = if is_cached { db.prepare_cached(&call.line()) } else { db.prepare(&call.line()) };
                held.push(Held { statement: statement.unwrap(), call });
            }
            3 if place < held.len() => {
                let dropped = held.swap_remove(place);
                self.log(|| format!("let go {}", dropped.call.line()));
                if random.once_in(4) {
                    dropped.statement.finalize();
                }
            }
            4..=8 if place < held.len() => {
                let Held { call, statement } = &mut held[place];
                let values = call.values(random);
                self.log(|| format!("held {} {values:?}", call.line()));
                match random.below(8) {
                    0..=2 if call.is_query() => self.half_read(statement, call, &values, db, model, random),
                    3 => self.misuse(statement, call, &values, random),
                    _ => run_statement(statement, call, &values, model),
                }
            }
            _ => self.simple(db, model, random),
        }
    }

    /// Reads some rows, makes other calls, and reads the other rows.
    fn half_read(
        &mut self,
        statement: &mut Statement<'_>,
        call: &Call,
        values: &[Value],
        db: &Connection,
        model: &mut Model,
        random: &mut Random,
    ) {
        let reply = expected(call.run(model, values));
        let found = plain(statement.query(params_from_iter(values)));
        let (mut rows, expected_rows) = match (found, reply) {
            (Ok(rows), Ok(Answer::Rows(expected))) => (rows, expected),
            (found, reply) => return assert_eq!(found.map(|_| ()), reply.map(|_| ()), "{call:?}"),
        };
        assert_eq!((rows.len(), columns_of(rows.columns())), (expected_rows.len(), call.columns(model)), "{call:?}");
        let first = random.below(expected_rows.len() + 1);
        let front: Vec<Row> = rows.by_ref().take(first).map(|row| values_of(&row)).collect();
        self.log(|| format!("{first} rows were read"));
        for _ in 0..random.below(3) {
            self.simple(db, model, random);
        }
        if random.once_in(3) {
            return assert_eq!(front, expected_rows[..first], "{call:?}");
        }
        assert_eq!([front, rest_of(rows)].concat(), expected_rows, "{call:?}");
    }

    /// Passes values that do not fit, or makes a call of another kind. Nothing changes, and the statement can be used again.
    fn misuse(&mut self, statement: &mut Statement<'_>, call: &Call, values: &[Value], random: &mut Random) {
        let mut wrong = values.to_vec();
        let (name, is_executed) = match random.below(5) {
            0 => {
                wrong.push(Value::Int(1));
                ("WrongParameterCount", !call.is_query())
            }
            1 if !wrong.is_empty() => {
                wrong.pop();
                ("WrongParameterCount", !call.is_query())
            }
            2 if !wrong.is_empty() => {
                let place = random.below(wrong.len());
                wrong[place] = Value::from(vec![b'x'; 65]);
                ("TextTooLong", !call.is_query())
            }
            3 if !wrong.is_empty() => {
                let place = random.below(wrong.len());
                wrong[place] = Value::from("a\nb");
                ("TextHasLineFeed", !call.is_query())
            }
            _ if call.is_query() => ("ExecuteReturnedRows", true),
            _ => ("NotAQuery", false),
        };
        self.log(|| format!("misuse {name} {wrong:?}"));
        let found = if is_executed {
            plain(statement.execute(params_from_iter(&wrong)).map(|_| ()))
        } else {
            plain(statement.query(params_from_iter(&wrong)).map(|_| ()))
        };
        assert_eq!(found, Err(name.to_owned()), "{call:?}");
    }

    /// A step without a held statement.
    fn simple(&mut self, db: &Connection, model: &mut Model, random: &mut Random) {
        match random.below(16) {
            0..=1 => self.batch(db, model, random),
            2 => self.script(db, model, random),
            3 => self.questions(db, model, random),
            4 => self.refused(db, random),
            5 => self.append(db, model, random),
            _ => {
                let call = if random.once_in(3) { Call::any(random) } else { Call::of_rows(random) };
                let way = random.one_of(&[Way::Literals, Way::SeveralLines, Way::Prepared, Way::Cached]);
                let values = call.values(random);
                self.log(|| format!("{way:?} {} {values:?}", call.line()));
                make(db, model, &call, &values, way);
            }
        }
    }

    /// Appends rows as columns, each with values of one type. Rarely a column lacks a value, or a text is no value.
    fn append(&mut self, db: &Connection, model: &mut Model, random: &mut Random) {
        let inserts = std::iter::repeat_with(|| Call::of_rows(random));
        let Some((table, names)) = inserts
            .filter_map(|call| match call {
                Call::Insert { table, columns, .. } => Some((table, columns)),
                _ => None,
            })
            .next()
        else {
            return;
        };
        let call = Call::Insert { table, columns: names, rows: 0 };
        let rows = random.one_of(&[0, 1, 1, 2, 3, 5, 200]);
        let mut columns: Vec<Values> = names.iter().map(|name| Values::of(name, rows, random)).collect();
        let failure = if rows > 0 && random.once_in(5) { spoil(&mut columns, random) } else { None };
        self.log(|| format!("append {table} {columns:?}"));
        let found = plain(db.append(table, &columns.iter().map(Values::data).collect::<Vec<_>>()));
        let wanted = match failure {
            Some(failure) => Err(failure.to_owned()),
            None => {
                let values: Vec<Value> =
                    (0..rows).flat_map(|row| columns.iter().map(move |column| column.value(row))).collect();
                expected(call.run(model, &values)).map(|answer| match answer {
                    Answer::Count(count) => count,
                    Answer::Rows(_) => unreachable!(),
                })
            }
        };
        assert_eq!(found, wanted, "append {table} {columns:?}");
    }

    /// Runs a statement for many rows of values. The iterator of the values makes a call of its own.
    fn batch(&mut self, db: &Connection, model: &mut Model, random: &mut Random) {
        let call = std::iter::repeat_with(|| Call::of_rows(random)).find(|call| !call.is_query()).unwrap();
        let is_long = random.once_in(12);
        let count = if is_long { 400 + random.below(400) } else { random.below(6) };
        let mut rows: Vec<Vec<Value>> = (0..count).map(|_| call.values(random)).collect();
        if is_long && matches!(call, Call::Insert { .. }) {
            rows.iter_mut()
                .zip(1000..)
                .for_each(|(row, key)| row.iter_mut().for_each(|value| *value = renumbered(value, key)));
        }
        let mut spoilt = count;
        if count > 0 && random.once_in(4) {
            spoilt = random.below(count);
            rows[spoilt].pop();
        }
        self.log(|| format!("many {} {} rows, wrong one {spoilt} {:?}", call.line(), count, &rows[..count.min(6)]));
        // What the iterator does comes before the runs, as long as the values of all of them fit in one call of the library.
        let nested = (!is_long && count > 0 && random.once_in(4)).then(|| (random.below(count), Call::of_rows(random)));
        let nested_values = nested.as_ref().map_or(vec![], |(_, call)| call.values(random));
        let mut statement = db.prepare(&call.line()).unwrap();
        let found = statement.execute_many(rows.iter().enumerate().map(|(place, row)| {
            match &nested {
                Some((at, call)) if *at == place && place <= spoilt => {
                    make(db, model, call, &nested_values, Way::Prepared)
                }
                _ => {}
            }
            params_from_iter(row)
        }));
        let (done, changed, failure) = runs_of_model(&call, &rows, spoilt, model);
        match (found, failure) {
            (Ok(found), None) => assert_eq!(found, changed, "{call:?}"),
            (Err(Error::InRun { done: found, error }), Some(failure)) => {
                assert_eq!((found, plain::<()>(Err(error.into_error()))), (done, Err(failure)), "{call:?}");
            }
            (found, failure) => panic!("{call:?}: {found:?} and not {failure:?}"),
        }
    }

    /// A script of some commands, on one line or two each. A script that is loaded has one line for each.
    fn script(&mut self, db: &Connection, model: &mut Model, random: &mut Random) {
        let mut lines: Vec<String> = Vec::new();
        let mut failure = None;
        let is_loaded = random.once_in(2);
        for _ in 0..random.below(5) {
            let call = Call::any(random);
            let values = call.values(random);
            if let Some(line) = call.with_literals(&values) {
                let first_line = lines.len() + 1;
                let is_split = !is_loaded && random.once_in(2);
                lines.extend(line.splitn(1 + usize::from(is_split), ' ').map(str::to_owned));
                let between = random.one_of(&[None, None, Some(""), Some("-- a comment"), Some("  ")]);
                lines.extend(between.map(str::to_owned));
                if failure.is_none() {
                    failure = call.run(model, &values).err().map(|refusal| (first_line, refusal));
                }
            }
        }
        self.log(|| format!("{} {lines:?}", if is_loaded { "load" } else { "script" }));
        let script = lines.join(random.one_of(&["\n", "\r\n"]));
        let found = if is_loaded { db.load(&script) } else { db.execute_batch(&script) };
        match (found, failure) {
            (Ok(()), None) => {}
            (Err(Error::InLine { line, error }), Some((first_line, refusal))) => {
                assert_eq!((line, error.number()), (first_line, Some(refusal)), "{lines:?}");
            }
            (found, failure) => panic!("{lines:?}: {found:?} and not {failure:?}"),
        }
    }

    /// Asks for columns, plans and the catalog.
    fn questions(&mut self, db: &Connection, model: &mut Model, random: &mut Random) {
        let call = Call::of_rows(random);
        self.log(|| format!("questions about {}", call.line()));
        assert_eq!(columns_of(&db.columns(&call.line()).unwrap()), call.columns(model), "{call:?}");
        let statement = db.prepare_cached(&call.line()).unwrap();
        assert_eq!(columns_of(&statement.columns().unwrap()), call.columns(model), "{call:?}");
        if let Call::Select { table, fields, column, op } = call.clone() {
            let values = call.values(random);
            let test = Test { column, op, value: values[0].clone() };
            let reply = expected(model.select(table, fields, &test).map(|_| 1));
            let mut statement = db.prepare(&call.line()).unwrap();
            assert_eq!(plain(statement.explain(params_from_iter(&values)).map(|plan| plan.len())), reply, "{call:?}");
        }
        let (tables, indexes_and_watches) = (1 + usize::from(model.table("u").is_ok()), 1);
        assert_eq!(db.tables().unwrap().len(), tables + indexes_and_watches);
        self.definitions(db, model, random.one_of(&["t", "u", "w"]));
        if random.once_in(4) {
            db.set_statement_cache_capacity(random.below(4));
        }
    }

    /// Asks for the definitions of what has a name. Each is a line of the dump.
    fn definitions(&mut self, db: &Connection, model: &Model, name: &str) {
        let script = dumped(db);
        for (kind, is_there, word, refusal) in [
            (DefinitionKind::Table, model.table(name).is_ok(), "TABLE", Refusal::NoSuchTable),
            (DefinitionKind::Index, false, "INDEX", Refusal::NoSuchIndex),
            (DefinitionKind::StandingQuery, name == "w", "WATCH", Refusal::NoSuchStandingQuery),
        ] {
            match db.definition(kind, name) {
                Ok(line) => {
                    assert!(is_there && line.starts_with(format!("{word} {name} ").as_bytes()), "{kind:?} {name}");
                    assert!(script.split(|byte| *byte == b'\n').any(|other| other == line), "{kind:?} {name}");
                }
                Err(error) => assert!(!is_there && error.refusal() == Some(refusal), "{kind:?} {name}: {error}"),
            }
        }
    }

    /// Lines that are refused whatever the state is.
    fn refused(&mut self, db: &Connection, random: &mut Random) {
        let (line, failure) = random.one_of(&[
            ("SCAN t;", "11"),
            ("INSERT t (9223372036854775808, '')", "12"),
            ("DELETE nobody", "20"),
            ("INSERT t (?, ?)", "WrongParameterCount"),
            ("SCAN t", "ExecuteReturnedRows"),
            ("TABLES", "ExecuteReturnedRows"),
            ("-- a\nDELETE t", "CommentHasLineFeed"),
            ("INSERT t (1, 'a\nb')", "11"),
        ]);
        self.log(|| format!("refused {line:?}"));
        assert_eq!(plain(db.execute(line, ())), Err(failure.to_owned()), "{line:?}");
    }

    /// Compares what is there with the model, all rows or only a little.
    fn compare(&mut self, db: &Connection, model: &mut Model, all: bool) {
        assert_eq!(db.is_in_transaction(), model.is_in_transaction());
        if all {
            for call in [Call::Scan { table: "t" }, Call::Scan { table: "u" }, Call::Show] {
                make(db, model, &call, &[], Way::Cached);
            }
            restores(db);
        }
    }
}

/// The runs of a batch by the model: how many succeed, the rows that they change, and how the next one fails. The values of the run with
/// the number `spoilt` do not fit.
fn runs_of_model(call: &Call, rows: &[Row], spoilt: usize, model: &mut Model) -> (usize, usize, Option<String>) {
    let mut changed = 0;
    for (done, row) in rows.iter().enumerate() {
        if done == spoilt {
            return (done, changed, Some("WrongParameterCount".into()));
        }
        match call.run(model, row) {
            Ok(Answer::Count(rows)) => changed += rows,
            Ok(Answer::Rows(_)) => unreachable!("a query in a batch"),
            Err(refusal) => return (done, changed, Some(refusal.to_string())),
        }
    }
    (rows.len(), changed, None)
}

/// A value that no other row of a long batch has in its place.
fn renumbered(value: &Value, key: i64) -> Value {
    match value {
        Value::Int(_) => Value::Int(key),
        Value::Text(_) => Value::from(key.to_string()),
    }
}

/// An error like this one, as far as [`plain`] looks.
fn copy_of(error: &Error) -> Error {
    error.refusal().map_or(Error::Unexpected(0), Error::Refused)
}

fn rest_of(rows: Rows<'_>) -> Vec<Row> {
    rows.map(|row| values_of(&row)).collect()
}

/// Makes a call in some way, and compares the reply with the model's.
fn make(db: &Connection, model: &mut Model, call: &Call, values: &[Value], way: Way) {
    let literal = call.with_literals(values).filter(|_| way == Way::Literals);
    let several = call.line().replace(' ', "\n");
    match (way, literal) {
        (Way::Literals, Some(line)) => run_statement_or_line(db, call, &line, &[], values, model),
        (Way::SeveralLines, _) => run_statement_or_line(db, call, &several, values, values, model),
        (Way::Cached, _) => run_statement(&mut db.prepare_cached(&call.line()).unwrap(), call, values, model),
        _ => run_statement_or_line(db, call, &call.line(), values, values, model),
    }
}

/// Executes or queries a line with values, of which the model gets its own.
fn run_statement_or_line(
    db: &Connection,
    call: &Call,
    line: &str,
    values: &[Value],
    of_model: &[Value],
    model: &mut Model,
) {
    let reply = expected(call.run(model, of_model));
    let found = if call.is_query() {
        plain(db.prepare(line).and_then(|mut statement| answer(&mut statement, call, values, model)))
    } else if values.is_empty() {
        plain(db.execute(line, ()).map(Answer::Count))
    } else {
        plain(db.execute(line, params_from_iter(values)).map(Answer::Count))
    };
    assert_eq!(found, reply, "{line} {values:?}");
}

fn run_statement(statement: &mut Statement<'_>, call: &Call, values: &[Value], model: &mut Model) {
    let reply = expected(call.run(model, values));
    assert_eq!(plain(answer(statement, call, values, model)), reply, "{} {values:?}", call.line());
}

/// Runs a statement and reads its reply.
fn answer(statement: &mut Statement<'_>, call: &Call, values: &[Value], model: &Model) -> Result<Answer> {
    if !call.is_query() {
        return statement.execute(params_from_iter(values)).map(Answer::Count);
    }
    let rows = statement.query(params_from_iter(values))?;
    assert_eq!(columns_of(rows.columns()), call.columns(model), "{call:?}");
    Ok(Answer::Rows(rest_of(rows)))
}

/// Where and how a program failed, and the calls up to there.
struct Failure {
    step: usize,
    message: String,
    log: Vec<String>,
}

fn outcome(steps: &[u64]) -> std::result::Result<(), Failure> {
    outcome_with(steps, false)
}

fn outcome_with(steps: &[u64], logs: bool) -> std::result::Result<(), Failure> {
    let mut session = Session { steps, step: 0, log: vec![], logs };
    let run = AssertUnwindSafe(|| session.program(&mut [World::new(), World::new()]));
    let payload = match catch_unwind(run) {
        Ok(()) => return Ok(()),
        Err(payload) => payload,
    };
    let message = payload.downcast_ref::<String>().cloned();
    let message = message.or_else(|| payload.downcast_ref::<&str>().map(|&text| text.to_owned())).unwrap_or_default();
    Err(Failure { step: session.step, message, log: session.log })
}

/// Drops halves, quarters and so on of a failing program, as long as the rest fails.
fn shrunk(steps: &[u64], failure: Failure) -> Failure {
    let (mut steps, mut failure) = (steps.to_vec(), failure);
    let hook = std::panic::take_hook();
    std::panic::set_hook(Box::new(|_| {}));
    let (start, mut size) = (Instant::now(), steps.len() / 2);
    while size > 0 && start.elapsed() < SHRINKING {
        let mut place = 0;
        while place < steps.len() && start.elapsed() < SHRINKING {
            let end = steps.len().min(place + size);
            let rest = [&steps[..place], &steps[end..]].concat();
            match outcome(&rest) {
                Err(shorter) => {
                    steps = rest[..shorter.step].to_vec();
                    failure = shorter;
                }
                Ok(()) => place = end,
            }
        }
        size /= 2;
    }
    let logged = outcome_with(&steps, true).err().unwrap_or(failure);
    std::panic::set_hook(hook);
    logged
}
