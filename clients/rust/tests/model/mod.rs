//! A model of the database for the random test: sorted lists of rows, and copies of all of them for transactions.
//!
//! It has what docs/LANGUAGE.md says of a few commands on two tables. Each call returns what the database replies, or the number of its
//! refusal, which changes nothing.

pub mod call;

use mmdb::{Type, Value};
use std::collections::{BTreeMap, BTreeSet};

pub type Row = Vec<Value>;
pub type Reply<T> = std::result::Result<T, u8>;

/// The maximum number of savepoints of a transaction at a time.
const MOST_SAVEPOINTS: usize = 64;

#[derive(Clone, Copy, Debug, PartialEq)]
pub enum Op {
    Equal,
    Less,
    AtLeast,
}

impl Op {
    pub fn sign(self) -> &'static str {
        match self {
            Op::Equal => "=",
            Op::Less => "<",
            Op::AtLeast => ">=",
        }
    }
}

/// The test of a WHERE: a column compared with a value.
#[derive(Clone, Debug)]
pub struct Test {
    pub column: &'static str,
    pub op: Op,
    pub value: Value,
}

/// What an UPDATE assigns.
#[derive(Clone, Debug)]
pub enum Change {
    To(Value),
    Plus(Value),
}

#[derive(Clone, Debug, PartialEq)]
pub struct Table {
    pub columns: Vec<(&'static str, Type)>,
    key: usize,
    rows: BTreeMap<Value, Row>,
}

impl Table {
    pub fn new(columns: &[(&'static str, Type)], key: usize) -> Table {
        Table { columns: columns.to_vec(), key, rows: BTreeMap::new() }
    }

    fn place(&self, column: &str) -> Reply<usize> {
        self.columns.iter().position(|(name, _)| *name == column).ok_or(21)
    }

    fn must_have_type(&self, place: usize, value: &Value) -> Reply<()> {
        if self.columns[place].1 == value.data_type() {
            Ok(())
        } else {
            Err(30)
        }
    }

    /// The rows that meet a test in a column.
    fn matching<'t>(&'t self, place: usize, test: &'t Test) -> impl Iterator<Item = &'t Row> + 't {
        self.rows.values().filter(move |row| match test.op {
            Op::Equal => row[place] == test.value,
            Op::Less => row[place] < test.value,
            Op::AtLeast => row[place] >= test.value,
        })
    }
}

type Tables = BTreeMap<&'static str, Table>;

#[derive(Debug)]
struct Transaction {
    at_begin: Tables,
    savepoints: Vec<Savepoint>,
}

#[derive(Debug)]
struct Savepoint {
    name: &'static str,
    /// No other savepoint has this number.
    number: u64,
    tables: Tables,
}

#[derive(Debug, Default)]
pub struct Model {
    tables: Tables,
    transaction: Option<Transaction>,
    /// The number of transactions that have ended.
    pub ended: u64,
    /// The number of savepoints that were set.
    set: u64,
}

impl Model {
    pub fn is_in_transaction(&self) -> bool {
        self.transaction.is_some()
    }

    pub fn table(&self, name: &str) -> Reply<&Table> {
        self.tables.get(name).ok_or(20)
    }

    fn table_mut(&mut self, name: &str) -> Reply<&mut Table> {
        self.tables.get_mut(name).ok_or(20)
    }

    fn must_not_be_in_transaction(&self) -> Reply<()> {
        if self.is_in_transaction() {
            Err(52)
        } else {
            Ok(())
        }
    }

    pub fn create(&mut self, name: &'static str, table: Table) -> Reply<()> {
        self.must_not_be_in_transaction()?;
        if self.tables.contains_key(name) {
            return Err(24);
        }
        self.tables.insert(name, table);
        Ok(())
    }

    pub fn drop_table(&mut self, name: &str) -> Reply<()> {
        self.must_not_be_in_transaction()?;
        self.tables.remove(name).map(|_| ()).ok_or(20)
    }

    pub fn insert(&mut self, table: &str, rows: &[Row]) -> Reply<usize> {
        let table = self.table_mut(table)?;
        let is_mistyped =
            |row: &Row| row.iter().zip(&table.columns).any(|(value, column)| value.data_type() != column.1);
        if rows.iter().any(is_mistyped) {
            return Err(30);
        }
        if rows.iter().any(|row| row.len() != table.columns.len()) {
            return Err(31);
        }
        let keys: BTreeSet<&Value> = rows.iter().map(|row| &row[table.key]).collect();
        if keys.len() < rows.len() || keys.iter().any(|key| table.rows.contains_key(key)) {
            return Err(40);
        }
        for row in rows {
            table.rows.insert(row[table.key].clone(), row.clone());
        }
        Ok(rows.len())
    }

    pub fn delete(&mut self, table: &str, test: &Test) -> Reply<usize> {
        let table = self.table_mut(table)?;
        let place = table.place(test.column)?;
        table.must_have_type(place, &test.value)?;
        let keys: Vec<Value> = table.matching(place, test).map(|row| row[table.key].clone()).collect();
        keys.iter().for_each(|key| drop(table.rows.remove(key)));
        Ok(keys.len())
    }

    pub fn update(&mut self, table: &str, column: &str, change: &Change, test: &Test) -> Reply<usize> {
        if let Change::Plus(Value::Text(_)) = change {
            return Err(11);
        }
        let table = self.table_mut(table)?;
        let (assigned, tested) = (table.place(column)?, table.place(test.column)?);
        let (Change::To(value) | Change::Plus(value)) = change;
        table.must_have_type(assigned, value)?;
        table.must_have_type(tested, &test.value)?;
        let old: Vec<Row> = table.matching(tested, test).cloned().collect();
        let new = old.iter().map(|row| changed(row, assigned, change)).collect::<Reply<Vec<Row>>>()?;
        let mut rows = table.rows.clone();
        old.iter().for_each(|row| drop(rows.remove(&row[table.key])));
        for row in new {
            if rows.insert(row[table.key].clone(), row).is_some() {
                return Err(40);
            }
        }
        table.rows = rows;
        Ok(old.len())
    }

    pub fn scan(&self, table: &str) -> Reply<Vec<Row>> {
        Ok(self.table(table)?.rows.values().cloned().collect())
    }

    pub fn select(&self, table: &str, fields: &[&str], test: &Test) -> Reply<Vec<Row>> {
        let table = self.table(table)?;
        let places = fields.iter().map(|field| table.place(field)).collect::<Reply<Vec<usize>>>()?;
        let tested = table.place(test.column)?;
        table.must_have_type(tested, &test.value)?;
        let fields_of = |row: &Row| places.iter().map(|place| row[*place].clone()).collect();
        let mut rows: Vec<Row> = table.matching(tested, test).map(fields_of).collect();
        rows.sort();
        Ok(rows)
    }

    pub fn begin(&mut self) -> Reply<()> {
        if self.is_in_transaction() {
            return Err(50);
        }
        self.transaction = Some(Transaction { at_begin: self.tables.clone(), savepoints: Vec::new() });
        Ok(())
    }

    pub fn commit(&mut self) -> Reply<()> {
        self.transaction.take().ok_or(51)?;
        self.ended += 1;
        Ok(())
    }

    pub fn rollback(&mut self) -> Reply<()> {
        self.tables = self.transaction.take().ok_or(51)?.at_begin;
        self.ended += 1;
        Ok(())
    }

    /// Sets a savepoint, and returns its number, which no other one has.
    pub fn savepoint(&mut self, name: &'static str) -> Reply<u64> {
        let transaction = self.transaction.as_mut().ok_or(51)?;
        if transaction.savepoints.len() == MOST_SAVEPOINTS {
            return Err(48);
        }
        self.set += 1;
        transaction.savepoints.push(Savepoint { name, number: self.set, tables: self.tables.clone() });
        Ok(self.set)
    }

    /// The open transaction's savepoints, and the position of the latest one for which a test holds.
    fn latest(&mut self, test: impl Fn(&Savepoint) -> bool) -> Reply<(&mut Vec<Savepoint>, usize)> {
        let savepoints = &mut self.transaction.as_mut().ok_or(51)?.savepoints;
        let place = savepoints.iter().rposition(test).ok_or(53)?;
        Ok((savepoints, place))
    }

    fn rollback_to_latest(&mut self, test: impl Fn(&Savepoint) -> bool) -> Reply<()> {
        let (savepoints, place) = self.latest(test)?;
        savepoints.truncate(place + 1);
        let tables = savepoints[place].tables.clone();
        self.tables = tables;
        Ok(())
    }

    /// A line means the latest savepoint with a name.
    pub fn rollback_to(&mut self, name: &str) -> Reply<()> {
        self.rollback_to_latest(|savepoint| savepoint.name == name)
    }

    /// A call means the savepoint with a number.
    pub fn rollback_to_number(&mut self, number: u64) -> Reply<()> {
        self.rollback_to_latest(|savepoint| savepoint.number == number)
    }

    pub fn release(&mut self, number: u64) -> Reply<()> {
        let (savepoints, place) = self.latest(|savepoint| savepoint.number == number)?;
        savepoints.truncate(place);
        Ok(())
    }
}

fn changed(row: &Row, place: usize, change: &Change) -> Reply<Row> {
    let mut row = row.clone();
    row[place] = match (change, &row[place]) {
        (Change::Plus(Value::Int(shift)), Value::Int(number)) => Value::Int(number.checked_add(*shift).ok_or(32)?),
        (Change::Plus(_), _) => return Err(30),
        (Change::To(value), _) => value.clone(),
    };
    Ok(row)
}
