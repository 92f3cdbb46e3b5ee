//! Random calls: lines with holes, and what they do to the model.

use super::{Change, Model, Op, Reply, Row, Table, Test};
use mmdb::{Type, Value};

/// A generator of numbers: xorshift.
pub struct Random(u64);

impl Random {
    pub fn new(seed: u64) -> Random {
        // Two steps of splitmix, so that seeds that follow one another give unlike numbers.
        let mixed = (seed.wrapping_add(0x9e37_79b9_7f4a_7c15) ^ (seed >> 30)).wrapping_mul(0xbf58_476d_1ce4_e5b9);
        Random((mixed ^ (mixed >> 27)).wrapping_mul(0x94d0_49bb_1331_11eb) | 1)
    }

    pub fn next(&mut self) -> u64 {
        self.0 ^= self.0 << 13;
        self.0 ^= self.0 >> 7;
        self.0 ^= self.0 << 17;
        self.0
    }

    pub fn below(&mut self, limit: usize) -> usize {
        (self.next() >> 11) as usize % limit
    }

    /// True once in this many times.
    pub fn once_in(&mut self, times: usize) -> bool {
        self.below(times) == 0
    }

    pub fn one_of<T: Clone>(&mut self, items: &[T]) -> T {
        items[self.below(items.len())].clone()
    }

    pub fn number(&mut self) -> i64 {
        match self.below(40) {
            0 => i64::MAX,
            1 => i64::MIN,
            n => n as i64 % 15 - 3,
        }
    }

    pub fn text(&mut self) -> Vec<u8> {
        let longest = "é".repeat(32);
        let texts = ["", "a", "b", "ab", "it's", "'", "?", "--", "é", "日本", "a b", &longest];
        match self.below(20) {
            0 => vec![0xff, 0, b'\r'],
            n => texts[n % texts.len()].into(),
        }
    }

    pub fn value(&mut self, data_type: Type) -> Value {
        match data_type {
            Type::Int => Value::Int(self.number()),
            Type::Text => Value::Text(self.text()),
        }
    }

    /// A value of the type of a column, or rarely of the other one.
    pub fn value_of(&mut self, column: &str) -> Value {
        let is_text = (column == "s") != self.once_in(30);
        self.value(if is_text { Type::Text } else { Type::Int })
    }
}

/// A line with holes, whose effect the model has.
#[derive(Clone, Debug)]
pub enum Call {
    Insert { table: &'static str, columns: &'static [&'static str], rows: usize },
    Delete { table: &'static str, column: &'static str, op: Op },
    Assign { table: &'static str, assigned: &'static str, column: &'static str, op: Op },
    Shift { table: &'static str, assigned: &'static str, column: &'static str, op: Op },
    Scan { table: &'static str },
    Select { table: &'static str, fields: &'static [&'static str], column: &'static str, op: Op },
    Show,
    Create { shape: usize },
    Drop,
    Begin,
    Commit,
    Rollback,
    Savepoint(&'static str),
    RollbackTo(&'static str),
}

/// A form of the table u, which is dropped and created again.
struct Shape {
    line: &'static str,
    columns: &'static [(&'static str, Type)],
    key: usize,
}

const SHAPES: [Shape; 2] = [
    Shape { line: "TABLE u (s TEXT KEY, n INT)", columns: &[("s", Type::Text), ("n", Type::Int)], key: 0 },
    Shape {
        line: "TABLE u (n INT, m INT KEY, s TEXT)",
        columns: &[("n", Type::Int), ("m", Type::Int), ("s", Type::Text)],
        key: 1,
    },
];
const COLUMNS: [&[&str]; 4] = [&["n", "s"], &["s", "n"], &["n", "m", "s"], &["n"]];
pub const NAMES: [&str; 2] = ["a", "b"];

/// What a call returns.
#[derive(Clone, Debug, PartialEq)]
pub enum Answer {
    Count(usize),
    Rows(Vec<Row>),
}

impl Call {
    /// A call that reads or changes rows.
    pub fn of_rows(random: &mut Random) -> Call {
        let table = random.one_of(&["t", "t", "u"]);
        let (column, assigned) = (random.one_of(&["n", "n", "s", "m"]), random.one_of(&["n", "s", "s", "m"]));
        let op = random.one_of(&[Op::Equal, Op::Equal, Op::Less, Op::AtLeast]);
        match random.below(12) {
            0..=3 => {
                let own: &[&[&str]] = if table == "t" { &COLUMNS[..1] } else { &COLUMNS[1..3] };
                let columns = if random.once_in(15) { random.one_of(&COLUMNS) } else { random.one_of(own) };
                Call::Insert { table, columns, rows: 1 + random.below(3) / 2 }
            }
            4 => Call::Delete { table, column, op },
            5 => Call::Assign { table, assigned, column, op },
            6 => Call::Shift { table, assigned, column, op },
            7..=8 => Call::Scan { table },
            9..=10 => Call::Select { table, fields: random.one_of(&COLUMNS), column, op },
            _ => Call::Show,
        }
    }

    pub fn any(random: &mut Random) -> Call {
        match random.below(40) {
            0..=4 => Call::Create { shape: random.below(2) },
            5..=6 => Call::Drop,
            7 => Call::Begin,
            8 => Call::Commit,
            9 => Call::Rollback,
            10..=11 => Call::Savepoint(random.one_of(&NAMES)),
            12..=13 => Call::RollbackTo(random.one_of(&NAMES)),
            _ => Call::of_rows(random),
        }
    }

    pub fn line(&self) -> String {
        match self {
            Call::Insert { table, columns, rows } => {
                let row = format!("({})", vec!["?"; columns.len()].join(", "));
                format!("INSERT {table} {}", vec![row; *rows].join(", "))
            }
            Call::Delete { table, column, op } => format!("DELETE {table} WHERE {column} {} ?", op.sign()),
            Call::Assign { table, assigned, column, op } => {
                format!("UPDATE {table} SET {assigned} = ? WHERE {column} {} ?", op.sign())
            }
            Call::Shift { table, assigned, column, op } => {
                format!("UPDATE {table} SET {assigned} = {assigned} + ? WHERE {column} {} ?", op.sign())
            }
            Call::Scan { table } => format!("SCAN {table}"),
            Call::Select { table, fields, column, op } => {
                let fields: Vec<String> = fields.iter().map(|field| format!("a.{field}")).collect();
                format!("SELECT {} FROM {table} a WHERE a.{column} {} ?", fields.join(", "), op.sign())
            }
            Call::Show => "SHOW w".into(),
            Call::Create { shape } => SHAPES[*shape].line.into(),
            Call::Drop => "DROP TABLE u".into(),
            Call::Begin => "BEGIN".into(),
            Call::Commit => "COMMIT".into(),
            Call::Rollback => "ROLLBACK".into(),
            Call::Savepoint(name) => format!("SAVEPOINT {name}"),
            Call::RollbackTo(name) => format!("ROLLBACK TO {name}"),
        }
    }

    pub fn values(&self, random: &mut Random) -> Vec<Value> {
        match self {
            Call::Insert { columns, rows, .. } => {
                (0..columns.len() * rows).map(|place| random.value_of(columns[place % columns.len()])).collect()
            }
            Call::Assign { assigned, column, .. } => vec![random.value_of(assigned), random.value_of(column)],
            Call::Shift { column, .. } => vec![random.value_of("n"), random.value_of(column)],
            Call::Delete { column, .. } | Call::Select { column, .. } => vec![random.value_of(column)],
            _ => vec![],
        }
    }

    pub fn is_query(&self) -> bool {
        matches!(self, Call::Scan { .. } | Call::Select { .. } | Call::Show)
    }

    pub fn run(&self, model: &mut Model, values: &[Value]) -> Reply<Answer> {
        let test = |column, op| Test { column, op, value: values[values.len() - 1].clone() };
        let done = |()| Answer::Count(0);
        match *self {
            Call::Insert { table, columns, .. } => {
                let rows: Vec<Row> = values.chunks(columns.len()).map(<[Value]>::to_vec).collect();
                model.insert(table, &rows).map(Answer::Count)
            }
            Call::Delete { table, column, op } => model.delete(table, &test(column, op)).map(Answer::Count),
            Call::Assign { table, assigned, column, op } => {
                model.update(table, assigned, &Change::To(values[0].clone()), &test(column, op)).map(Answer::Count)
            }
            Call::Shift { table, assigned, column, op } => {
                model.update(table, assigned, &Change::Plus(values[0].clone()), &test(column, op)).map(Answer::Count)
            }
            Call::Scan { table } => model.scan(table).map(Answer::Rows),
            Call::Select { table, fields, column, op } => {
                model.select(table, fields, &test(column, op)).map(Answer::Rows)
            }
            Call::Show => {
                let all = Test { column: "n", op: Op::AtLeast, value: Value::Int(0) };
                model.select("t", &["s", "n"], &all).map(Answer::Rows)
            }
            Call::Create { shape } => model.create("u", Table::new(SHAPES[shape].columns, SHAPES[shape].key)).map(done),
            Call::Drop => model.drop_table("u").map(done),
            Call::Begin => model.begin().map(done),
            Call::Commit => model.commit().map(done),
            Call::Rollback => model.rollback().map(done),
            Call::Savepoint(name) => model.savepoint(name).map(|_| done(())),
            Call::RollbackTo(name) => model.rollback_to(name).map(done),
        }
    }

    /// Returns the line with literals in its holes, or `None` if a value has no literal.
    pub fn with_literals(&self, values: &[Value]) -> Option<String> {
        let line = self.line();
        let mut parts = line.split('?');
        let mut whole = String::from(parts.next()?);
        for (value, part) in values.iter().zip(parts) {
            match value {
                // The digits of a shift have no minus and no quotes.
                Value::Int(number) if *number < 0 && whole.ends_with("+ ") => return None,
                Value::Text(_) if whole.ends_with("+ ") => return None,
                Value::Int(number) => whole += &number.to_string(),
                Value::Text(_) => whole += &format!("'{}'", value.as_str().ok()?.replace('\'', "''")),
            }
            whole += part;
        }
        Some(whole)
    }

    /// The columns of the rows, as the model has them.
    pub fn columns(&self, model: &Model) -> Vec<(String, Type)> {
        let of = |table: &str, fields: Option<&[&str]>| -> Vec<(String, Type)> {
            let columns = model.table(table).map_or(vec![], |table| table.columns.clone());
            // A field that the table does not have has no column.
            let find = |field: &&str| columns.iter().find(|column| column.0 == *field).copied();
            let found: Vec<_> = fields.map_or(columns.clone(), |fields| fields.iter().filter_map(find).collect());
            found.iter().map(|(name, data_type)| (String::from(*name), *data_type)).collect()
        };
        match self {
            Call::Scan { table } => of(table, None),
            Call::Select { table, fields, .. } => of(table, Some(fields)),
            Call::Show => of("t", Some(&["s", "n"])),
            _ => vec![],
        }
    }
}
