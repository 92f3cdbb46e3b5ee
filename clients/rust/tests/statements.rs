//! Prepared statements: runs, rows, the cache, and changes of the catalog in between.

use mmdb::{params, params_from_iter, Connection, Error, Result, Row, Statement, ToValue, ToValueOutput, Type};

fn squares(count: i64) -> Result<Connection> {
    let db = Connection::open()?;
    db.execute("TABLE square (n INT KEY, s INT)", ())?;
    db.prepare("INSERT square (?, ?)")?.execute_many((0..count).map(|n| (n, n * n)))?;
    Ok(db)
}

fn count(db: &Connection) -> Result<usize> {
    Ok(db.prepare("SCAN square")?.query(())?.len())
}

#[test]
fn ten_thousand_look_ups() -> Result<()> {
    let db = squares(1000)?;
    let mut find = db.prepare("SELECT a.s FROM square a WHERE a.n = ?")?;
    for look_up in 0..10_000 {
        let n = look_up * 7 % 1000;
        assert_eq!(find.query_row([n], |row| row.get::<i64>(0))?, n * n);
    }
    Ok(())
}

#[test]
fn each_form_of_values() -> Result<()> {
    let db = squares(0)?;
    let mut insert = db.prepare("INSERT square (?, ?)")?;
    insert.execute([1, 1])?;
    let array = &[2, 4];
    insert.execute(array)?;
    insert.execute(&vec![3, 9][..])?;
    insert.execute((4_u8, 16_i64))?;
    insert.execute(params![5, &25_i16])?;
    insert.execute(params_from_iter([6, 36]))?;
    insert.execute((true, false)).unwrap_err();
    assert_eq!((insert.parameter_count(), insert.line()), (2, "INSERT square (?, ?)"));
    assert_eq!(count(&db)?, 6);
    Ok(())
}

#[test]
fn executed_statements_tell_how_many_rows() -> Result<()> {
    let db = squares(10)?;
    assert_eq!(db.prepare("UPDATE square SET s = s + ? WHERE n >= ?")?.execute([1, 7])?, 3);
    assert_eq!(db.prepare("DELETE square WHERE n < ?")?.execute([-1])?, 0);
    assert_eq!(db.prepare("BEGIN")?.execute(())?, 0);
    assert_eq!(db.prepare("ROLLBACK")?.execute(())?, 0);
    assert_eq!(db.execute("-- nothing", ())?, 0);
    assert_eq!(db.execute("", ())?, 0);
    Ok(())
}

#[test]
fn rows_are_an_iterator() -> Result<()> {
    let db = squares(5)?;
    let mut scan = db.prepare("SCAN square")?;
    let mut rows = scan.query(())?;
    assert_eq!((rows.len(), rows.columns()[1].name()), (5, "s"));
    let squares: Vec<i64> = rows.by_ref().map(|row| row.get("s")).collect::<Result<_>>()?;
    assert_eq!(squares, [0, 1, 4, 9, 16]);
    assert!(rows.next().is_none());
    let rows: Vec<Row<'_>> = scan.query(())?.rev().step_by(2).collect();
    assert_eq!(rows.iter().map(|row| row.get(0)).collect::<Result<Vec<i64>>>()?, [4, 2, 0]);
    assert_eq!(scan.query(())?.nth(3).unwrap().values::<(i64, i64)>()?, (3, 9));
    Ok(())
}

#[test]
fn many_rows() -> Result<()> {
    let db = squares(5000)?;
    let mut scan = db.prepare("SELECT a.n, a.s FROM square a WHERE a.n >= ?")?;
    for first in [4998, 4999, 5000, 4000, 4997, 0, 4996] {
        let rows: Vec<(i64, i64)> = scan.query_map([first], Row::values)?.collect::<Result<_>>()?;
        assert_eq!(rows, (first..5000).map(|n| (n, n * n)).collect::<Vec<_>>());
    }
    Ok(())
}

#[test]
fn rows_stay_while_others_are_read() -> Result<()> {
    let db = squares(4)?;
    let mut outer = db.prepare("SCAN square")?;
    let mut inner = db.prepare("SELECT a.s FROM square a WHERE a.n < ?")?;
    let mut found = Vec::new();
    for row in outer.query(())? {
        let n: i64 = row.get(0)?;
        db.execute("DELETE square WHERE n = ?", [n])?;
        let mut smaller = inner.query([100])?;
        found.push((n, row.get::<i64>(1)?, smaller.len(), smaller.next().map(|row| row.get::<i64>(0)).transpose()?));
    }
    assert_eq!(found, [(0, 0, 3, Some(1)), (1, 1, 2, Some(4)), (2, 4, 1, Some(9)), (3, 9, 0, None)]);
    Ok(())
}

#[test]
fn a_row_lends_its_texts() -> Result<()> {
    let db = Connection::open()?;
    db.execute_batch("TABLE person (id INT KEY, name TEXT)\nINSERT person (1, 'Ann'), (2, 'Bob')")?;
    let mut scan = db.prepare("SCAN person")?;
    let names: Vec<&str> = scan.query_map((), |row| row.get("name"))?.collect::<Result<_>>()?;
    assert_eq!(names, ["Ann", "Bob"]);
    let name: &str = scan.query_row((), |row| row.get(1))?;
    assert_eq!(name, "Ann");
    Ok(())
}

#[test]
fn many_runs() -> Result<()> {
    let db = squares(0)?;
    let mut insert = db.prepare("INSERT square (?, ?)")?;
    assert_eq!(insert.execute_many((0..2000).map(|n| [n, 0]))?, 2000);
    assert_eq!(insert.execute_many(Vec::<(i64, i64)>::new())?, 0);
    let error = insert.execute_many((1500..2500).rev().map(|n| [n, 0])).unwrap_err();
    assert!(matches!(&error, Error::InRun { done: 500, .. }));
    assert_eq!((error.number(), error.to_string().as_str()), (Some(40), "run 501: duplicate key"));
    assert_eq!(count(&db)?, 2500);

    let error = insert.execute_many([[3000, 0].as_slice(), &[3001], &[3002, 0]]).unwrap_err();
    assert!(matches!(error, Error::InRun { done: 1, .. }));
    assert_eq!(error.to_string(), "run 2: the statement has 2 parameters, and 1 values were passed");
    assert_eq!(count(&db)?, 2501);

    assert_eq!(db.prepare("UPDATE square SET s = s + 1")?.execute_many([(), (), ()])?, 3 * 2501);
    assert_eq!(db.query_row("SCAN square", (), |row| row.get::<i64>("s"))?, 3);
    let error = db.prepare("INSERT square (1, 1)")?.execute_many([()]).unwrap_err();
    assert!(matches!(error, Error::InRun { done: 0, .. }));
    Ok(())
}

#[test]
fn many_runs_return_the_rows_of_all() -> Result<()> {
    let db = squares(3000)?;
    let mut update = db.prepare("UPDATE square SET s = 0 WHERE n >= ? AND n < ?")?;
    assert_eq!(update.execute_many((0..3000).map(|n| [n, n + 2]))?, 5999);
    let mut delete = db.prepare("DELETE square WHERE n = ?")?;
    assert_eq!(delete.execute_many([[1], [2], [1], [4000]])?, 2);
    // What the iterator itself changes in between does not count.
    let rows = (10..20).map(|n| {
        db.execute("DELETE square WHERE n = ?", [1000 + n]).unwrap();
        [n]
    });
    assert_eq!(delete.execute_many(rows)?, 10);
    assert_eq!(count(&db)?, 2978);
    Ok(())
}

/// A value whose conversion uses the connection: it runs the same lines, replaces the reply, and evicts statements from the cache.
struct Busy<'c> {
    db: &'c Connection,
    number: i64,
}

impl ToValue for Busy<'_> {
    fn to_value(&self) -> Result<ToValueOutput<'_>> {
        self.db.prepare_cached("INSERT square (?, ?)")?.execute([self.number + 100, 0])?;
        self.db.prepare_cached("DELETE square WHERE n = ?")?.execute([self.number + 100])?;
        for n in 0..20 {
            self.db.prepare_cached(&format!("SELECT a.s FROM square a WHERE a.n = {n}"))?.query(())?;
        }
        Ok(ToValueOutput::from(self.number))
    }
}

#[test]
fn values_may_use_the_connection() -> Result<()> {
    let db = squares(0)?;
    let busy = |number: i64| Busy { db: &db, number };
    assert_eq!(db.prepare_cached("INSERT square (?, ?)")?.execute((busy(1), busy(2)))?, 1);
    assert_eq!(db.execute("INSERT square (?, ?)", (busy(3), busy(4)))?, 1);
    let mut insert = db.prepare("INSERT square (?, ?)")?;
    assert_eq!(insert.execute_many((5..8).map(|n| (busy(n), busy(n + 1))))?, 3);
    let line = "SELECT a.n, a.s FROM square a WHERE a.n >= ?";
    let rows: Vec<(i64, i64)> = db.prepare_cached(line)?.query_map((busy(3),), Row::values)?.collect::<Result<_>>()?;
    assert_eq!(rows, [(3, 4), (5, 6), (6, 7), (7, 8)]);
    assert_eq!(count(&db)?, 5);
    Ok(())
}

#[test]
fn lines_of_several_lines() -> Result<()> {
    let db = Connection::open()?;
    db.execute("TABLE t (\n    id INT KEY,\r\n    s TEXT\n)\n", ())?;
    db.execute("INSERT t\n    (?, ?)", (1, "a"))?;
    let line = "SELECT a.s\nFROM t a\nWHERE a.id = ?";
    assert_eq!(db.query_row(line, [1], |row| row.get::<String>(0))?, "a");
    assert_eq!(db.prepare_cached(line)?.line(), line);
    assert_eq!((db.columns(line)?.len(), db.explain(line)?.len()), (1, 1));
    db.watch("w", "SELECT a.s\nFROM t a")?;
    assert_eq!(db.execute("\n", ())?, 0);
    assert_eq!(db.execute("INSERT t (2, 'a\nb')", ()).unwrap_err().number(), Some(11));
    for line in ["-- one\nDELETE t", "--\n"] {
        assert!(matches!(db.execute(line, ()), Err(Error::CommentHasLineFeed)));
        assert!(matches!(db.prepare(line), Err(Error::CommentHasLineFeed)));
    }
    let error = db.execute("SCAN\nt;", ()).unwrap_err();
    assert_eq!(db.place_of_refusal("SCAN\nt;", error.refusal().unwrap()), 6);
    assert_eq!(db.show("w", |row| row.get::<String>(0))?, ["a"]);
    Ok(())
}

#[test]
fn names_are_looked_up_at_each_run() -> Result<()> {
    let db = Connection::open()?;
    let mut scan = db.prepare("SCAN t")?;
    let mut insert = db.prepare("INSERT t (?, ?)")?;
    assert_eq!(scan.query(()).unwrap_err().number(), Some(20));
    assert!(scan.columns()?.is_empty());

    db.execute("TABLE t (id INT KEY, s TEXT)", ())?;
    insert.execute((1, "a"))?;
    assert_eq!(scan.query_row((), Row::values::<(i64, String)>)?, (1, "a".to_owned()));
    assert_eq!(scan.column_names()?, ["id", "s"]);

    db.execute_batch("DROP TABLE t\nTABLE t (x TEXT, y INT KEY, z INT)")?;
    assert_eq!(insert.execute((1, "a")).unwrap_err().number(), Some(30));
    assert_eq!(scan.query(())?.len(), 0);
    assert_eq!(scan.column_names()?, ["x", "y", "z"]);
    db.execute("INSERT t ('a', 1, 2), ('b', 3, 4)", ())?;
    let rows: Vec<(String, i64, i64)> = scan.query_map((), Row::values)?.collect::<Result<_>>()?;
    assert_eq!(rows, [("a".to_owned(), 1, 2), ("b".to_owned(), 3, 4)]);

    let mut drop = db.prepare("DROP TABLE t")?;
    let mut make = db.prepare("TABLE t (only INT KEY)")?;
    drop.execute(())?;
    make.execute(())?;
    db.execute("INSERT t (5)", ())?;
    assert_eq!(scan.query_row((), |row| row.get::<i64>("only"))?, 5);
    Ok(())
}

#[test]
fn standing_queries_and_indexes_made_again() -> Result<()> {
    let db = squares(3)?;
    let mut show = db.prepare("SHOW w")?;
    let mut scan = db.prepare("SCAN INDEX i")?;
    assert_eq!(show.query(()).unwrap_err().number(), Some(23));
    assert_eq!(scan.query(()).unwrap_err().number(), Some(22));
    db.watch("w", "SELECT a.n FROM square a")?;
    db.execute_batch("INDEX i ON square (s) TREE\nTABLE t (id TEXT KEY)\nINSERT t ('x')")?;
    assert_eq!(show.query_row((), |row| Ok(row.columns().len()))?, 1);
    assert_eq!(scan.query_row((), |row| Ok(row.columns().len()))?, 2);
    db.unwatch("w")?;
    db.watch("w", "SELECT a.n, a.s, a.n FROM square a")?;
    db.execute_batch("DROP INDEX i\nINDEX i ON t (id) HASH")?;
    assert_eq!(show.query(())?.map(|row| row.get(2)).collect::<Result<Vec<i64>>>()?, [0, 1, 2]);
    assert_eq!(scan.query_row((), |row| row.get::<String>(0))?, "x");
    Ok(())
}

#[test]
fn an_index_in_a_transaction_is_a_change_of_the_catalog() -> Result<()> {
    let mut db = squares(2)?;
    db.execute("TABLE t (id TEXT KEY)", ())?;
    let transaction = db.transaction()?;
    transaction.execute("INSERT t ('x')", ())?;
    let mut scan = transaction.prepare("SCAN INDEX i")?;
    transaction.execute("INDEX i ON square (s) TREE", ())?;
    assert_eq!(scan.query(())?.len(), 2);
    transaction.execute("DROP INDEX i", ())?;
    transaction.execute("INDEX i ON t (id) TREE", ())?;
    assert_eq!(scan.query_row((), |row| row.get::<String>(0))?, "x");
    Ok(())
}

#[test]
fn columns_of_lines() -> Result<()> {
    let db = Connection::open()?;
    db.execute("TABLE person (id INT KEY, name TEXT)", ())?;
    let columns = db.columns("SELECT p.name, p.id FROM person p WHERE p.id = ?")?;
    let named: Vec<(&str, Type)> = columns.iter().map(|column| (column.name(), column.data_type())).collect();
    assert_eq!(named, [("name", Type::Text), ("id", Type::Int)]);
    assert!(db.columns("DELETE person")?.is_empty());
    assert_eq!(db.columns("SELECT").unwrap_err().number(), Some(11));
    assert_eq!(db.prepare("SCAN person")?.column_names()?, ["id", "name"]);
    Ok(())
}

#[test]
fn two_columns_of_one_name() -> Result<()> {
    let db = squares(3)?;
    let line = "SELECT a.n, b.n FROM square a, square b WHERE a.n = b.n + 1 ORDER 2";
    let row: (i64, i64) = db.query_row(line, (), |row| Ok((row.get("n")?, row.get(1)?)))?;
    assert_eq!(row, (1, 0));
    Ok(())
}

#[test]
fn cached_statements() -> Result<()> {
    let db = squares(100)?;
    let line = "SELECT a.s FROM square a WHERE a.n = ?";
    let find = |mut find: Statement<'_>, n: i64| find.query_row([n], |row| row.get::<i64>(0));
    for n in 0..100 {
        assert_eq!(find(db.prepare_cached(line)?, n)?, n * n);
    }
    // Two at a time, of which the cache keeps one.
    let (one, other) = (db.prepare_cached(line)?, db.prepare_cached(line)?);
    assert_eq!((find(one, 3)?, find(other, 4)?), (9, 16));
    db.prepare_cached(line)?.finalize();
    for capacity in [0, 3] {
        db.set_statement_cache_capacity(capacity);
        for n in 0..20 {
            assert_eq!(db.prepare_cached(&format!("SELECT a.s FROM square a WHERE a.n = {n}"))?.query(())?.len(), 1);
        }
        assert_eq!(find(db.prepare_cached(line)?, 5)?, 25);
    }
    assert_eq!(db.prepare_cached("SELECT").map(|_| ()).unwrap_err().number(), Some(11));
    Ok(())
}

#[test]
fn a_cached_statement_after_a_change_of_the_catalog() -> Result<()> {
    let db = Connection::open()?;
    for columns in ["id INT KEY", "a TEXT KEY, b INT", "id INT KEY"] {
        db.execute(&format!("TABLE t ({columns})"), ())?;
        assert_eq!(db.prepare_cached("SCAN t")?.query(())?.columns().len(), columns.split(',').count());
        db.execute("DROP TABLE t", ())?;
    }
    Ok(())
}

#[test]
fn connections_share_nothing() -> Result<()> {
    let one = squares(3)?;
    let other = Connection::open()?;
    assert!(other.tables()?.is_empty());
    drop(one);
    let threads: Vec<_> = (1..4).map(|n| std::thread::spawn(move || count(&squares(n).unwrap()).unwrap())).collect();
    let counts: Vec<usize> = threads.into_iter().map(|thread| thread.join().unwrap()).collect();
    assert_eq!(counts, [1, 2, 3]);
    Ok(())
}
