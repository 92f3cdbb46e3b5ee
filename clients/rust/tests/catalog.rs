//! Standing queries, plans and the catalog.

use mmdb::{Connection, Error, Result};

#[test]
fn standing_queries() -> Result<()> {
    let mut db = Connection::open()?;
    db.execute("TABLE seat (id INT KEY, place TEXT, taken INT)", ())?;
    db.watch("free", "SELECT s.place FROM seat s WHERE s.taken = 0")?;
    let free = |db: &Connection| db.show("free", |row| row.get::<String>("place"));
    assert!(free(&db)?.is_empty());
    db.execute("INSERT seat (1, 'B', 0), (2, 'A', 0), (3, 'C', 1)", ())?;
    assert_eq!(free(&db)?, ["A", "B"]);
    let transaction = db.transaction()?;
    transaction.execute("UPDATE seat SET taken = 1 - ?", [1]).unwrap_err();
    transaction.execute("UPDATE seat SET taken = 0", ())?;
    assert_eq!(free(&transaction)?, ["A", "B", "C"]);
    assert_eq!(transaction.unwatch("free").unwrap_err().number(), Some(52));
    drop(transaction);
    assert_eq!(free(&db)?, ["A", "B"]);
    assert_eq!(db.watch("free", "SELECT s.id FROM seat s").unwrap_err().number(), Some(24));
    db.unwatch("free")?;
    assert_eq!(free(&db).unwrap_err().number(), Some(23));
    Ok(())
}

#[test]
fn an_error_of_the_function_is_the_error_of_the_call() -> Result<()> {
    let db = Connection::open()?;
    db.execute_batch("TABLE t (id INT KEY)\nINSERT t (1)\nWATCH w SELECT a.id FROM t a")?;
    assert!(db.show("w", |row| row.get::<String>(0)).is_err());
    let error = db.show("w", |_| Err::<(), _>(mmdb::Error::Other("no".into()))).unwrap_err();
    assert_eq!(error.to_string(), "no");
    Ok(())
}

#[test]
fn plans() -> Result<()> {
    let db = Connection::open()?;
    db.execute_batch("TABLE t (id INT KEY, k INT)\nINDEX i ON t (k) HASH")?;
    let plan = db.explain("SELECT a.id FROM t a, t b WHERE a.k = 5 AND b.id = a.k")?;
    assert_eq!(plan, ["a hash i", "b built hash id"]);
    assert_eq!(db.explain("SELECT a.id FROM u a").unwrap_err().number(), Some(20));
    assert_eq!(db.explain("EXPLAIN SELECT a.id FROM t a")?, ["a scan"]);
    assert_eq!(db.explain("SELECT\n").unwrap_err().number(), Some(11));
    assert!(matches!(db.explain("SCAN t"), Err(Error::NotAQuery)));
    Ok(())
}

#[test]
fn plans_of_statements_with_parameters() -> Result<()> {
    let db = Connection::open()?;
    db.execute_batch("TABLE t (id INT KEY, s TEXT)\nINDEX i ON t (s) HASH")?;
    assert_eq!(db.explain("SELECT a.s FROM t a WHERE a.id = ?")?, ["a tree #key ="]);
    assert_eq!(db.explain("SELECT a.s FROM t a WHERE a.s = ?").unwrap_err().number(), Some(30));
    for line in ["SELECT a.s FROM t a WHERE a.s = ?", "EXPLAIN SELECT a.s FROM t a WHERE a.s = ?"] {
        let mut statement = db.prepare(line)?;
        assert_eq!(statement.explain(["x"])?, ["a hash i"]);
        assert_eq!(statement.explain([1]).unwrap_err().number(), Some(30));
        assert!(matches!(statement.explain(()), Err(Error::WrongParameterCount { given: 0, wanted: 1 })));
        assert!(matches!(statement.explain(["x".repeat(65)]), Err(Error::TextTooLong(65))));
    }
    // The plan is that of the indexes as they are now, and the statement still runs.
    let mut find = db.prepare("SELECT a.id FROM t a WHERE a.s = ?")?;
    db.execute("INSERT t (7, 'x')", ())?;
    db.execute("DROP INDEX i", ())?;
    assert_eq!(find.explain(["y"])?, ["a scan"]);
    assert_eq!(find.query_row(["x"], |row| row.get::<i64>(0))?, 7);
    for line in ["SCAN t", "TABLES", "INSERT t (?, ?)", "-- nothing", "DELETE t"] {
        assert!(matches!(db.prepare(line)?.explain(()), Err(Error::NotAQuery)), "{line}");
    }
    Ok(())
}

#[test]
fn the_catalog() -> Result<()> {
    let db = Connection::open()?;
    assert!(db.tables()?.is_empty());
    db.execute_batch(
        "TABLE t (id INT KEY, k INT)\nINDEX i ON t (k) HASH\nINSERT t (1, 1)\nWATCH w SELECT a.id FROM t a",
    )?;
    assert_eq!(db.tables()?, ["TABLE t (id INT KEY, k INT) rows 1", "INDEX i ON t (k) HASH", "WATCH w rows 1"]);
    Ok(())
}
