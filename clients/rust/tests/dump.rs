//! Dumps: a script that rebuilds the database, in pieces of whole lines. Definitions, which are single lines of it, and scripts that are
//! loaded.

use mmdb::{Connection, DefinitionKind, Error, Refusal, Result, Value};
use std::io::{self, BufWriter, Write};
use std::panic::{catch_unwind, AssertUnwindSafe};

fn dumped(db: &Connection) -> String {
    let mut script = Vec::new();
    db.dump(&mut script).unwrap();
    String::from_utf8(script).unwrap()
}

fn restored(script: &str) -> Connection {
    let db = Connection::open().unwrap();
    db.execute_batch(script).unwrap();
    db
}

/// The rows of a line, from left to right.
fn rows(db: &Connection, line: &str) -> Vec<Vec<Value>> {
    let values = |row: &mmdb::Row<'_>| (0..row.columns().len()).map(|place| row.get(place)).collect();
    let mut statement = db.prepare(line).unwrap();
    let rows: Result<Vec<Vec<Value>>> = statement.query_map((), values).unwrap().collect();
    rows.unwrap()
}

#[test]
fn an_empty_database_has_an_empty_dump() {
    assert_eq!(dumped(&Connection::open().unwrap()), "");
}

#[test]
fn a_dump_has_tables_rows_indexes_and_standing_queries() {
    let script = "TABLE a (id INT KEY, name TEXT)\n\
        TABLE b (id INT KEY, a INT REF a)\n\
        TABLE c (name TEXT KEY)\n\
        INSERT a (1, 'it''s'), (2, '')\n\
        INSERT b (7, 2), (8, 1)\n\
        INDEX by_name ON a (name) TREE\n\
        INDEX by_a ON b (a) HASH\n\
        WATCH w SELECT DISTINCT x.name FROM a x, b y WHERE y.a = x.id AND x.id < y.id + 1 ORDER 1\n";
    let db = restored(script);
    let again = restored(&dumped(&db));
    assert_eq!(dumped(&again), dumped(&db));
    assert_eq!(again.tables().unwrap(), db.tables().unwrap());
    for line in ["SCAN a", "SCAN b", "SCAN c", "SHOW w"] {
        assert_eq!(rows(&again, line), rows(&db, line), "{line}");
    }
    assert_eq!(again.execute("INSERT a (1, 'x')", ()).unwrap_err().number(), Some(40));
}

/// Sees that each piece consists of whole lines.
struct Pieces {
    sizes: Vec<usize>,
    script: Vec<u8>,
}

impl Write for Pieces {
    fn write(&mut self, bytes: &[u8]) -> io::Result<usize> {
        assert_eq!(bytes.last(), Some(&b'\n'));
        self.sizes.push(bytes.len());
        self.script.extend_from_slice(bytes);
        Ok(bytes.len())
    }

    fn flush(&mut self) -> io::Result<()> {
        Ok(())
    }
}

#[test]
fn a_long_table_is_dumped_in_several_pieces() {
    const ROWS: i64 = 30_000;
    let db = restored("TABLE t (id INT KEY, name TEXT)\nTABLE u (id INT KEY)\nINSERT u (1)");
    db.prepare("INSERT t (?, ?)")
        .unwrap()
        .execute_many((0..ROWS).map(|id| (ROWS - id, "'".repeat(id as usize % 65))))
        .unwrap();
    let mut pieces = Pieces { sizes: vec![], script: vec![] };
    db.dump(&mut pieces).unwrap();
    assert!(pieces.sizes.len() > 1, "{:?}", pieces.sizes);
    let script = String::from_utf8(pieces.script).unwrap();
    assert!(script.lines().all(|line| line.len() <= 4096));
    let again = restored(&script);
    assert_eq!(again.tables().unwrap(), db.tables().unwrap());
    assert_eq!(rows(&again, "SCAN t"), rows(&db, "SCAN t"));
    assert_eq!(rows(&again, "SCAN u"), rows(&db, "SCAN u"));
}

#[test]
fn a_dump_in_a_transaction_has_its_changes() {
    let mut db = restored("TABLE t (id INT KEY)\nINSERT t (1)");
    let transaction = db.transaction().unwrap();
    transaction.execute("INSERT t (2)", ()).unwrap();
    assert_eq!(dumped(&transaction), "TABLE t (id INT KEY)\nINSERT t (1), (2)\n");
    drop(transaction);
    assert_eq!(dumped(&db), "TABLE t (id INT KEY)\nINSERT t (1)\n");
}

/// A writer that executes a line before it writes.
struct Executing<'c> {
    db: &'c Connection,
    line: &'static str,
    pieces: usize,
}

impl Write for Executing<'_> {
    fn write(&mut self, bytes: &[u8]) -> io::Result<usize> {
        let _ = self.db.execute_batch(self.line);
        self.pieces += 1;
        Ok(bytes.len())
    }

    fn flush(&mut self) -> io::Result<()> {
        Ok(())
    }
}

#[test]
fn a_change_ends_a_dump_and_a_question_does_not() {
    let db = restored("TABLE t (id INT KEY, name TEXT)");
    db.prepare("INSERT t (?, 'twenty bytes of text')").unwrap().execute_many((0..60_000).map(|id| [id])).unwrap();
    let mut asking = Executing { db: &db, line: "SELECT a.name FROM t a WHERE a.id = 7", pieces: 0 };
    db.dump(&mut asking).unwrap();
    assert!(asking.pieces > 1);
    // A refused command changes nothing.
    let mut refused = Executing { db: &db, line: "DELETE u", pieces: 0 };
    db.dump(&mut refused).unwrap();
    assert_eq!(refused.pieces, asking.pieces);
    for line in ["UPDATE t SET name = '' WHERE id = 7", "INDEX i ON t (name) TREE", "BEGIN"] {
        let mut changing = Executing { db: &db, line, pieces: 0 };
        let error = db.dump(&mut changing).unwrap_err();
        let inner = error.get_ref().and_then(|inner| inner.downcast_ref::<Error>());
        assert!(matches!(inner, Some(Error::ChangedDuringDump)), "{line}: {error:?}");
        assert_eq!(error.to_string(), "a command may have changed the database since the dump started");
        assert_eq!(changing.pieces, 1);
    }
}

/// A writer that takes only so many bytes.
struct Full(usize);

impl Write for Full {
    fn write(&mut self, bytes: &[u8]) -> io::Result<usize> {
        let taken = bytes.len().min(self.0);
        self.0 -= taken;
        Ok(taken)
    }

    fn flush(&mut self) -> io::Result<()> {
        Ok(())
    }
}

#[test]
fn a_failure_of_the_writer_is_returned() {
    let db = restored("TABLE t (id INT KEY)\nINSERT t (1)");
    assert_eq!(db.dump(Full(5)).unwrap_err().kind(), io::ErrorKind::WriteZero);
    assert!(db.dump(Full(500)).is_ok());
    // A buffer that is dropped would lose the failure.
    assert_eq!(db.dump(BufWriter::new(Full(5))).unwrap_err().kind(), io::ErrorKind::WriteZero);
    assert!(db.dump(BufWriter::new(Full(500))).is_ok());
}

/// A writer that panics at a piece.
struct Panicking<'c> {
    db: &'c Connection,
    pieces: usize,
}

impl Write for Panicking<'_> {
    fn write(&mut self, bytes: &[u8]) -> io::Result<usize> {
        assert!(self.pieces > 0, "the writer is told to panic");
        self.pieces -= 1;
        // A dump inside a dump does not disturb it.
        assert!(dumped(self.db).len() > 1 << 20);
        Ok(bytes.len())
    }

    fn flush(&mut self) -> io::Result<()> {
        Ok(())
    }
}

#[test]
fn a_writer_that_panics_leaves_the_connection_usable() {
    let db = restored("TABLE t (id INT KEY, name TEXT)");
    db.prepare("INSERT t (?, ?)").unwrap().execute_many((0..20_000).map(|id| (id, "x".repeat(64)))).unwrap();
    let script = dumped(&db);
    for pieces in 0..2 {
        let panicked = catch_unwind(AssertUnwindSafe(|| db.dump(Panicking { db: &db, pieces })));
        assert!(panicked.is_err(), "{pieces}");
        assert_eq!(dumped(&db), script);
    }
    assert!(db.dump(Panicking { db: &db, pieces: 2 }).is_ok());
    assert_eq!(db.execute("DELETE t", ()).unwrap(), 20_000);
}

#[test]
fn odd_names_and_values_are_dumped() {
    let db = Connection::open().unwrap();
    db.execute_batch(
        "TABLE select (table INT KEY, text TEXT)\nTABLE insert (tables TEXT KEY, ref INT REF select CASCADE)",
    )
    .unwrap();
    for (number, text) in
        [(i64::MIN, ""), (i64::MAX, "\r"), (-1, "-- \t"), (0, "?"), (7, ", (1, '')"), (9, "é\0\u{2028}")]
    {
        db.execute("INSERT select (?, ?)", (number, text)).unwrap();
    }
    for text in [String::new(), "'".repeat(64), "it's".repeat(16), "\r\u{85}".repeat(21), " ".repeat(64)] {
        db.execute("INSERT insert (?, ?)", (text, i64::MIN)).unwrap();
    }
    db.execute_batch(
        "INDEX index ON insert (ref) HASH\n\
        WATCH watch SELECT select.tables FROM insert select, select where WHERE where.table=select.ref-0 AND where.table<=-1",
    )
    .unwrap();
    let script = dumped(&db);
    let again = restored(&script);
    assert_eq!(dumped(&again), script);
    assert_eq!(again.tables().unwrap(), db.tables().unwrap());
    for line in ["SCAN select", "SCAN insert", "SCAN INDEX index", "SHOW watch"] {
        assert_eq!(rows(&again, line), rows(&db, line), "{line}");
    }
    assert_eq!(rows(&again, "SHOW watch").len(), 5);
}

/// Returns a WATCH line of exactly 4,096 bytes. No shorter line makes this standing query.
fn longest_watch() -> String {
    let (alias, name) = ("a".repeat(32), "n".repeat(32));
    let fields = vec![format!("{alias}.{name}"); 16].join(",");
    let line = |literals: &[usize]| {
        let tests: Vec<String> =
            literals.iter().map(|quotes| format!("{alias}.{name}<'{}'", "''".repeat(*quotes))).collect();
        format!("WATCH w SELECT {fields} FROM t {alias} WHERE {}", tests.join("AND "))
    };
    let mut literals = vec![64; 16];
    while line(&literals).len() > 4096 {
        let last = literals.iter().rposition(|quotes| *quotes > 0).unwrap();
        literals[last] -= 1;
    }
    let line = line(&literals);
    // Literals differ by two bytes each, and the name of the standing query by one.
    let padded = line.replacen("WATCH w", if line.len() == 4096 { "WATCH w" } else { "WATCH ww" }, 1);
    assert_eq!(padded.len(), 4096);
    padded
}

#[test]
fn the_longest_lines_are_dumped() {
    let columns: Vec<String> =
        (10..25).map(|n| format!("{}{n} TEXT REF {} CASCADE", "c".repeat(30), "u".repeat(32))).collect();
    let watch = longest_watch();
    let script = format!(
        "TABLE {} (id TEXT KEY)\nTABLE {} (id INT KEY, {})\nTABLE t ({} TEXT KEY)\nINSERT t (''), ('a')\n{watch}\n",
        "u".repeat(32),
        "v".repeat(32),
        columns.join(", "),
        "n".repeat(32)
    );
    let db = restored(&script);
    assert_eq!(dumped(&db), script);
    assert_eq!(dumped(&restored(&script)), script);
}

#[test]
fn definitions_are_lines_of_the_dump() {
    let db = restored(
        "TABLE a (id INT KEY, name TEXT)\n\
        TABLE b (id INT KEY, a INT REF a CASCADE)\n\
        INDEX a ON b (a) HASH\n\
        WATCH a SELECT x.name FROM a x, b y WHERE y.a = x.id AND x.name > 'it''s' ORDER 1\n",
    );
    let script = dumped(&db);
    let kinds = [DefinitionKind::Table, DefinitionKind::Table, DefinitionKind::Index, DefinitionKind::StandingQuery];
    for ((kind, name), line) in kinds.into_iter().zip(["a", "b", "a", "a"]).zip(script.lines()) {
        assert_eq!(String::from_utf8(db.definition(kind, name).unwrap()).unwrap(), line);
    }
    for (kind, name, refusal) in [
        (DefinitionKind::Table, "c", Refusal::NoSuchTable),
        (DefinitionKind::Index, "b", Refusal::NoSuchIndex),
        (DefinitionKind::StandingQuery, "b", Refusal::NoSuchStandingQuery),
        (DefinitionKind::Table, "", Refusal::Syntax),
        (DefinitionKind::Table, "a b", Refusal::Syntax),
    ] {
        assert_eq!(db.definition(kind, name).unwrap_err().refusal(), Some(refusal), "{name}");
    }
}

#[test]
fn a_dump_with_bytes_that_are_not_utf_8_is_loaded() {
    let db = restored("TABLE t (id INT KEY, s TEXT)");
    db.load(b"INSERT t (1, '\xff'), (2, '\r')\r\nWATCH w SELECT a.id FROM t a WHERE a.s = '\xff'\n").unwrap();
    let mut script = Vec::new();
    db.dump(&mut script).unwrap();
    let copy = Connection::open().unwrap();
    copy.load(&script).unwrap();
    assert_eq!(rows(&copy, "SCAN t"), rows(&db, "SCAN t"));
    assert_eq!(rows(&copy, "SHOW w"), [[Value::Int(1)]]);
    let line = copy.definition(DefinitionKind::StandingQuery, "w").unwrap();
    assert_eq!(line, b"WATCH w SELECT a.id FROM t a WHERE a.s='\xff'");
}

#[test]
fn a_load_stops_at_a_refused_line() {
    let db = restored("TABLE t (id INT KEY)");
    for (script, line, refusal, rows_there) in [
        ("INSERT t (1)\n\n-- two\nINSERT t (1)\nINSERT t (2)", 4, Refusal::DuplicateKey, 1),
        ("INSERT t\n(2)", 1, Refusal::Syntax, 1),
        ("INSERT t (?)", 1, Refusal::Syntax, 1),
        ("INSERT t (2)\r\nSCAN t\r\nSCAN u\r\n", 3, Refusal::NoSuchTable, 2),
    ] {
        match db.load(script) {
            Err(Error::InLine { line: found, error }) => assert_eq!((found, error.refusal()), (line, Some(refusal))),
            other => panic!("{script:?}: {other:?}"),
        }
        assert_eq!(rows(&db, "SCAN t").len(), rows_there, "{script:?}");
    }
    db.load("").unwrap();
    db.load("INSERT t (3)\n").unwrap();
    assert_eq!(rows(&db, "SCAN t").len(), 3);
}

/// Transactions and savepoints follow the lines of a script as they follow single lines.
#[test]
fn a_load_ends_transactions_and_savepoints() {
    let mut db = restored("TABLE t (id INT KEY)");
    let transaction = db.transaction().unwrap();
    transaction.load("INSERT t (1)\nCOMMIT\nBEGIN\nINSERT t (2)").unwrap();
    // Its own transaction has ended, and the later one stays open.
    assert_eq!(transaction.rollback().unwrap_err().refusal(), Some(Refusal::NoTransaction));
    assert!(db.is_in_transaction());
    db.execute("ROLLBACK", ()).unwrap();
    assert_eq!(rows(&db, "SCAN t").len(), 1);

    let mut transaction = db.transaction().unwrap();
    let savepoint = transaction.savepoint("s").unwrap();
    savepoint.load("INSERT t (2)\nSAVEPOINT s\nINSERT t (3)\nROLLBACK TO s\nnonsense").unwrap_err();
    // Dropping it goes back to its own savepoint, which a later one hides.
    drop(savepoint);
    assert_eq!(rows(&transaction, "SCAN t").len(), 1);
    transaction.commit().unwrap();
}

#[test]
fn a_statement_follows_a_loaded_catalog() {
    let db = restored("TABLE t (id INT KEY)");
    let mut statement = db.prepare("SCAN t").unwrap();
    assert_eq!(statement.query(()).unwrap().len(), 0);
    db.load("DROP TABLE t\nTABLE t (s TEXT KEY, n INT)\nINSERT t ('a', 1)").unwrap();
    assert_eq!(statement.query_row((), |row| row.get::<String>(0)).unwrap(), "a");
}
