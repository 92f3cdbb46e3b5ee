//! Each kind of error, and that a call that fails changes nothing.

use mmdb::{params, Connection, Error, OptionalExtension, Refusal, Result, Type, Value};
use std::error::Error as _;
use std::time::{Duration, Instant};

fn people() -> Result<Connection> {
    let db = Connection::open()?;
    db.execute_batch("TABLE person (id INT KEY, name TEXT)\nINSERT person (1, 'Ann'), (2, 'Bob')")?;
    Ok(db)
}

/// The rows of the table, as a text.
fn rows(db: &Connection) -> Result<Vec<(i64, String)>> {
    db.prepare("SCAN person")?.query_map((), |row| row.values())?.collect()
}

#[test]
fn refusals_have_numbers_and_words() -> Result<()> {
    let long_line = format!("--{}", "x".repeat(4095));
    let long_text = format!("INSERT person (3, '{}')", "x".repeat(65));
    let cases = [
        (long_line.as_str(), Refusal::LineTooLong, 10, "line too long"),
        ("SCAN person;", Refusal::Syntax, 11, "syntax"),
        ("INSERT person (9223372036854775808, '')", Refusal::NumberOutOfRange, 12, "number out of range"),
        (long_text.as_str(), Refusal::TextTooLong, 13, "text too long"),
        ("DELETE nobody", Refusal::NoSuchTable, 20, "no such table"),
        ("DELETE person WHERE age = 1", Refusal::NoSuchColumn, 21, "no such column"),
        ("DROP INDEX by_name", Refusal::NoSuchIndex, 22, "no such index"),
        ("UNWATCH names", Refusal::NoSuchStandingQuery, 23, "no such standing query"),
        ("TABLE person (id INT KEY)", Refusal::NameTaken, 24, "name taken"),
        ("WATCH w SELECT p.id FROM person p, person p", Refusal::AliasTaken, 25, "alias taken"),
        ("WATCH w SELECT q.id FROM person p", Refusal::NoSuchAlias, 26, "no such alias"),
        ("INSERT person ('x', 'y')", Refusal::TypeMismatch, 30, "type mismatch"),
        ("INSERT person (3)", Refusal::WrongNumberOfValues, 31, "wrong number of values"),
        (
            "UPDATE person SET id = id + 9223372036854775807",
            Refusal::ArithmeticOutOfRange,
            32,
            "arithmetic out of range",
        ),
        ("INSERT person (2, 'Cat')", Refusal::DuplicateKey, 40, "duplicate key"),
        ("COMMIT", Refusal::NoTransaction, 51, "no transaction"),
    ];
    let db = people()?;
    let before = rows(&db)?;
    for (line, refusal, number, words) in cases {
        let error = db.execute(line, ()).unwrap_err();
        assert!(matches!(error, Error::Refused(found) if found == refusal), "{line}: {error:?}");
        assert_eq!((error.number(), error.to_string().as_str()), (Some(number), words), "{line}");
        assert_eq!(rows(&db)?, before, "{line}");
    }
    Ok(())
}

#[test]
fn refusals_of_references_and_transactions() -> Result<()> {
    let db = people()?;
    db.execute_batch("TABLE pet (id INT KEY, owner INT REF person)\nINSERT pet (7, 1)")?;
    let number = |line: &str| db.execute(line, ()).unwrap_err().number();
    assert_eq!(number("INSERT pet (8, 3)"), Some(41));
    assert_eq!(number("DELETE person"), Some(42));
    assert_eq!(number("DROP TABLE person"), Some(43));
    db.execute("BEGIN", ())?;
    assert_eq!(number("BEGIN"), Some(50));
    assert_eq!(number("TABLE t (id INT KEY)"), Some(52));
    assert_eq!(number("ROLLBACK TO s"), Some(53));
    db.execute("COMMIT", ())?;
    Ok(())
}

#[test]
fn each_number_has_its_refusal() {
    let refusals: Vec<Refusal> = (0..=255).filter_map(Refusal::from_number).collect();
    assert_eq!(refusals.len(), 27);
    for refusal in refusals {
        assert_eq!(Refusal::from_number(refusal.number()), Some(refusal));
        assert!(!refusal.to_string().is_empty(), "{refusal:?}");
    }
}

#[test]
fn values_that_do_not_fit() -> Result<()> {
    let db = people()?;
    let mut insert = db.prepare("INSERT person (?, ?)")?;
    let given = |error: Error| match error {
        Error::WrongParameterCount { given, wanted: 2 } => given,
        error => panic!("{error:?}"),
    };
    assert_eq!(given(insert.execute(()).unwrap_err()), 0);
    assert_eq!(given(insert.execute([3]).unwrap_err()), 1);
    assert_eq!(given(insert.execute((3, "Cat", 4)).unwrap_err()), 3);
    assert_eq!(given(db.execute("INSERT person (?, ?)", ()).unwrap_err()), 0);
    assert!(matches!(insert.execute((3, "x".repeat(65))), Err(Error::TextTooLong(65))));
    assert!(matches!(insert.execute((3, "a\nb")), Err(Error::TextHasLineFeed)));
    assert!(matches!(insert.execute((u64::MAX, "Cat")), Err(Error::NumberOutOfRange)));
    assert!(matches!(insert.execute(("Cat", 3)), Err(Error::Refused(Refusal::TypeMismatch))));
    assert!(matches!(db.execute("INSERT person (3, 'Cat')", [3]), Err(Error::WrongParameterCount { wanted: 0, .. })));
    assert_eq!(rows(&db)?.len(), 2);
    insert.execute((3, "x".repeat(64)))?;
    Ok(())
}

#[test]
fn a_value_that_does_not_fit_leaves_the_statement_usable() -> Result<()> {
    let db = people()?;
    let mut update = db.prepare("UPDATE person SET name = ? WHERE id = ?")?;
    assert!(update.execute(("Eve", "x\ny")).is_err());
    assert_eq!(update.execute(("Eve", 1))?, 1);
    assert_eq!(rows(&db)?[0].1, "Eve");
    Ok(())
}

#[test]
fn rows_where_none_are_and_none_where_some_are() -> Result<()> {
    let db = people()?;
    for line in ["SCAN person", "TABLES", "EXPLAIN SELECT p.id FROM person p"] {
        assert!(matches!(db.execute(line, ()), Err(Error::ExecuteReturnedRows)), "{line}");
        assert!(matches!(db.prepare(line)?.execute(()), Err(Error::ExecuteReturnedRows)), "{line}");
    }
    for line in ["SCAN person", "TABLES", "EXPLAIN SELECT p.id FROM person p"] {
        assert!(matches!(db.prepare(line)?.execute_many([()]), Err(Error::ExecuteReturnedRows)), "{line}");
    }
    let mut explain = db.prepare("EXPLAIN SELECT p.id FROM person p WHERE p.id = ?")?;
    assert!(matches!(explain.execute_many([[1], [2]]), Err(Error::ExecuteReturnedRows)));
    assert!(matches!(explain.execute([1]), Err(Error::ExecuteReturnedRows)));
    for line in ["DELETE person", "BEGIN", "TABLES"] {
        assert!(matches!(db.prepare(line)?.query(()), Err(Error::NotAQuery)), "{line}");
    }
    assert_eq!(rows(&db)?.len(), 2);
    assert!(!db.is_in_transaction());
    Ok(())
}

#[test]
fn no_row() -> Result<()> {
    let db = people()?;
    let find = |id: i64| {
        db.query_row("SELECT p.name FROM person p WHERE p.id = ?", [id], |row| row.get::<String>(0)).optional()
    };
    assert_eq!(find(1)?, Some("Ann".to_owned()));
    assert_eq!(find(3)?, None);
    let error = db.query_row("SHOW nothing", (), |row| row.get::<i64>(0)).optional().unwrap_err();
    assert_eq!(error.number(), Some(23));
    Ok(())
}

#[test]
fn values_of_another_type() -> Result<()> {
    let db = people()?;
    let mut scan = db.prepare("SCAN person")?;
    let row = scan.query(())?.next().unwrap();
    assert!(matches!(row.get::<i64>(2), Err(Error::InvalidColumnIndex(2))));
    assert!(matches!(row.get::<i64>("age"), Err(Error::InvalidColumnName(name)) if name == "age"));
    let error = row.get::<i64>("name").unwrap_err();
    assert_eq!(error.to_string(), "column 1 (name) is TEXT, and another type was requested");
    assert!(matches!(error, Error::InvalidColumnType { index: 1, column } if column.data_type() == Type::Text));
    assert!(
        matches!(row.get::<String>(0), Err(Error::InvalidColumnType { index: 0, column }) if column.name() == "id")
    );
    assert!(matches!(row.get::<&str>(0), Err(Error::InvalidColumnType { .. })));
    assert_eq!(row.get::<Value>(1)?, Value::from("Ann"));
    assert!(row.values::<(i64, i64)>().is_err());
    assert!(matches!(row.values::<(i64, &str, i64)>(), Err(Error::InvalidColumnIndex(2))));
    Ok(())
}

#[test]
fn numbers_out_of_range() -> Result<()> {
    let db = Connection::open()?;
    db.execute("TABLE n (n INT KEY)", ())?;
    db.execute("INSERT n (?)", [u32::MAX])?;
    let mut scan = db.prepare("SCAN n")?;
    let row = scan.query(())?.next().unwrap();
    assert_eq!(row.get::<u32>(0)?, u32::MAX);
    assert_eq!(row.get::<u64>(0)?, u64::from(u32::MAX));
    let error = row.get::<i32>(0).unwrap_err();
    assert!(matches!(error, Error::ValueOutOfRange { index: 0, number: 4294967295, .. }));
    assert_eq!(error.to_string(), "column 0 (n) is 4294967295, which the requested type does not have");
    assert!(matches!(row.get::<bool>(0), Err(Error::ValueOutOfRange { .. })));
    Ok(())
}

#[test]
fn texts_that_are_not_utf_8() -> Result<()> {
    let db = people()?;
    db.execute("INSERT person (?, ?)", params![3, &b"\xff\x00"[..]])?;
    let mut find = db.prepare("SELECT p.name FROM person p WHERE p.id = 3")?;
    let row = find.query(())?.next().unwrap();
    let error = row.get::<String>(0).unwrap_err();
    assert!(matches!(error, Error::NotUtf8 { index: 0, .. }));
    assert_eq!(error.to_string(), "column 0 (name) is not UTF-8");
    assert!(error.source().is_some());
    assert!(
        row.get::<&str>("name").is_err() && row.get::<Box<str>>("name").is_err() && row.get::<char>("name").is_err()
    );
    let value: Value = row.get("name")?;
    assert_eq!((value.as_bytes().unwrap(), value.as_str().is_err()), (&b"\xff\x00"[..], true));
    assert_eq!(format!("{value:?}"), "Text(b\"\\xff\\x00\")");
    assert_eq!(db.execute("INSERT person (4, ?)", [&value])?, 1);
    assert_eq!(row.get::<&[u8]>(0)?, b"\xff\x00");
    assert_eq!(row.get::<Vec<u8>>(0)?, b"\xff\x00");
    Ok(())
}

#[test]
fn a_script_stops_at_its_first_error() -> Result<()> {
    let db = people()?;
    let error =
        db.execute_batch("-- one\n\nINSERT person (3, 'Cat')\r\nINSERT person (1, '')\nDELETE person").unwrap_err();
    assert!(matches!(&error, Error::InLine { line: 4, .. }));
    assert_eq!((error.number(), error.refusal()), (Some(40), Some(Refusal::DuplicateKey)));
    assert_eq!(error.to_string(), "line 4: duplicate key");
    assert_eq!(rows(&db)?.len(), 3);
    Ok(())
}

#[test]
fn commands_of_a_script_extend_over_several_lines() -> Result<()> {
    let db = people()?;
    db.execute_batch(
        "TABLE pet (\r\n  id INT KEY,\n  name TEXT\n)\n\n-- pets\nINSERT\npet\n(1, 'it''s'),\n(2, 'b')\nDELETE pet\nWHERE\n  id = 1\n\
         SELECT p.name\nFROM pet p\nTABLES\nWATCH w\nSELECT p.id FROM pet p\n",
    )?;
    assert_eq!(db.show("w", |row| row.get::<i64>(0))?, [2]);
    assert_eq!(rows(&db)?.len(), 2);
    for (script, line, number) in [
        ("DELETE pet\nWHERE id = 'x'", 1, Some(30)),
        ("\nINSERT pet (3,\n'c'\n-- not here\n)", 2, Some(11)),
        ("INSERT pet (3,\n\n'c')", 1, Some(11)),
        ("SCAN pet\nSCAN pet;\nSCAN pet", 2, Some(11)),
        ("INSERT pet (3, 'c\nd')", 1, Some(11)),
        ("SCAN pet\n\nINSERT pet\n(?, 'c')\nTABLES", 3, None),
        ("TABLES\n)", 2, Some(11)),
        ("SCAN pet\nINSERT pet\n(9, 'c'),\n  (9,\n'd')", 2, Some(40)),
        ("INSERT pet (9223372036854775808, 'c')\n, (4, 'd')\nTABLES", 1, Some(12)),
        ("DELETE pet\nSCAN", 2, Some(11)),
        ("INSERT pet (2, 'b')\nROLLBACK\nTO s", 2, Some(51)),
    ] {
        let error = db.execute_batch(script).unwrap_err();
        assert_eq!(error.number(), number, "{script:?}");
        assert!(matches!(error, Error::InLine { line: found, .. } if found == line), "{script:?}: {error}");
    }
    assert_eq!(db.prepare("SCAN pet")?.query(())?.len(), 1);
    Ok(())
}

#[test]
fn a_command_that_is_too_long_ends_a_script_at_once() -> Result<()> {
    let db = people()?;
    let begin = Instant::now();
    for script in [
        format!("INSERT person\n{}", "(1, 'a'),\n".repeat(100_000)),
        format!("SCAN {}\n{}", "x".repeat(5000), "SCAN person\n".repeat(100_000)),
    ] {
        let error = db.execute_batch(&script).unwrap_err();
        assert_eq!(error.to_string(), "line 1: line too long");
    }
    assert!(begin.elapsed() < Duration::from_secs(10));
    Ok(())
}

#[test]
fn names_are_names() -> Result<()> {
    let db = people()?;
    let query = "SELECT p.id FROM person p";
    let long = "n".repeat(33);
    for name in ["", "a b", " a", "a ", "a\n", "A", "TABLE", "1", "_", "ä", "w SELECT p.name FROM person p --", &long]
    {
        assert_eq!(db.watch(name, query).unwrap_err().number(), Some(11), "{name}");
        assert_eq!(db.unwatch(name).unwrap_err().number(), Some(11), "{name}");
        assert_eq!(db.show(name, |_| Ok(())).unwrap_err().number(), Some(11), "{name}");
    }
    db.watch(&"n".repeat(32), query)?;
    Ok(())
}

#[test]
fn places_of_refusals() -> Result<()> {
    let db = people()?;
    let place = |line: &str| {
        let refusal = db.execute(line, ()).unwrap_err().refusal().unwrap();
        db.place_of_refusal(line, refusal)
    };
    assert_eq!(place("INSERT person 1"), 14);
    assert_eq!(place("INSERT person (9223372036854775808, '')"), 15);
    assert_eq!(place("UPDATE person SET age = 1"), 18);
    assert_eq!(place("INSERT person (1, 'Ann')"), 0);
    Ok(())
}

#[test]
fn errors_go_between_threads() {
    fn is_error<T: std::error::Error + Send + Sync + 'static>() {}
    is_error::<Error>();
    is_error::<mmdb::FromValueError>();
}
