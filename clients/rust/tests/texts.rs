//! Values come back as they went in.

use mmdb::{params, Connection, Error, Result, ToValue, Value, ValueRef};
use std::borrow::Cow;
use std::rc::Rc;
use std::sync::Arc;

fn values() -> Result<Connection> {
    let db = Connection::open()?;
    db.execute_batch("TABLE t (s TEXT KEY)\nTABLE n (n INT KEY)")?;
    Ok(db)
}

#[test]
fn texts() -> Result<()> {
    let db = values()?;
    let longest = "ü".repeat(32);
    let texts = [
        "",
        " ",
        "it's",
        "''",
        "?",
        "-- no",
        "a\tb",
        "a\rb",
        "a\0b",
        "日本語",
        "🦀",
        "Ångström",
        "\u{10ffff}",
        &longest,
    ];
    let mut insert = db.prepare("INSERT t (?)")?;
    let mut find = db.prepare("SELECT a.s FROM t a WHERE a.s = ?")?;
    for text in texts {
        insert.execute([text])?;
        assert_eq!(find.query_row([text], |row| row.get::<String>(0))?, text);
    }
    let mut sorted = texts;
    sorted.sort_unstable();
    let mut scan = db.prepare("SCAN t")?;
    let found: Vec<&str> = scan.query_map((), |row| row.get(0))?.collect::<Result<_>>()?;
    assert_eq!(found, sorted);
    Ok(())
}

#[test]
fn a_value_is_never_a_part_of_the_line() -> Result<()> {
    let db = values()?;
    let text = "'), ('x";
    db.execute("INSERT t (?)", [text])?;
    assert_eq!(db.query_row("SCAN t", (), |row| row.get::<String>(0))?, text);
    assert_eq!(db.execute("INSERT t ('?')", ())?, 1);
    assert_eq!(db.prepare("INSERT t ('?')")?.parameter_count(), 0);
    Ok(())
}

#[test]
fn limits_of_texts_are_in_bytes() -> Result<()> {
    let db = values()?;
    db.execute("INSERT t (?)", ["é".repeat(32)])?;
    assert!(db.execute("INSERT t (?)", ["é".repeat(33)]).is_err());
    assert_eq!(db.prepare("SCAN t")?.query(())?.len(), 1);
    Ok(())
}

#[test]
fn numbers() -> Result<()> {
    let db = values()?;
    let numbers = [i64::MIN, -1, 0, 1, i64::MAX];
    db.prepare("INSERT n (?)")?.execute_many(numbers.map(|n| [n]))?;
    let found: Vec<i64> = db.prepare("SCAN n")?.query_map((), |row| row.get(0))?.collect::<Result<_>>()?;
    assert_eq!(found, numbers);
    Ok(())
}

#[test]
fn types_of_rust() -> Result<()> {
    fn of(value: &dyn ToValue) -> Result<Value> {
        Connection::open().and_then(|db| {
            let column = match value.to_value()?.as_value() {
                ValueRef::Int(_) => "INT",
                ValueRef::Text(_) => "TEXT",
            };
            db.execute(&format!("TABLE t (v {column} KEY)"), ())?;
            db.execute("INSERT t (?)", params![value])?;
            db.query_row("SCAN t", (), |row| row.get(0))
        })
    }
    for (value, number) in [
        (&1_i8 as &dyn ToValue, 1),
        (&-2_i16, -2),
        (&3_i32, 3),
        (&i64::MIN, i64::MIN),
        (&4_isize, 4),
        (&u8::MAX, 255),
        (&u32::MAX, 4294967295),
        (&5_u64, 5),
        (&6_usize, 6),
        (&true, 1),
        (&Value::Int(7), 7),
        (&ValueRef::Int(8), 8),
    ] {
        assert_eq!(of(value)?, Value::Int(number));
    }
    let (owned, bytes) = (String::from("a"), b"a".to_vec());
    for value in [
        &"a" as &dyn ToValue,
        &owned,
        &bytes,
        &&*bytes,
        b"a",
        &'a',
        &Box::<str>::from("a"),
        &Rc::<str>::from("a"),
        &Arc::<str>::from("a"),
        &Box::<[u8]>::from(&b"a"[..]),
        &Rc::new(owned.clone()),
        &Value::from("a"),
        &Value::from(bytes.clone()),
        &ValueRef::from("a"),
        &Cow::from("a"),
        &Cow::<str>::from(owned.clone()),
        &Cow::<[u8]>::from(&b"a"[..]),
    ] {
        assert_eq!(of(value)?, Value::from("a"));
    }
    assert_eq!(of(&Box::new(7))?, Value::Int(7));
    for character in ['a', 'é', '日', '🦀', '\0'] {
        assert_eq!(of(&character)?, Value::from(character.to_string()));
    }
    for value in [&u64::MAX as &dyn ToValue, &(i64::MAX as u64 + 1), &(i128::from(i64::MIN) - 1), &usize::MAX] {
        assert!(matches!(value.to_value(), Err(Error::NumberOutOfRange)));
    }
    Ok(())
}

#[test]
fn texts_as_types_of_rust() -> Result<()> {
    let db = values()?;
    db.execute("INSERT t ('é')", ())?;
    let mut scan = db.prepare("SCAN t")?;
    let row = scan.query(())?.next().unwrap();
    let name = String::from("s");
    assert_eq!((row.get::<&str>(&name)?, row.get::<&str>(name.clone())?, row.get::<&str>(&0)?), ("é", "é", "é"));
    assert!(matches!(row.get::<&str>(&String::from("x")), Err(Error::InvalidColumnName(name)) if name == "x"));
    assert_eq!(&*row.get::<Box<str>>(0)?, "é");
    assert_eq!(&*row.get::<Rc<str>>(0)?, "é");
    assert_eq!(&*row.get::<Arc<str>>(0)?, "é");
    assert!(matches!(row.get::<Cow<'_, str>>(0)?, Cow::Borrowed("é")));
    let bytes = "é".as_bytes();
    assert_eq!(&*row.get::<Box<[u8]>>(0)?, bytes);
    assert_eq!(&*row.get::<Rc<[u8]>>(0)?, bytes);
    assert_eq!(&*row.get::<Arc<[u8]>>(0)?, bytes);
    assert!(matches!(row.get::<Cow<'_, [u8]>>(0)?, Cow::Borrowed(found) if found == bytes));
    assert_eq!((row.get::<[u8; 2]>(0)?, row.get::<char>(0)?), ([0xc3, 0xa9], 'é'));
    let error = row.get::<[u8; 3]>(0).unwrap_err();
    assert!(matches!(error, Error::WrongLength { index: 0, found: 2, wanted: 3, .. }));
    assert_eq!(error.to_string(), "column 0 (s) has length 2, and the requested type has length 3");
    assert!(matches!(row.get::<i64>(0), Err(Error::InvalidColumnType { .. })));
    db.execute("UPDATE t SET s = 'ab'", ())?;
    let error = db.query_row("SCAN t", (), |row| row.get::<char>(0)).unwrap_err();
    assert!(matches!(error, Error::WrongLength { found: 2, wanted: 1, .. }));
    Ok(())
}

#[test]
fn errors_of_another_type() -> Result<()> {
    let db = values()?;
    db.execute("INSERT n (1), (2)", ())?;
    let mut scan = db.prepare("SCAN n")?;
    let rows = scan.query_and_then((), |row| match row.get::<i64>(0) {
        Ok(1) => Ok(1),
        number => Err(format!("{number:?}")),
    })?;
    assert_eq!(rows.len(), 2);
    assert_eq!(rows.collect::<Vec<_>>(), [Ok(1), Err("Ok(2)".to_owned())]);
    Ok(())
}

#[test]
fn truth_is_a_number() -> Result<()> {
    let db = values()?;
    db.prepare("INSERT n (?)")?.execute_many([[true], [false]])?;
    let found: Vec<bool> = db.prepare("SCAN n")?.query_map((), |row| row.get(0))?.collect::<Result<_>>()?;
    assert_eq!(found, [false, true]);
    Ok(())
}

#[test]
fn values_are_ordered_as_the_database_orders_them() {
    assert!(Value::from("10") < Value::from("9") && Value::from(9) < Value::from(10));
    assert!(Value::from("z") < Value::from("é") && Value::from("é") < Value::from(vec![0xff]));
}
