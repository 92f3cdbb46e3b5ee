//! Appending rows that are passed as columns.

use mmdb::{ColumnData, Connection, Error, Refusal, Result};

const TABLES: &str =
    "TABLE t (id INT KEY, k INT, s TEXT)\nTABLE u (s TEXT KEY, r INT REF t)\nINDEX by_k ON t (k) TREE\n\
    WATCH w SELECT a.id FROM t a WHERE a.k > 5\nINSERT t (1, 5, 'a'), (2, 6, 'b')";

fn opened() -> Connection {
    let db = Connection::open().unwrap();
    db.load(TABLES).unwrap();
    db
}

fn dumped(db: &Connection) -> Vec<u8> {
    let mut script = Vec::new();
    db.dump(&mut script).unwrap();
    script
}

/// Offsets and bytes of texts.
fn texts(texts: &[&str]) -> (Vec<u32>, Vec<u8>) {
    let mut offsets = vec![0];
    let mut bytes = Vec::new();
    for text in texts {
        bytes.extend_from_slice(text.as_bytes());
        offsets.push(bytes.len() as u32);
    }
    (offsets, bytes)
}

fn number(result: Result<usize>) -> u8 {
    result.unwrap_err().number().unwrap()
}

#[test]
fn rows_are_those_of_the_insert_line() {
    let (db, lines) = (opened(), opened());
    let (offsets, bytes) = texts(&["", "it's", "é", &"z".repeat(64)]);
    let columns = [
        ColumnData::Int(&[7, i64::MIN, 3, i64::MAX]),
        ColumnData::Int(&[9, -1, 6, 5]),
        ColumnData::Text { offsets: &offsets, bytes: &bytes },
    ];
    assert_eq!(db.append("t", &columns).unwrap(), 4);
    let text = "z".repeat(64);
    let line = format!("INSERT t (7, 9, ''), ({}, -1, 'it''s'), (3, 6, 'é'), ({}, 5, '{text}')", i64::MIN, i64::MAX);
    assert_eq!(lines.execute(&line, ()).unwrap(), 4);
    assert_eq!(dumped(&db), dumped(&lines));
    assert_eq!(db.show("w", |row| row.get::<i64>(0)).unwrap(), [2, 3, 7]);
    // A part of the offsets, and the foreign key of the rows that are there now.
    let part = ColumnData::Text { offsets: &offsets[1..3], bytes: &bytes };
    assert_eq!(db.append("u", &[part, ColumnData::Int(&[7])]).unwrap(), 1);
    assert_eq!(db.query_row("SCAN u", (), |row| row.get::<String>(0)).unwrap(), "it's");
    assert_eq!(db.append("u", &[ColumnData::Int(&[]), ColumnData::Text { offsets: &[4], bytes: &bytes }]).unwrap(), 0);
    assert_eq!(db.append("u", &[]).unwrap(), 0);
}

#[test]
fn a_refused_append_inserts_no_row() {
    let mut db = opened();
    let before = dumped(&db);
    let (offsets, bytes) = texts(&["x", "y", "z"]);
    let strings = ColumnData::Text { offsets: &offsets, bytes: &bytes };
    let numbers = ColumnData::Int(&[5, 6, 7]);
    let (long_offsets, long_bytes) = texts(&["x", &"y".repeat(65), "z"]);
    let long = ColumnData::Text { offsets: &long_offsets, bytes: &long_bytes };
    let (broken_offsets, broken_bytes) = texts(&["x", "y", "z\n"]);
    let broken = ColumnData::Text { offsets: &broken_offsets, bytes: &broken_bytes };
    let taken = ColumnData::Int(&[5, 6, 1]);
    let transaction = db.transaction().unwrap();
    for (table, columns, refusal) in [
        ("nothing", vec![numbers, numbers, strings], Refusal::NoSuchTable),
        ("t", vec![numbers, numbers], Refusal::WrongNumberOfValues),
        ("t", vec![numbers, numbers, strings, numbers], Refusal::WrongNumberOfValues),
        ("t", vec![numbers, strings, strings], Refusal::TypeMismatch),
        ("t", vec![taken, numbers, strings], Refusal::DuplicateKey),
        ("u", vec![strings, numbers], Refusal::NoTargetRow),
        ("t", vec![numbers, numbers, long], Refusal::TextTooLong),
        ("t", vec![numbers, numbers, broken], Refusal::Syntax),
        ("nothing", vec![broken, long], Refusal::TextTooLong),
        ("T", vec![numbers, numbers, strings], Refusal::Syntax),
        ("", vec![], Refusal::Syntax),
    ] {
        assert_eq!(number(transaction.append(table, &columns)), refusal.number(), "{table} {columns:?}");
        assert_eq!(dumped(&transaction), before, "{table} {columns:?}");
    }
    assert_eq!(transaction.append("t", &[numbers, numbers, strings]).unwrap(), 3);
    transaction.rollback().unwrap();
    assert_eq!(dumped(&db), before);
}

#[test]
fn arrays_that_are_no_columns_do_nothing() {
    let db = opened();
    let before = dumped(&db);
    let numbers = ColumnData::Int(&[5, 6]);
    let strings = ColumnData::Text { offsets: &[0, 1, 2], bytes: b"xy" };
    for columns in [
        [numbers, ColumnData::Int(&[5]), strings],
        [numbers, numbers, ColumnData::Text { offsets: &[0, 1], bytes: b"xy" }],
        [numbers, numbers, ColumnData::Text { offsets: &[], bytes: b"xy" }],
        [numbers, numbers, ColumnData::Text { offsets: &[0, 1, 3], bytes: b"xy" }],
        [numbers, numbers, ColumnData::Text { offsets: &[1, 0, 2], bytes: b"xy" }],
        [numbers, numbers, ColumnData::Text { offsets: &[0, u32::MAX, 2], bytes: b"xy" }],
    ] {
        let error = db.append("t", &columns).unwrap_err();
        assert!(matches!(error, Error::NotColumns), "{columns:?}: {error:?}");
        assert_eq!(dumped(&db), before);
    }
    assert_eq!(db.append("t", &[numbers, numbers, strings]).unwrap(), 2);
}

#[test]
fn as_many_rows_as_a_table_may_have_are_one_call() {
    let db = Connection::open().unwrap();
    db.execute("TABLE t (id INT KEY)", ()).unwrap();
    let keys: Vec<i64> = (0..=1 << 20).rev().collect();
    assert_eq!(number(db.append("t", &[ColumnData::Int(&keys)])), Refusal::TableFull.number());
    assert_eq!(db.append("t", &[ColumnData::Int(&keys[1..])]).unwrap(), 1 << 20);
    let mut statement = db.prepare("SCAN t").unwrap();
    let rows = statement.query(()).unwrap();
    assert!(rows.map(|row| row.get::<i64>(0).unwrap()).eq(0..1 << 20));
}
