//! Transactions and savepoints: what stays, and what is undone when they are dropped.

use mmdb::{Connection, Error, Refusal, Result, Savepoint};

fn numbers() -> Result<Connection> {
    let db = Connection::open()?;
    db.execute("TABLE n (n INT KEY)", ())?;
    Ok(db)
}

fn add(db: &Connection, number: i64) -> Result<usize> {
    db.prepare_cached("INSERT n (?)")?.execute([number])
}

fn all(db: &Connection) -> Result<Vec<i64>> {
    db.prepare_cached("SCAN n")?.query_map((), |row| row.get(0))?.collect()
}

#[test]
fn commit_keeps_and_rollback_undoes() -> Result<()> {
    let mut db = numbers()?;
    let transaction = db.transaction()?;
    assert!(transaction.is_in_transaction());
    add(&transaction, 1)?;
    transaction.commit()?;
    assert!(!db.is_in_transaction());

    let transaction = db.transaction()?;
    add(&transaction, 2)?;
    assert_eq!(all(&transaction)?, [1, 2]);
    transaction.rollback()?;
    assert_eq!(all(&db)?, [1]);
    Ok(())
}

#[test]
fn a_dropped_transaction_is_rolled_back() -> Result<()> {
    fn two_of_one(db: &mut Connection) -> Result<()> {
        let transaction = db.transaction()?;
        add(&transaction, 1)?;
        add(&transaction, 1)?;
        transaction.commit()
    }
    let mut db = numbers()?;
    assert_eq!(two_of_one(&mut db).unwrap_err().number(), Some(40));
    assert!(!db.is_in_transaction());
    assert_eq!(all(&db)?, []);
    Ok(())
}

#[test]
fn a_panic_rolls_back() -> Result<()> {
    let mut db = numbers()?;
    let caught = std::panic::catch_unwind(std::panic::AssertUnwindSafe(|| {
        let transaction = db.transaction().unwrap();
        add(&transaction, 1).unwrap();
        panic!("in a transaction");
    }));
    assert!(caught.is_err());
    assert_eq!((all(&db)?, db.is_in_transaction()), (vec![], false));
    Ok(())
}

#[test]
fn a_refused_command_leaves_the_transaction_open() -> Result<()> {
    let mut db = numbers()?;
    let transaction = db.transaction()?;
    add(&transaction, 1)?;
    assert_eq!(add(&transaction, 1).unwrap_err().number(), Some(40));
    assert_eq!(transaction.execute("TABLE t (id INT KEY)", ()).unwrap_err().number(), Some(52));
    assert_eq!(transaction.unchecked_transaction().unwrap_err().number(), Some(50));
    add(&transaction, 2)?;
    transaction.commit()?;
    assert_eq!(all(&db)?, [1, 2]);
    Ok(())
}

#[test]
fn a_transaction_that_a_line_ended() -> Result<()> {
    let mut db = numbers()?;
    let transaction = db.transaction()?;
    add(&transaction, 1)?;
    transaction.execute("COMMIT", ())?;
    assert!(matches!(transaction.commit(), Err(Error::Refused(Refusal::NoTransaction))));
    let transaction = db.transaction()?;
    transaction.execute("ROLLBACK", ())?;
    drop(transaction);
    assert_eq!(all(&db)?, [1]);
    Ok(())
}

#[test]
fn statements_prepared_before_an_unchecked_transaction() -> Result<()> {
    let db = numbers()?;
    let mut insert = db.prepare("INSERT n (?)")?;
    let transaction = db.unchecked_transaction()?;
    insert.execute([1])?;
    transaction.rollback()?;
    insert.execute([2])?;
    assert_eq!(all(&db)?, [2]);
    Ok(())
}

#[test]
fn savepoints_are_gone_back_to_unless_committed() -> Result<()> {
    let mut db = numbers()?;
    let mut transaction = db.transaction()?;
    add(&transaction, 1)?;
    let savepoint = transaction.savepoint("s")?;
    add(&savepoint, 2)?;
    drop(savepoint);
    assert_eq!(all(&transaction)?, [1]);
    let savepoint = transaction.savepoint("s")?;
    assert_eq!(savepoint.name(), "s");
    add(&savepoint, 3)?;
    savepoint.commit()?;
    transaction.commit()?;
    assert_eq!(all(&db)?, [1, 3]);
    Ok(())
}

#[test]
fn savepoints_nest() -> Result<()> {
    let mut db = numbers()?;
    let mut transaction = db.transaction()?;
    let mut outer = transaction.savepoint("outer")?;
    add(&outer, 1)?;
    let mut middle = outer.savepoint("middle")?;
    add(&middle, 2)?;
    let inner = middle.savepoint("inner")?;
    add(&inner, 3)?;
    inner.commit()?;
    middle.rollback()?;
    assert_eq!(all(&middle)?, [1]);
    add(&middle, 4)?;
    middle.commit()?;
    assert_eq!(all(&outer)?, [1, 4]);
    drop(outer);
    transaction.commit()?;
    assert_eq!(all(&db)?, []);
    Ok(())
}

#[test]
fn savepoints_of_one_name_nest() -> Result<()> {
    let mut db = numbers()?;
    let mut transaction = db.transaction()?;
    let mut outer = transaction.savepoint("s")?;
    add(&outer, 1)?;
    let mut inner = outer.savepoint("s")?;
    add(&inner, 2)?;
    inner.savepoint("s")?.commit()?;
    add(&inner, 3)?;
    inner.rollback()?;
    assert_eq!(all(&inner)?, [1]);
    add(&inner, 4)?;
    inner.commit()?;
    let inner = outer.savepoint("s")?;
    add(&inner, 5)?;
    drop(inner);
    assert_eq!(all(&outer)?, [1, 4]);
    drop(outer);
    assert_eq!(all(&transaction)?, []);
    assert!(matches!(transaction.savepoint("S"), Err(Error::Refused(Refusal::Syntax))));
    assert!(matches!(transaction.savepoint("s t"), Err(Error::Refused(Refusal::Syntax))));
    transaction.commit()
}

#[test]
fn a_savepoint_that_was_committed_hides_none_around_it() -> Result<()> {
    let mut db = numbers()?;
    let mut transaction = db.transaction()?;
    transaction.savepoint("a")?.commit()?;
    add(&transaction, 1)?;
    let mut outer = transaction.savepoint("a")?;
    add(&outer, 2)?;
    outer.savepoint("b")?.commit()?;
    add(&outer, 3)?;
    drop(outer);
    assert_eq!(all(&transaction)?, [1]);
    Ok(())
}

#[test]
fn a_transaction_has_any_number_of_savepoints_in_a_row() -> Result<()> {
    let mut db = numbers()?;
    let mut transaction = db.transaction()?;
    for number in 0..1000 {
        let savepoint = transaction.savepoint("each")?;
        add(&savepoint, number)?;
        match number % 3 {
            0 => savepoint.commit()?,
            1 => drop(savepoint),
            _ => savepoint.execute("ROLLBACK TO each", ()).map(|_| ())?,
        }
    }
    transaction.commit()?;
    assert_eq!(all(&db)?, (0..1000).step_by(3).collect::<Vec<_>>());
    Ok(())
}

#[test]
fn a_transaction_has_64_savepoints_at_a_time() -> Result<()> {
    fn nested(savepoint: &mut Savepoint<'_>, depth: usize) -> Result<usize> {
        match savepoint.savepoint("s") {
            Ok(mut inner) => {
                let deepest = nested(&mut inner, depth + 1)?;
                inner.commit()?;
                Ok(deepest)
            }
            Err(Error::Refused(Refusal::TooMany)) => Ok(depth),
            Err(error) => Err(error),
        }
    }
    let mut db = numbers()?;
    let mut transaction = db.transaction()?;
    let mut outermost = transaction.savepoint("s")?;
    add(&outermost, 1)?;
    assert_eq!((nested(&mut outermost, 1)?, nested(&mut outermost, 1)?), (64, 64));
    outermost.commit()?;
    transaction.commit()?;
    assert_eq!(all(&db)?, [1]);
    Ok(())
}

#[test]
fn a_leaked_savepoint_ends_with_its_transaction() -> Result<()> {
    let mut db = numbers()?;
    let mut transaction = db.transaction()?;
    std::mem::forget(transaction.savepoint("s")?);
    transaction.commit()?;
    let mut transaction = db.transaction()?;
    transaction.savepoint("s")?.commit()?;
    assert_eq!(transaction.execute("ROLLBACK TO s", ()).unwrap_err().number(), Some(53));
    transaction.commit()
}

#[test]
fn lines_use_the_savepoints_of_the_calls() -> Result<()> {
    let mut db = numbers()?;
    let mut transaction = db.transaction()?;
    let mut outer = transaction.savepoint("outer")?;
    add(&outer, 1)?;
    let mut inner = outer.savepoint("inner")?;
    add(&inner, 2)?;
    inner.execute("ROLLBACK TO outer", ())?;
    // That dropped the inner one, and its calls say so.
    assert_eq!(inner.rollback().unwrap_err().number(), Some(53));
    add(&inner, 3)?;
    assert_eq!(inner.commit().unwrap_err().number(), Some(53));
    assert_eq!(all(&outer)?, [3]);
    outer.commit()?;
    transaction.commit()?;
    assert_eq!(all(&db)?, [3]);
    Ok(())
}

#[test]
fn a_savepoint_that_a_line_dropped_leaves_an_earlier_one_of_its_name_alone() -> Result<()> {
    for ends_by_drop in [false, true] {
        let mut db = numbers()?;
        let mut transaction = db.transaction()?;
        let mut outer = transaction.savepoint("a")?;
        add(&outer, 1)?;
        let mut middle = outer.savepoint("b")?;
        let mut inner = middle.savepoint("a")?;
        add(&inner, 2)?;
        inner.execute("ROLLBACK TO b", ())?;
        add(&inner, 3)?;
        assert_eq!(inner.rollback().unwrap_err().number(), Some(53));
        if ends_by_drop {
            drop(inner);
        } else {
            assert_eq!(inner.commit().unwrap_err().number(), Some(53));
        }
        assert_eq!(all(&middle)?, [1, 3]);
        middle.commit()?;
        assert_eq!(all(&outer)?, [1, 3]);
        outer.rollback()?;
        outer.commit()?;
        transaction.commit()?;
        assert_eq!(all(&db)?, []);
    }
    Ok(())
}

#[test]
fn calls_mean_their_own_savepoint_and_lines_the_latest_one() -> Result<()> {
    let mut db = numbers()?;
    let mut transaction = db.transaction()?;
    let mut savepoint = transaction.savepoint("s")?;
    add(&savepoint, 1)?;
    savepoint.execute("SAVEPOINT s", ())?;
    add(&savepoint, 2)?;
    savepoint.execute("ROLLBACK TO s", ())?;
    assert_eq!(all(&savepoint)?, [1]);
    savepoint.execute_batch("SAVEPOINT s\nSAVEPOINT t\nSAVEPOINT s")?;
    savepoint.rollback()?;
    assert_eq!(all(&savepoint)?, []);
    add(&savepoint, 3)?;
    savepoint.prepare("SAVEPOINT s")?.execute(())?;
    savepoint.commit()?;
    assert_eq!(transaction.execute("ROLLBACK TO s", ()).unwrap_err().number(), Some(53));
    transaction.commit()?;
    assert_eq!(all(&db)?, [3]);
    Ok(())
}

#[test]
fn a_transaction_that_a_line_ended_leaves_the_next_one_alone() -> Result<()> {
    for end in ["COMMIT", "ROLLBACK"] {
        let db = numbers()?;
        let mut first = db.unchecked_transaction()?;
        let mut savepoint = first.savepoint("s")?;
        db.execute(end, ())?;
        let mut second = db.unchecked_transaction()?;
        add(&db, 1)?;
        std::mem::forget(second.savepoint("s")?);
        add(&db, 2)?;
        assert_eq!(savepoint.rollback().unwrap_err().number(), Some(51));
        assert_eq!(savepoint.savepoint("t").unwrap_err().number(), Some(51));
        drop(savepoint);
        assert_eq!(first.savepoint("s").unwrap_err().number(), Some(51));
        drop(first);
        assert!(db.is_in_transaction());
        second.commit()?;
        assert_eq!(all(&db)?, [1, 2]);
    }
    Ok(())
}

#[test]
fn a_prepared_line_and_a_script_can_end_a_transaction_too() -> Result<()> {
    let db = numbers()?;
    let mut commit = db.prepare("COMMIT")?;
    for by_script in [false, true] {
        let first = db.unchecked_transaction()?;
        if by_script {
            db.execute_batch("COMMIT\nBEGIN")?;
        } else {
            commit.execute_many([()])?;
            db.execute("BEGIN", ())?;
        }
        add(&db, i64::from(by_script))?;
        assert_eq!(first.rollback().unwrap_err().number(), Some(51));
        commit.execute(())?;
    }
    assert_eq!(all(&db)?, [0, 1]);
    Ok(())
}
