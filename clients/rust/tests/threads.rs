//! A connection moves between threads, and one thread at a time uses it.

use mmdb::{Connection, Error, Result};
use std::sync::mpsc::channel;
use std::sync::{Arc, Mutex};
use std::thread;

fn numbers() -> Result<Connection> {
    let db = Connection::open()?;
    db.execute("TABLE n (n INT KEY)", ())?;
    Ok(db)
}

fn all(db: &Connection) -> Result<Vec<i64>> {
    db.prepare_cached("SCAN n")?.query_map((), |row| row.get(0))?.collect()
}

#[test]
fn one_thread_opens_one_uses_and_one_drops() -> Result<()> {
    let mut db = thread::spawn(numbers).join().unwrap()?;
    for thread in 0..4 {
        // Each thread leaves a statement in the cache and a transaction that was rolled back.
        let used = thread::spawn(move || -> Result<Connection> {
            db.prepare_cached("INSERT n (?)")?.execute([thread])?;
            let transaction = db.transaction()?;
            transaction.execute("DELETE n", ())?;
            drop(transaction);
            assert_eq!(all(&db)?, (0..=thread).collect::<Vec<_>>());
            Ok(db)
        });
        db = used.join().unwrap()?;
    }
    let (sender, receiver) = channel::<Connection>();
    let dropping = thread::spawn(move || drop(receiver.recv().unwrap()));
    assert_eq!(all(&db)?, [0, 1, 2, 3]);
    sender.send(db).unwrap();
    dropping.join().unwrap();
    Ok(())
}

#[test]
fn a_transaction_is_continued_in_another_thread() -> Result<()> {
    let db = numbers()?;
    db.execute_batch("BEGIN\nINSERT n (1)")?;
    let db = thread::spawn(move || {
        assert!(db.is_in_transaction());
        db.execute("INSERT n (2)", ()).unwrap();
        db
    });
    let db = db.join().unwrap();
    db.execute("COMMIT", ())?;
    assert_eq!(all(&db)?, [1, 2]);
    Ok(())
}

#[test]
fn threads_share_a_connection_through_a_mutex() -> Result<()> {
    const THREADS: i64 = 4;
    const ROWS: i64 = 200;
    let db = Arc::new(Mutex::new(numbers()?));
    let threads: Vec<_> = (0..THREADS)
        .map(|thread| {
            let db = db.clone();
            thread::spawn(move || -> Result<()> {
                for row in 0..ROWS {
                    let mut db = db.lock().unwrap();
                    let mut transaction = db.transaction()?;
                    let savepoint = transaction.savepoint("each")?;
                    savepoint.prepare_cached("INSERT n (?)")?.execute([row * THREADS + thread])?;
                    savepoint.commit()?;
                    let twice = transaction.execute("INSERT n (?)", [row * THREADS + thread]);
                    assert_eq!(twice.unwrap_err().number(), Some(40));
                    transaction.commit()?;
                }
                Ok(())
            })
        })
        .collect();
    for thread in threads {
        thread.join().unwrap()?;
    }
    let db = Arc::try_unwrap(db).unwrap().into_inner().unwrap();
    assert_eq!(all(&db)?, (0..THREADS * ROWS).collect::<Vec<_>>());
    Ok(())
}

#[test]
fn scoped_threads_borrow_a_connection_in_turn() -> Result<()> {
    let mut db = numbers()?;
    for number in 0..3 {
        let db = &mut db;
        let add = move || {
            let transaction = db.transaction()?;
            transaction.execute("INSERT n (?)", [number])?;
            transaction.commit()
        };
        thread::scope(|scope| scope.spawn(add).join()).unwrap()?;
    }
    assert_eq!(all(&db)?, [0, 1, 2]);
    Ok(())
}

#[test]
fn a_panic_in_a_thread_rolls_back() -> Result<()> {
    let db = Arc::new(Mutex::new(numbers()?));
    let other = db.clone();
    let panicked = thread::spawn(move || {
        let mut db = other.lock().unwrap();
        let transaction = db.transaction().unwrap();
        transaction.execute("INSERT n (1)", ()).unwrap();
        std::panic::resume_unwind(Box::new("in a transaction"));
    });
    assert!(panicked.join().is_err());
    let db = db.lock().unwrap_err().into_inner();
    assert_eq!((db.is_in_transaction(), all(&db)?), (false, vec![]));
    Ok(())
}

#[test]
fn connections_and_errors_are_send() {
    fn is_send<T: Send>() {}
    fn is_sync<T: Sync>() {}
    is_send::<Connection>();
    is_sync::<Mutex<Connection>>();
    is_send::<Error>();
    is_sync::<Error>();
}
