//! The look-up by key and the INSERT of work.h in Rust: client ROWS CALLS. Prints three processor times in nanoseconds: of a look-up, per row
//! of one `execute_many`, and of one `execute` per row. The inserts of each kind are in one transaction.

use mmdb::{Connection, Result};

#[repr(C)]
struct Time {
    seconds: i64,
    nanoseconds: i64,
}

extern "C" {
    fn clock_gettime(clock: i32, time: *mut Time) -> i32;
}

/// Returns the processor time of the process in nanoseconds.
fn processor_time() -> i64 {
    const CLOCK_PROCESS_CPUTIME_ID: i32 = 2;
    let mut time = Time { seconds: 0, nanoseconds: 0 };
    unsafe { clock_gettime(CLOCK_PROCESS_CPUTIME_ID, &mut time) };
    time.seconds * 1_000_000_000 + time.nanoseconds
}

fn row_of(key: i64) -> (i64, i64, i64, i64) {
    (key, 3 * key, key, key)
}

fn main() -> Result<()> {
    let numbers: Vec<i64> = std::env::args().skip(1).map(|word| word.parse().expect("a number")).collect();
    let (rows, calls) = (numbers[0], numbers[1]);
    let mut db = Connection::open()?;
    db.execute_batch("TABLE t (k INT KEY, h INT, r INT, v INT, w TEXT)\nINDEX th ON t (h) HASH\nINDEX tr ON t (r) TREE")?;
    let mixed = |i: i64| (i * 7919 + 12345) % rows;
    let transaction = db.transaction()?;
    transaction.prepare("INSERT t (?, ?, ?, ?, 'text')")?.execute_many((0..rows).map(|i| row_of(mixed(i))))?;
    transaction.commit()?;

    let mut find = db.prepare("SELECT a.v, a.w FROM t a WHERE a.k = ?")?;
    let before = processor_time();
    for i in 0..calls {
        let key = mixed(i);
        let (v, w): (i64, String) = find.query_row([key], |row| row.values())?;
        assert!(v == key && w == "text");
    }
    let found = processor_time() - before;
    drop(find);

    let before = processor_time();
    let transaction = db.transaction()?;
    transaction.prepare("INSERT t (?, ?, ?, ?, 'text')")?.execute_many((rows..rows + calls).map(row_of))?;
    transaction.commit()?;
    let many = processor_time() - before;

    let before = processor_time();
    let transaction = db.transaction()?;
    {
        let mut insert = transaction.prepare("INSERT t (?, ?, ?, ?, 'text')")?;
        for key in rows + calls..rows + 2 * calls {
            insert.execute(row_of(key))?;
        }
    }
    transaction.commit()?;
    let one = processor_time() - before;
    println!("{} {} {}", found as f64 / calls as f64, many as f64 / calls as f64, one as f64 / calls as f64);
    Ok(())
}
