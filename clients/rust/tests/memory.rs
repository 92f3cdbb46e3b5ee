//! Each growth of memory in a call, of this crate or of libmmdb, is refused once: the call returns `Refused(Memory)`, everything is as
//! before, the same call then succeeds, and nothing leaks.
//!
//! The test compiles tests/refuse.c, preloads it into a second process of this program, and is that test there. A growth of the allocator
//! that nobody can refuse (Rust's `to_owned`, `format!` or `collect`) ends that process.

use mmdb::{ColumnData, Connection, DefinitionKind, Error, Refusal, Result, Row, Value};
use std::ffi::{c_void, CStr};
use std::io::{self, Write};
use std::os::raw::{c_char, c_long, c_ulong};
use std::path::Path;
use std::process::Command;

const TEST: &str = "each_growth_of_memory_is_refused_once";
const PRELOADED: &str = "MMDB_TEST_IS_PRELOADED";

#[test]
fn each_growth_of_memory_is_refused_once() {
    if std::env::var_os(PRELOADED).is_some() {
        refuse_each_growth();
        return;
    }
    let library = Path::new(env!("CARGO_TARGET_TMPDIR")).join("refuse.so");
    let source = Path::new(env!("CARGO_MANIFEST_DIR")).join("tests/refuse.c");
    let compiler = std::env::var_os("CC").unwrap_or_else(|| "cc".into());
    let compiled = Command::new(compiler).args(["-shared", "-fPIC", "-O2", "-o"]).arg(&library).arg(source).status();
    assert!(compiled.expect("a C compiler").success());
    let output = Command::new(std::env::current_exe().unwrap())
        .args(["--exact", TEST, "--nocapture", "--test-threads=1"])
        .envs([("LD_PRELOAD", library.as_os_str()), (PRELOADED, "1".as_ref())])
        .output()
        .unwrap();
    let told = String::from_utf8_lossy(&output.stdout);
    assert!(output.status.success(), "{told}{}", String::from_utf8_lossy(&output.stderr));
    // A run without the preloaded library would refuse nothing.
    assert!(told.contains("growths were refused"), "{told}");
}

/// The functions of refuse.c.
#[derive(Clone, Copy)]
struct Refusing {
    refuse_growth: extern "C" fn(c_ulong),
    growths: extern "C" fn() -> c_ulong,
    live_blocks: extern "C" fn() -> c_long,
}

impl Refusing {
    fn new() -> Refusing {
        extern "C" {
            fn dlsym(handle: *mut c_void, name: *const c_char) -> *mut c_void;
        }
        let find = |name: &[u8]| {
            let name = CStr::from_bytes_with_nul(name).unwrap();
            // SAFETY: A null handle means all libraries of the process, and the name ends in a zero byte.
            let found = unsafe { dlsym(std::ptr::null_mut(), name.as_ptr()) };
            assert!(!found.is_null(), "refuse.c is not preloaded");
            found
        };
        // SAFETY: These are the types of the functions of refuse.c.
        unsafe {
            Refusing {
                refuse_growth: std::mem::transmute::<*mut c_void, extern "C" fn(c_ulong)>(find(b"refuse_growth\0")),
                growths: std::mem::transmute::<*mut c_void, extern "C" fn() -> c_ulong>(find(b"growths\0")),
                live_blocks: std::mem::transmute::<*mut c_void, extern "C" fn() -> c_long>(find(b"live_blocks\0")),
            }
        }
    }
}

/// Calls during which each growth is refused. They return numbers, since they must not allocate on their own.
struct Step {
    name: &'static str,
    calls: fn(&mut Connection) -> Result<usize>,
}

const STEPS: &[Step] = &[
    Step { name: "open", calls: |_| Connection::open().map(|db| usize::from(db.is_in_transaction())) },
    Step { name: "execute", calls: |db| db.execute("INSERT t (1, 'one'), (2, 'two')", ()) },
    Step { name: "execute with values", calls: |db| db.execute("INSERT t (?, ?)", (1, TEXT)) },
    Step { name: "several lines", calls: |db| db.execute("INSERT t\n(?,\n'x')", [1]) },
    Step { name: "a refused line", calls: |db| number(db.execute("INSERT t (1", ())) },
    Step { name: "a line without values", calls: |db| is_count(db.execute("INSERT t (?, ?)", ())) },
    Step { name: "prepare", calls: |db| Ok(db.prepare("INSERT t (?, ?), (?, ?)")?.parameter_count()) },
    Step { name: "query", calls: |db| length(db.prepare("SCAN small")?.query(())?) },
    Step { name: "query of many rows", calls: |db| length(db.prepare("SCAN large")?.query(())?) },
    Step { name: "cached query of many rows", calls: cached_query },
    Step { name: "query_row", calls: |db| db.query_row("SCAN small", (), |row| Ok(row.get::<&str>(1)?.len())) },
    Step { name: "cache", calls: |db| Ok(db.prepare_cached("SCAN small")?.line().len()) },
    Step { name: "owned values", calls: owned_values },
    Step { name: "names of columns", calls: names_of_columns },
    Step { name: "execute_many", calls: execute_many },
    Step { name: "a failed execute_many", calls: failed_execute_many },
    Step { name: "a failed script", calls: failed_script },
    Step { name: "watch", calls: |db| db.watch("w", "SELECT a.s\nFROM small a").and(Ok(1)) },
    Step { name: "unwatch", calls: |db| db.unwatch("all").and(Ok(1)) },
    Step { name: "show", calls: |db| Ok(db.show("all", |row| row.get::<String>(0))?.len()) },
    Step { name: "plan", calls: |db| Ok(db.explain("SELECT a.s FROM small a, small b WHERE a.n = b.n")?.len()) },
    Step { name: "plan of a statement", calls: plan_of_statement },
    Step { name: "tables", calls: |db| Ok(db.tables()?.len()) },
    Step { name: "dump", calls: dump },
    Step { name: "definition", calls: |db| Ok(db.definition(DefinitionKind::StandingQuery, "all")?.len()) },
    Step { name: "load", calls: load },
    Step { name: "append", calls: |db| append(db, 99) },
    Step { name: "a refused append", calls: |db| number(append(db, 0)) },
    Step {
        name: "columns",
        calls: |db| Ok(db.columns("SCAN\nsmall")?.len() + db.prepare("SCAN large")?.column_names()?.len()),
    },
    Step { name: "transaction", calls: transaction },
    Step { name: "savepoints", calls: savepoints },
];

const TEXT: &str = "a text of sixty-four bytes, which is the longest text of mmdb...";
const LARGE: usize = 3000;

/// The number of a refusal that the step expects.
fn number(result: Result<usize>) -> Result<usize> {
    match result {
        Err(Error::Refused(refusal)) if refusal.number() != 90 => Ok(usize::from(refusal.number())),
        result => result,
    }
}

fn is_count(result: Result<usize>) -> Result<usize> {
    match result {
        Err(Error::WrongParameterCount { wanted, .. }) => Ok(wanted),
        result => result,
    }
}

/// The bytes of all texts, and the rows.
fn length(rows: mmdb::Rows<'_>) -> Result<usize> {
    rows.map(|row| Ok(1 + row.get::<&str>(1)?.len())).sum()
}

fn cached_query(db: &mut Connection) -> Result<usize> {
    let first = length(db.prepare_cached("SCAN large")?.query(())?)?;
    Ok(first + length(db.prepare_cached("SCAN large")?.query(())?)?)
}

fn owned_values(db: &mut Connection) -> Result<usize> {
    let owned = |row: &Row<'_>| {
        Ok(row.get::<String>("s")?.len()
            + row.get::<Vec<u8>>(1)?.len()
            + row.get::<Box<str>>(1)?.len()
            + row.get::<Box<[u8]>>(1)?.len()
            + usize::from(row.get::<Value>(1)?.as_str().is_ok()))
    };
    db.query_row("SCAN small", (), owned)
}

fn names_of_columns(db: &mut Connection) -> Result<usize> {
    match db.query_row("SCAN small", (), |row| row.get::<i64>("no_such_column")) {
        Err(Error::InvalidColumnName(name)) => Ok(name.len()),
        result => result.map(|_| 0),
    }
}

fn execute_many(db: &mut Connection) -> Result<usize> {
    let transaction = db.transaction()?;
    let inserted = transaction.prepare("INSERT t (?, ?)")?.execute_many((0..1200).map(|n| (n, TEXT)))?;
    transaction.commit()?;
    Ok(inserted)
}

fn failed_execute_many(db: &mut Connection) -> Result<usize> {
    let transaction = db.transaction()?;
    let rows = [(1, "x"), (2, "x"), (1, "x")];
    let result = transaction.prepare("INSERT t (?, ?)")?.execute_many(rows);
    match result {
        Err(Error::InRun { done, error }) if error.number() == Some(40) => Ok(done),
        result => result,
    }
}

fn failed_script(db: &mut Connection) -> Result<usize> {
    match db.execute_batch("BEGIN\nINSERT t (1, 'x')\nROLLBACK\nCOMMIT") {
        Err(Error::InLine { line: 4, error }) if error.number() == Some(51) => Ok(4),
        result => {
            if db.is_in_transaction() {
                db.execute("ROLLBACK", ())?;
            }
            result.and(Ok(0))
        }
    }
}

fn plan_of_statement(db: &mut Connection) -> Result<usize> {
    Ok(db.prepare("SELECT a.n FROM small a WHERE a.s = ?")?.explain([TEXT])?.len())
}

/// Counts bytes.
struct Counter(usize);

impl Write for Counter {
    fn write(&mut self, bytes: &[u8]) -> io::Result<usize> {
        self.0 += bytes.len();
        Ok(bytes.len())
    }

    fn flush(&mut self) -> io::Result<()> {
        Ok(())
    }
}

fn dump(db: &mut Connection) -> Result<usize> {
    let mut counter = Counter(0);
    match db.dump(&mut counter) {
        Err(error) if error.kind() == io::ErrorKind::OutOfMemory => Err(Error::Refused(Refusal::Memory)),
        result => {
            result.unwrap();
            Ok(counter.0)
        }
    }
}

/// A script whose last line is refused, in a transaction.
fn load(db: &mut Connection) -> Result<usize> {
    let transaction = db.transaction()?;
    match transaction.load("INSERT t (1, 'x')\nSCAN small\nINSERT t (1, 'y')") {
        Err(Error::InLine { line: 3, error }) if error.number() == Some(40) => transaction.commit().and(Ok(2)),
        result => result.and(Ok(0)),
    }
}

/// Appends 100 rows, every other one with a long text. The key of the last row is given: less than 99, it is a duplicate.
fn append(db: &mut Connection, last: i64) -> Result<usize> {
    const ROWS: usize = 100;
    let (mut keys, mut offsets) = ([0; ROWS], [0; ROWS + 1]);
    let mut bytes = [b'x'; ROWS / 2 * (TEXT.len() + 1)];
    for row in 0..ROWS {
        keys[row] = row as i64;
        offsets[row + 1] = offsets[row] + if row % 2 == 0 { 1 } else { TEXT.len() as u32 };
        bytes[offsets[row + 1] as usize - 1] = b'y';
    }
    keys[ROWS - 1] = last;
    db.append("t", &[ColumnData::Int(&keys), ColumnData::Text { offsets: &offsets, bytes: &bytes }])
}

fn transaction(db: &mut Connection) -> Result<usize> {
    let transaction = db.transaction()?;
    transaction.execute("INSERT t (?, ?)", (1, TEXT))?;
    drop(transaction);
    let transaction = db.transaction()?;
    transaction.execute("INSERT t (?, ?)", (2, TEXT))?;
    transaction.commit()?;
    Ok(2)
}

fn savepoints(db: &mut Connection) -> Result<usize> {
    let mut transaction = db.transaction()?;
    let mut outer = transaction.savepoint("s")?;
    outer.execute("INSERT t (1, 'x')", ())?;
    let mut inner = outer.savepoint("s")?;
    inner.execute("INSERT t (2, 'x')", ())?;
    inner.rollback()?;
    inner.commit()?;
    drop(outer.savepoint("s")?);
    outer.commit()?;
    transaction.commit()?;
    Ok(3)
}

/// A connection with some rows, and a full cache of statements.
fn opened() -> Connection {
    let db = Connection::open().unwrap();
    db.execute_batch("TABLE t (n INT KEY, s TEXT)\nTABLE small (n INT KEY, s TEXT)\nTABLE large (n INT KEY, s TEXT)")
        .unwrap();
    db.watch("all", "SELECT a.s FROM small a").unwrap();
    db.execute("INSERT small (1, ?)", [TEXT]).unwrap();
    db.prepare("INSERT large (?, ?)").unwrap().execute_many((0..LARGE).map(|n| (n, TEXT))).unwrap();
    for n in 0..16 {
        db.prepare_cached(&format!("DELETE t WHERE n = {n}")).unwrap();
    }
    db
}

/// Everything that a step could change.
#[derive(Debug, PartialEq)]
struct State {
    tables: Vec<String>,
    rows: Vec<(i64, String)>,
    is_in_transaction: bool,
}

impl State {
    fn of(db: &Connection) -> State {
        let rows = db.prepare("SCAN t").unwrap().query_map((), |row| row.values()).unwrap().collect::<Result<_>>();
        State { tables: db.tables().unwrap(), rows: rows.unwrap(), is_in_transaction: db.is_in_transaction() }
    }
}

fn refuse_each_growth() {
    let refusing = Refusing::new();
    let mut refused = 0;
    for step in STEPS {
        let mut db = opened();
        let expected = (step.calls)(&mut db).unwrap_or_else(|error| panic!("{}: {error}", step.name));
        let after = State::of(&db);
        drop(db);
        for growth in 1.. {
            let before = (refusing.live_blocks)();
            let counted = refuse_growth_of(step, growth, refusing, expected, &after);
            assert_eq!((refusing.live_blocks)(), before, "{}: growth {growth} leaks", step.name);
            if counted < growth {
                println!("{}: {counted} growths", step.name);
                break;
            }
            refused += 1;
        }
    }
    println!("{refused} growths were refused");
}

/// Makes the calls of a step with one growth refused. Returns the number of growths.
fn refuse_growth_of(step: &Step, growth: c_ulong, refusing: Refusing, expected: usize, after: &State) -> c_ulong {
    let mut db = opened();
    let before = State::of(&db);
    (refusing.refuse_growth)(growth);
    let result = (step.calls)(&mut db);
    let counted = (refusing.growths)();
    (refusing.refuse_growth)(0);
    match result {
        Ok(found) => assert_eq!(found, expected, "{}: growth {growth}", step.name),
        Err(error) => {
            assert_eq!(
                (error.number(), counted >= growth),
                (Some(90), true),
                "{}: growth {growth}: {error:?}",
                step.name
            );
            assert_eq!(State::of(&db), before, "{}: growth {growth}", step.name);
            assert_eq!((step.calls)(&mut db).unwrap(), expected, "{}: growth {growth}, again", step.name);
        }
    }
    assert_eq!(State::of(&db), *after, "{}: growth {growth}", step.name);
    counted
}
