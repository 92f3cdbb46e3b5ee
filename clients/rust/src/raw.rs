//! Safe wrappers of the library's calls, and a fallible `Box`. All unsafe code of the crate is here.
//!
//! mmdb.h has the rules for a program. This is how [`Handle`] follows them:
//!
//! - A handle starts as [`Mmdb::CLOSED`], is never copied, and its fields are never written: only a [`Handle`] contains one.
//! - Two calls never run at the same time: `Handle` is `Send` and not `Sync`, and no call of the library runs Rust code.
//! - All pointers come from slices and references, so none is null, and what a call writes overlaps nothing else that is passed.
#![allow(unsafe_code)]

use std::alloc::Layout;
use std::cell::UnsafeCell;
use std::ffi::c_void;
use std::fmt;
use std::marker::PhantomData;
use std::mem::{transmute, MaybeUninit};

/// The status of a call, as mmdb.h numbers it.
pub(crate) type Status = u8;

pub(crate) const DONE: Status = 1;
pub(crate) const COUNT: Status = 2;
pub(crate) const ROWS: Status = 3;
pub(crate) const TEXT: Status = 4;
pub(crate) const SYNTAX: Status = 11;
pub(crate) const MEMORY: Status = 90;
pub(crate) const MISUSE: Status = 100;

pub(crate) const TEXT_BYTES: usize = 64;
pub(crate) const NAME_BYTES: usize = 32;

/// `MMDB_VERSION` of the header that this module declares.
pub(crate) const HEADER_VERSION: u32 = 1_001_000;

const NUMBER_KIND: u8 = 0;
const STRING_KIND: u8 = 1;

/// `mmdb_cell`: a value.
#[repr(C)]
#[derive(Clone, Copy, Debug)]
pub(crate) struct Cell {
    kind: u8,
    len: u8,
    number: i64,
    text: [u8; TEXT_BYTES],
}

impl Cell {
    /// The number 0.
    pub(crate) const ZERO: Cell = Cell { kind: NUMBER_KIND, len: 0, number: 0, text: [0; TEXT_BYTES] };

    #[inline]
    pub(crate) fn set_number(&mut self, number: i64) {
        self.kind = NUMBER_KIND;
        self.number = number;
    }

    /// Panics if the text has more than [`TEXT_BYTES`] bytes.
    #[inline]
    pub(crate) fn set_text(&mut self, text: &[u8]) {
        self.text[..text.len()].copy_from_slice(text);
        self.kind = STRING_KIND;
        self.len = text.len() as u8;
    }

    /// The number, or `None` if the cell is a text.
    #[inline]
    pub(crate) fn number(&self) -> Option<i64> {
        (self.kind == NUMBER_KIND).then_some(self.number)
    }

    /// The bytes of the text. Meaningless if the cell is a number.
    #[inline]
    pub(crate) fn text(&self) -> &[u8] {
        &self.text[..usize::from(self.len).min(TEXT_BYTES)]
    }
}

/// The name and type of a column of a result.
#[repr(C)]
#[derive(Clone, Copy, PartialEq, Eq, Hash)]
pub struct Column {
    kind: u8,
    len: u8,
    /// Zero after the name, so that equal columns have equal bytes.
    name: [u8; NAME_BYTES],
}

impl Column {
    const EMPTY: Column = Column { kind: NUMBER_KIND, len: 0, name: [0; NAME_BYTES] };

    pub(crate) fn is_number(&self) -> bool {
        self.kind == NUMBER_KIND
    }

    pub(crate) fn name_bytes(&self) -> &[u8] {
        &self.name[..usize::from(self.len).min(NAME_BYTES)]
    }
}

/// `struct mmdb`. Its fields belong to the library.
#[repr(C)]
struct Mmdb {
    block: *mut c_void,
    is_open: bool,
}

impl Mmdb {
    const CLOSED: Mmdb = Mmdb { block: std::ptr::null_mut(), is_open: false };
}

/// `struct mmdb_dump_place`. Its fields belong to the library.
#[repr(C)]
pub(crate) struct DumpPlace {
    part: usize,
    row: usize,
    version: u64,
}

impl DumpPlace {
    pub(crate) const START: DumpPlace = DumpPlace { part: 0, row: 0, version: 0 };
}

/// `mmdb_array`: the values of a column. The slices of numbers or texts that it points to are borrowed for `'a`.
#[repr(C)]
#[derive(Clone, Copy)]
pub(crate) struct Array<'a> {
    numbers: *const i64,
    number_count: usize,
    offsets: *const u32,
    offset_count: usize,
    bytes: *const u8,
    byte_count: usize,
    borrowed: PhantomData<&'a [u8]>,
}

impl<'a> Array<'a> {
    pub(crate) fn new(numbers: &'a [i64], offsets: &'a [u32], bytes: &'a [u8]) -> Array<'a> {
        Array {
            numbers: numbers.as_ptr(),
            number_count: numbers.len(),
            offsets: offsets.as_ptr(),
            offset_count: offsets.len(),
            bytes: bytes.as_ptr(),
            byte_count: bytes.len(),
            borrowed: PhantomData,
        }
    }
}

/// Sizes and offsets, as the C compiler has them. Each byte that is read is one of a field, so a wrong offset reads padding or another
/// field, and both stop the compiler.
const _: () = {
    type Bytes<const N: usize> = [MaybeUninit<u8>; N];
    const NUMBER: i64 = i64::from_ne_bytes([3, 4, 5, 6, 7, 8, 9, 10]);
    // SAFETY: `transmute` requires equal sizes, and MaybeUninit<u8> may be any byte or padding. `assume_init` of padding does not compile.
    unsafe {
        let cell: Bytes<80> = transmute(Cell { kind: 1, len: 2, number: NUMBER, text: [11; TEXT_BYTES] });
        assert!(cell[0].assume_init() == 1 && cell[1].assume_init() == 2);
        assert!(cell[8].assume_init() == 3 && cell[15].assume_init() == 10);
        assert!(cell[16].assume_init() == 11 && cell[79].assume_init() == 11);
        let column: Bytes<34> = transmute(Column { kind: 1, len: 2, name: [3; NAME_BYTES] });
        assert!(column[0].assume_init() == 1 && column[1].assume_init() == 2);
        assert!(column[2].assume_init() == 3 && column[33].assume_init() == 3);
        let mmdb: Bytes<16> = transmute(Mmdb { block: std::ptr::null_mut(), is_open: true });
        assert!(mmdb[0].assume_init() == 0 && mmdb[7].assume_init() == 0 && mmdb[8].assume_init() == 1);
        let place: Bytes<24> = transmute(DumpPlace { part: usize::MAX, row: 0, version: u64::MAX });
        assert!(place[0].assume_init() == 255 && place[7].assume_init() == 255);
        assert!(place[8].assume_init() == 0 && place[15].assume_init() == 0);
        assert!(place[16].assume_init() == 255 && place[23].assume_init() == 255);
        let array: [usize; 6] = transmute(Array {
            numbers: 8 as *const i64,
            number_count: 1,
            offsets: 16 as *const u32,
            offset_count: 2,
            bytes: 24 as *const u8,
            byte_count: 3,
            borrowed: PhantomData,
        });
        assert!(array[0] == 8 && array[1] == 1 && array[2] == 16 && array[3] == 2 && array[4] == 24 && array[5] == 3);
    }
};

extern "C" {
    fn mmdb_version() -> u32;
    fn mmdb_words(status: Status, bytes: *mut u8, room: usize) -> usize;
    fn mmdb_open(db: *mut Mmdb) -> Status;
    fn mmdb_close(db: *mut Mmdb);
    fn mmdb_execute(db: *mut Mmdb, line: *const u8, length: usize) -> Status;
    fn mmdb_load(db: *mut Mmdb, script: *const u8, length: usize, lines: *mut usize) -> Status;
    fn mmdb_append(db: *mut Mmdb, name: *const u8, length: usize, columns: *const Array<'_>, count: usize) -> Status;
    fn mmdb_prepare(db: *mut Mmdb, line: *const u8, length: usize, statement: *mut usize) -> Status;
    fn mmdb_parameters(db: *mut Mmdb, statement: usize, count: *mut usize) -> Status;
    fn mmdb_statement_kind(db: *mut Mmdb, statement: usize, kind: *mut u8) -> Status;
    fn mmdb_statement_columns(
        db: *mut Mmdb,
        statement: usize,
        columns: *mut Column,
        room: usize,
        count: *mut usize,
    ) -> Status;
    fn mmdb_run(db: *mut Mmdb, statement: usize, values: *const Cell, count: usize) -> Status;
    fn mmdb_query(
        db: *mut Mmdb,
        statement: usize,
        values: *const Cell,
        count: usize,
        cells: *mut Cell,
        room: usize,
        rows: *mut usize,
    ) -> Status;
    fn mmdb_run_many(
        db: *mut Mmdb,
        statement: usize,
        values: *const Cell,
        count: usize,
        width: usize,
        runs: *mut usize,
    ) -> Status;
    fn mmdb_explain(db: *mut Mmdb, statement: usize, values: *const Cell, count: usize) -> Status;
    fn mmdb_finalize(db: *mut Mmdb, statement: usize) -> Status;
    fn mmdb_count(db: *mut Mmdb) -> usize;
    fn mmdb_total_changes(db: *mut Mmdb) -> u64;
    fn mmdb_read(db: *mut Mmdb, first_row: usize, cells: *mut Cell, room: usize) -> usize;
    fn mmdb_text(db: *mut Mmdb, bytes: *mut u8, room: usize, length: *mut usize) -> Status;
    fn mmdb_in_transaction(db: *mut Mmdb) -> bool;
    fn mmdb_release(db: *mut Mmdb, name: *const u8, length: usize) -> Status;
    fn mmdb_dump(db: *mut Mmdb, place: *mut DumpPlace, bytes: *mut u8, room: usize, length: *mut usize) -> Status;
    fn mmdb_definition(
        db: *mut Mmdb,
        kind: u8,
        name: *const u8,
        length: usize,
        bytes: *mut u8,
        room: usize,
        needed: *mut usize,
    ) -> Status;
    fn mmdb_columns(
        db: *mut Mmdb,
        line: *const u8,
        length: usize,
        columns: *mut Column,
        room: usize,
        count: *mut usize,
    ) -> Status;
    fn mmdb_place(db: *mut Mmdb, line: *const u8, length: usize, status: Status) -> usize;
}

/// Returns the version of the library, in the form of [`HEADER_VERSION`].
pub(crate) fn version() -> u32 {
    // SAFETY: The call takes nothing.
    unsafe { mmdb_version() }
}

/// Writes the words of a status to a formatter.
pub(crate) fn write_words(status: Status, f: &mut fmt::Formatter<'_>) -> fmt::Result {
    let mut words = [0; 64];
    // SAFETY: The words are an array that only this call borrows.
    let length = unsafe { mmdb_words(status, words.as_mut_ptr(), words.len()) };
    f.pad(std::str::from_utf8(&words[..length.min(words.len())]).unwrap_or_default())
}

/// Returns a box with the value, or `None` if the allocation fails.
pub(crate) fn boxed<T>(value: T) -> Option<Box<T>> {
    let layout = Layout::new::<T>();
    assert!(layout.size() > 0, "a type without size needs no box");
    // SAFETY: The layout has a size. The block is written before it is read, and a box frees a block of this layout.
    unsafe {
        let block = std::alloc::alloc(layout).cast::<T>();
        if block.is_null() {
            return None;
        }
        block.write(value);
        Some(Box::from_raw(block))
    }
}

/// An open handle. Dropping it closes it.
pub(crate) struct Handle {
    mmdb: UnsafeCell<Mmdb>,
}

// SAFETY: mmdb.h allows a handle to move from one thread to another, with one call at a time. `UnsafeCell` makes it not `Sync`, so only the
// thread that owns it, or has the only reference to it, can call.
unsafe impl Send for Handle {}

impl Handle {
    /// Opens an empty database. Fails with `MEMORY`.
    pub(crate) fn open() -> Result<Handle, Status> {
        let handle = Handle { mmdb: UnsafeCell::new(Mmdb::CLOSED) };
        // SAFETY: The handle is closed, and only this call uses it.
        match unsafe { mmdb_open(handle.mmdb.get()) } {
            DONE => Ok(handle),
            status => Err(status),
        }
    }

    pub(crate) fn execute(&self, line: &[u8]) -> Status {
        // SAFETY: The handle is open, and only this call uses it; the line is a slice.
        unsafe { mmdb_execute(self.mmdb.get(), line.as_ptr(), line.len()) }
    }

    /// Executes the lines of a script. Returns the status and the number of lines before the refused one, or of all lines.
    pub(crate) fn load(&self, script: &[u8]) -> (Status, usize) {
        let mut lines = 0;
        // SAFETY: The handle is open, and only this call uses it; the script is a slice, and the number is written to a local variable.
        let status = unsafe { mmdb_load(self.mmdb.get(), script.as_ptr(), script.len(), &mut lines) };
        (status, lines)
    }

    /// Inserts the rows of columns into a table.
    pub(crate) fn append(&self, table: &[u8], columns: &[Array<'_>]) -> Status {
        // SAFETY: The handle is open, and only this call uses it; the name and the columns are slices, and so is what each column points to.
        unsafe { mmdb_append(self.mmdb.get(), table.as_ptr(), table.len(), columns.as_ptr(), columns.len()) }
    }

    /// Prepares a line and returns the number of the statement.
    pub(crate) fn prepare(&self, line: &[u8]) -> Result<usize, Status> {
        let mut statement = 0;
        // SAFETY: The handle is open, and only this call uses it; the line is a slice, and the number is written to a local variable.
        match unsafe { mmdb_prepare(self.mmdb.get(), line.as_ptr(), line.len(), &mut statement) } {
            DONE => Ok(statement),
            status => Err(status),
        }
    }

    /// Returns the number of parameters of a statement.
    pub(crate) fn parameters(&self, statement: usize) -> Result<usize, Status> {
        let mut count = 0;
        // SAFETY: The handle is open, and only this call uses it; the count is written to a local variable.
        match unsafe { mmdb_parameters(self.mmdb.get(), statement, &mut count) } {
            DONE => Ok(count),
            status => Err(status),
        }
    }

    /// Returns the kind of a statement.
    pub(crate) fn kind(&self, statement: usize) -> Result<u8, Status> {
        let mut kind = 0;
        // SAFETY: The handle is open, and only this call uses it; the kind is written to a local variable.
        match unsafe { mmdb_statement_kind(self.mmdb.get(), statement, &mut kind) } {
            DONE => Ok(kind),
            status => Err(status),
        }
    }

    #[inline]
    pub(crate) fn run(&self, statement: usize, values: &[Cell]) -> Status {
        // SAFETY: The handle is open, and only this call uses it; the values are a slice.
        unsafe { mmdb_run(self.mmdb.get(), statement, values.as_ptr(), values.len()) }
    }

    /// Runs a statement. Returns its status and the number of rows of the reply that were read into the cells.
    #[inline]
    pub(crate) fn query(&self, statement: usize, values: &[Cell], cells: &mut [Cell]) -> (Status, usize) {
        let (pointer, room, mut rows) = (cells.as_mut_ptr(), cells.len(), 0);
        // SAFETY: The handle is open, and only this call uses it; values and cells are slices, only this call borrows the cells, and the
        // number of rows is written to a local variable.
        let status =
            unsafe { mmdb_query(self.mmdb.get(), statement, values.as_ptr(), values.len(), pointer, room, &mut rows) };
        (status, rows)
    }

    /// Runs a statement for each row of values. Returns the status and the number of runs that succeeded.
    pub(crate) fn run_many(&self, statement: usize, values: &[Cell], width: usize) -> (Status, usize) {
        let mut runs = 0;
        // SAFETY: The handle is open, and only this call uses it; the values are a slice, and the number is written to a local variable.
        let status =
            unsafe { mmdb_run_many(self.mmdb.get(), statement, values.as_ptr(), values.len(), width, &mut runs) };
        (status, runs)
    }

    pub(crate) fn explain(&self, statement: usize, values: &[Cell]) -> Status {
        // SAFETY: The handle is open, and only this call uses it; the values are a slice.
        unsafe { mmdb_explain(self.mmdb.get(), statement, values.as_ptr(), values.len()) }
    }

    pub(crate) fn finalize(&self, statement: usize) -> Status {
        // SAFETY: The handle is open, and only this call uses it.
        unsafe { mmdb_finalize(self.mmdb.get(), statement) }
    }

    #[inline]
    pub(crate) fn count(&self) -> usize {
        // SAFETY: The handle is open, and only this call uses it.
        unsafe { mmdb_count(self.mmdb.get()) }
    }

    pub(crate) fn total_changes(&self) -> u64 {
        // SAFETY: The handle is open, and only this call uses it.
        unsafe { mmdb_total_changes(self.mmdb.get()) }
    }

    /// Reads rows of the reply into the cells, and returns their number.
    pub(crate) fn read(&self, first_row: usize, cells: &mut [Cell]) -> usize {
        // SAFETY: The handle is open, and only this call uses it; the cells are a slice that only this call borrows.
        unsafe { mmdb_read(self.mmdb.get(), first_row, cells.as_mut_ptr(), cells.len()) }
    }

    /// Returns the text of the reply. Fails with `MEMORY`.
    pub(crate) fn text(&self) -> Result<Vec<u8>, Status> {
        let mut text = Vec::new();
        filled(&mut text, 0, |text, room, length| {
            // SAFETY: The handle is open, and only this call uses it; `filled` passes the pointer and length of a slice that only this
            // call borrows, and a reference.
            unsafe { mmdb_text(self.mmdb.get(), text, room, length) }
        })?;
        Ok(text)
    }

    /// Writes the columns of the rows that a line returns.
    pub(crate) fn columns(&self, line: &[u8], columns: &mut Vec<Column>) -> Result<(), Status> {
        filled(columns, Column::EMPTY, |columns, room, count| {
            // SAFETY: As in `text`; the line is a slice.
            unsafe { mmdb_columns(self.mmdb.get(), line.as_ptr(), line.len(), columns, room, count) }
        })
    }

    /// Writes the columns of the rows that a statement returns.
    pub(crate) fn statement_columns(&self, statement: usize, columns: &mut Vec<Column>) -> Result<(), Status> {
        filled(columns, Column::EMPTY, |columns, room, count| {
            // SAFETY: As in `text`.
            unsafe { mmdb_statement_columns(self.mmdb.get(), statement, columns, room, count) }
        })
    }

    pub(crate) fn place(&self, line: &[u8], status: Status) -> usize {
        // SAFETY: The handle is open, and only this call uses it; the line is a slice.
        unsafe { mmdb_place(self.mmdb.get(), line.as_ptr(), line.len(), status) }
    }

    #[inline]
    pub(crate) fn is_in_transaction(&self) -> bool {
        // SAFETY: The handle is open, and only this call uses it.
        unsafe { mmdb_in_transaction(self.mmdb.get()) }
    }

    /// Reads the next piece of a dump into the bytes, and returns its length: 0 at the end.
    pub(crate) fn dump(&self, place: &mut DumpPlace, bytes: &mut [u8]) -> Result<usize, Status> {
        let mut length = 0;
        // SAFETY: The handle is open, and only this call uses it; only this call borrows the place and the slice, and the length is written
        // to a local variable.
        match unsafe { mmdb_dump(self.mmdb.get(), place, bytes.as_mut_ptr(), bytes.len(), &mut length) } {
            DONE => Ok(length),
            status => Err(status),
        }
    }

    /// Returns the line that defines what has the name.
    pub(crate) fn definition(&self, kind: u8, name: &[u8]) -> Result<Vec<u8>, Status> {
        let mut line = Vec::new();
        filled(&mut line, 0, |bytes, room, needed| {
            // SAFETY: As in `text`; the name is a slice.
            unsafe { mmdb_definition(self.mmdb.get(), kind, name.as_ptr(), name.len(), bytes, room, needed) }
        })?;
        Ok(line)
    }

    pub(crate) fn release(&self, name: &[u8]) -> Status {
        // SAFETY: The handle is open, and only this call uses it; the name is a slice.
        unsafe { mmdb_release(self.mmdb.get(), name.as_ptr(), name.len()) }
    }
}

impl Drop for Handle {
    fn drop(&mut self) {
        // SAFETY: Nothing uses the handle after this. Closing a handle that did not open is allowed.
        unsafe { mmdb_close(self.mmdb.get()) }
    }
}

/// Fills a vector by a call that gets a pointer, the room behind it and a place for the full length. Repeats the call if the room was too
/// small. Fails with the status of the call, or with `MEMORY` if the vector cannot grow.
fn filled<T: Copy>(
    items: &mut Vec<T>,
    empty: T,
    mut call: impl FnMut(*mut T, usize, &mut usize) -> Status,
) -> Result<(), Status> {
    loop {
        let mut length = 0;
        match call(items.as_mut_ptr(), items.len(), &mut length) {
            DONE if length <= items.len() => {
                items.truncate(length);
                return Ok(());
            }
            DONE => {
                items.try_reserve_exact(length - items.len()).map_err(|_| MEMORY)?;
                items.resize(length, empty);
            }
            status => return Err(status),
        }
    }
}

#[cfg(test)]
mod tests {
    use super::{boxed, version, Cell, HEADER_VERSION};

    #[test]
    fn the_library_is_of_the_version_of_the_header_or_later() {
        assert!(version() >= HEADER_VERSION && version() / 1_000_000 == HEADER_VERSION / 1_000_000);
    }

    #[test]
    fn a_cell_has_the_value_that_was_set_last() {
        let mut cell = Cell::ZERO;
        assert_eq!(cell.number(), Some(0));
        cell.set_text(b"abc");
        assert_eq!((cell.number(), cell.text()), (None, &b"abc"[..]));
        cell.set_text(b"");
        assert_eq!(cell.text(), b"");
        cell.set_number(-5);
        assert_eq!(cell.number(), Some(-5));
    }

    #[test]
    fn a_box_is_dropped_with_its_value() {
        let value = std::rc::Rc::new(7);
        let outer = boxed(value.clone()).unwrap();
        assert_eq!((**outer, std::rc::Rc::strong_count(&value)), (7, 2));
        drop(outer);
        assert_eq!(std::rc::Rc::strong_count(&value), 1);
    }
}
