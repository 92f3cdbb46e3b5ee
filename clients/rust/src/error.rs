//! Errors: refusals of the database, and mistakes in a call.

use crate::memory;
use crate::raw::{self, Column};
use std::fmt;
use std::ops::Deref;
use std::str::Utf8Error;

/// The result of a call.
pub type Result<T, E = Error> = std::result::Result<T, E>;

macro_rules! refusals {
    ($($(#[doc = $doc:literal])* $name:ident = $number:literal;)*) => {
        /// A refusal of the database. docs/LANGUAGE.md says exactly when each comes.
        ///
        /// It is displayed by its words, which the library has: `duplicate key`.
        #[derive(Clone, Copy, Debug, PartialEq, Eq, PartialOrd, Ord, Hash)]
        #[non_exhaustive]
        #[repr(u8)]
        pub enum Refusal {
            $($(#[doc = $doc])* $name = $number,)*
        }

        impl Refusal {
            /// Returns the refusal with a number, or `None` if no refusal has it.
            #[must_use]
            pub fn from_number(number: u8) -> Option<Refusal> {
                match number {
                    $($number => Some(Refusal::$name),)*
                    _ => None,
                }
            }
        }
    };
}

refusals! {
    /// A line has more than 4,096 bytes.
    LineTooLong = 10;
    /// A line is not a command.
    Syntax = 11;
    /// A number does not fit in 64 bits.
    NumberOutOfRange = 12;
    /// A text in a line has more than 64 bytes.
    TextTooLong = 13;
    /// No table has the name.
    NoSuchTable = 20;
    /// The table has no column of the name.
    NoSuchColumn = 21;
    /// No index has the name.
    NoSuchIndex = 22;
    /// No standing query has the name.
    NoSuchStandingQuery = 23;
    /// The name is that of another table, index, standing query or column.
    NameTaken = 24;
    /// Two tables of `FROM` have one alias.
    AliasTaken = 25;
    /// No table of `FROM` has the alias.
    NoSuchAlias = 26;
    /// A value is not of its column's type, or two sides differ in type.
    TypeMismatch = 30;
    /// A row has more or fewer values than its table has columns.
    WrongNumberOfValues = 31;
    /// A new value does not fit in 64 bits.
    ArithmeticOutOfRange = 32;
    /// Two rows would have the same key.
    DuplicateKey = 40;
    /// A row would refer to a row that does not exist.
    NoTargetRow = 41;
    /// A row that stays refers to one that would be deleted.
    RowIsReferenced = 42;
    /// Another table or a standing query needs the table.
    InUse = 43;
    /// A table would have more than 1,048,576 rows.
    TableFull = 45;
    /// A result has more than 1,048,576 combinations of rows.
    ResultTooLarge = 46;
    /// A standing query would have more than 1,048,576 combinations of rows.
    StandingListTooLarge = 47;
    /// A limit of the language is reached, as that of 64 tables.
    TooMany = 48;
    /// A transaction is open already.
    TransactionOpen = 50;
    /// No transaction is open.
    NoTransaction = 51;
    /// The command is not allowed in a transaction.
    NotInTransaction = 52;
    /// The transaction has no savepoint of the name.
    NoSuchSavepoint = 53;
    /// An allocation failed, in the library or in this crate.
    Memory = 90;
}

impl Refusal {
    /// Returns the number of the refusal: 40 for [`DuplicateKey`](Refusal::DuplicateKey).
    #[must_use]
    pub fn number(self) -> u8 {
        self as u8
    }
}

impl fmt::Display for Refusal {
    fn fmt(&self, f: &mut fmt::Formatter<'_>) -> fmt::Result {
        raw::write_words(self.number(), f)
    }
}

/// Why a call failed. Such a call changed nothing, except for [`Error::InLine`] and [`Error::InRun`], which say what was done before.
///
/// ```
/// use mmdb::{Connection, Error, Refusal, Result};
///
/// # fn main() -> Result<()> {
/// let db = Connection::open()?;
/// db.execute_batch("TABLE t (id INT KEY)\nINSERT t (1)")?;
/// let error = db.execute("INSERT t (?)", [1]).unwrap_err();
/// assert!(matches!(error, Error::Refused(Refusal::DuplicateKey)));
/// assert_eq!(error.number(), Some(40));
/// assert_eq!(error.to_string(), "duplicate key");
/// # Ok(())
/// # }
/// ```
#[derive(Debug)]
#[non_exhaustive]
pub enum Error {
    /// The database refused the command, or an allocation failed in this crate (`Refused(Memory)`).
    Refused(Refusal),
    /// A command of a script failed. The commands before it stay done.
    InLine {
        /// The number of the first line of the command, counted from 1.
        line: usize,
        /// Why it failed.
        error: Cause,
    },
    /// A run of [`Statement::execute_many`](crate::Statement::execute_many) failed. The runs before it stay done.
    InRun {
        /// The number of runs that succeeded.
        done: usize,
        /// Why the next run failed.
        error: Cause,
    },
    /// The number of values is not the number of parameters of the statement.
    WrongParameterCount {
        /// The number of values.
        given: usize,
        /// The number of parameters.
        wanted: usize,
    },
    /// A value is a text of more than 64 bytes. This is its length.
    TextTooLong(usize),
    /// A value is a text that contains a line feed.
    TextHasLineFeed,
    /// A value is an integer that does not fit in 64 bits with a sign.
    NumberOutOfRange,
    /// A line begins with `--` and contains a line feed. It was not executed, because what follows the line feed would be ignored.
    CommentHasLineFeed,
    /// The statement returns rows or a text, and the call executes commands. [`Statement::query`](crate::Statement::query) reads rows.
    ExecuteReturnedRows,
    /// The statement returns no rows, and the call reads rows; or it has no plan, and the call returns one. It was not run.
    NotAQuery,
    /// The query returned no row.
    QueryReturnedNoRows,
    /// The row has no column at this position.
    InvalidColumnIndex(usize),
    /// The row has no column of this name.
    InvalidColumnName(String),
    /// The value is a text and the requested type is made of a number, or the other way round.
    InvalidColumnType {
        /// The position of the column.
        index: usize,
        /// The column, with the type of the value.
        column: Column,
    },
    /// The requested type does not have this number.
    ValueOutOfRange {
        /// The position of the column.
        index: usize,
        /// The column.
        column: Column,
        /// The number.
        number: i64,
    },
    /// The text does not have the length of the requested type: the bytes of an array, or the one character of a `char`.
    WrongLength {
        /// The position of the column.
        index: usize,
        /// The column.
        column: Column,
        /// The length of the text.
        found: usize,
        /// The length of the requested type.
        wanted: usize,
    },
    /// The text is not UTF-8.
    NotUtf8 {
        /// The position of the column.
        index: usize,
        /// The column.
        column: Column,
        /// Where the text is not UTF-8.
        error: Utf8Error,
    },
    /// The columns of [`Connection::append`](crate::Connection::append) have different numbers of values, or the offsets of a column
    /// decrease or are past the end of its bytes.
    NotColumns,
    /// The writer of [`Connection::dump`](crate::Connection::dump) executed a command that may have changed the database, so the dump cannot
    /// go on. What was written is not the whole script.
    ChangedDuringDump,
    /// libmmdb is of this version, and the crate needs 1.1.0 or a later 1.x. The number is major * 1000000 + minor * 1000 + patch.
    LibraryVersion(u32),
    /// The library returned a status that it should not return: 100 is misuse. This is a fault of the crate.
    Unexpected(u8),
    /// An error of a [`ToValue`](crate::ToValue) or a [`FromValue`](crate::FromValue) outside this crate.
    Other(Box<dyn std::error::Error + Send + Sync>),
}

impl Error {
    /// An allocation failed.
    pub(crate) const MEMORY: Error = Error::Refused(Refusal::Memory);

    /// Returns the refusal of the database, or `None` if the error is of another kind.
    #[must_use]
    pub fn refusal(&self) -> Option<Refusal> {
        match self {
            Error::Refused(refusal) => Some(*refusal),
            Error::InLine { error, .. } | Error::InRun { error, .. } => error.refusal(),
            _ => None,
        }
    }

    /// Returns the number of the refusal, or `None` if the error is of another kind.
    #[must_use]
    pub fn number(&self) -> Option<u8> {
        self.refusal().map(Refusal::number)
    }

    /// The error for a status that is not a success.
    #[cold]
    pub(crate) fn of_status(status: u8) -> Error {
        Refusal::from_number(status).map_or(Error::Unexpected(status), Error::Refused)
    }

    /// An error if the status is not a success.
    #[inline]
    pub(crate) fn check(status: u8) -> Result<()> {
        if status <= raw::TEXT {
            Ok(())
        } else {
            Err(Error::of_status(status))
        }
    }

    /// The error for a column name that a row does not have.
    #[cold]
    pub(crate) fn invalid_column_name(name: &str) -> Error {
        memory::string(name).map_or_else(|error| error, Error::InvalidColumnName)
    }
}

/// The error of a call that reads or writes bytes. Only [`Refusal::Memory`] is not the inner error, since that takes memory.
impl From<Error> for std::io::Error {
    fn from(error: Error) -> Self {
        match error {
            Error::Refused(Refusal::Memory) => std::io::ErrorKind::OutOfMemory.into(),
            error => std::io::Error::new(std::io::ErrorKind::Other, error),
        }
    }
}

impl fmt::Display for Error {
    fn fmt(&self, f: &mut fmt::Formatter<'_>) -> fmt::Result {
        match self {
            Error::Refused(refusal) => refusal.fmt(f),
            Error::InLine { line, error } => write!(f, "line {line}: {error}"),
            Error::InRun { done, error } => write!(f, "run {}: {error}", done + 1),
            Error::WrongParameterCount { given, wanted } => {
                write!(f, "the statement has {wanted} parameters, and {given} values were passed")
            }
            Error::TextTooLong(length) => write!(f, "the text has {length} bytes, and the limit is 64"),
            Error::TextHasLineFeed => f.write_str("the text contains a line feed"),
            Error::NumberOutOfRange => f.write_str("the number does not fit in 64 bits with a sign"),
            Error::CommentHasLineFeed => f.write_str("the comment contains a line feed"),
            Error::ExecuteReturnedRows => f.write_str("the statement returns rows or a text, and was executed"),
            Error::NotAQuery => f.write_str("the statement is not a query"),
            Error::QueryReturnedNoRows => f.write_str("the query returned no row"),
            Error::InvalidColumnIndex(index) => write!(f, "the row has no column {index}"),
            Error::InvalidColumnName(name) => write!(f, "the row has no column {name:?}"),
            Error::InvalidColumnType { index, column } => {
                write!(
                    f,
                    "column {index} ({}) is {}, and another type was requested",
                    column.name(),
                    column.data_type()
                )
            }
            Error::ValueOutOfRange { index, column, number } => {
                write!(f, "column {index} ({}) is {number}, which the requested type does not have", column.name())
            }
            Error::WrongLength { index, column, found, wanted } => {
                let name = column.name();
                write!(f, "column {index} ({name}) has length {found}, and the requested type has length {wanted}")
            }
            Error::NotUtf8 { index, column, .. } => write!(f, "column {index} ({}) is not UTF-8", column.name()),
            Error::NotColumns => f.write_str("the columns have different numbers of values, or wrong offsets"),
            Error::ChangedDuringDump => f.write_str("a command may have changed the database since the dump started"),
            Error::LibraryVersion(version) => {
                let (major, minor, patch) = (version / 1_000_000, version / 1000 % 1000, version % 1000);
                write!(f, "libmmdb has version {major}.{minor}.{patch}, and the crate needs 1.1.0 or a later 1.x")
            }
            Error::Unexpected(status) => write!(f, "libmmdb returned {status}, which it should not"),
            Error::Other(error) => error.fmt(f),
        }
    }
}

impl std::error::Error for Error {
    fn source(&self) -> Option<&(dyn std::error::Error + 'static)> {
        match self {
            Error::InLine { error, .. } | Error::InRun { error, .. } => error.source(),
            Error::NotUtf8 { error, .. } => Some(error),
            Error::Other(error) => error.source(),
            _ => None,
        }
    }
}

/// Why a line of a script or a run of a batch failed: an [`Error`] behind a pointer.
///
/// If the pointer cannot be allocated, the cause is `Refused(Memory)`.
pub struct Cause(Option<Box<Error>>);

impl Cause {
    pub(crate) fn new(error: Error) -> Cause {
        Cause(raw::boxed(error))
    }

    /// Returns the error itself.
    #[must_use]
    pub fn into_error(self) -> Error {
        self.0.map_or(Error::MEMORY, |error| *error)
    }
}

impl Deref for Cause {
    type Target = Error;

    fn deref(&self) -> &Error {
        const MEMORY: &Error = &Error::MEMORY;
        self.0.as_deref().unwrap_or(MEMORY)
    }
}

impl fmt::Debug for Cause {
    fn fmt(&self, f: &mut fmt::Formatter<'_>) -> fmt::Result {
        fmt::Debug::fmt(&**self, f)
    }
}

impl fmt::Display for Cause {
    fn fmt(&self, f: &mut fmt::Formatter<'_>) -> fmt::Result {
        fmt::Display::fmt(&**self, f)
    }
}

/// Why a value cannot become the requested type. [`Row::get`](crate::Row::get) turns it into an [`Error`] with the column.
#[derive(Debug)]
#[non_exhaustive]
pub enum FromValueError {
    /// The value is a text and a number is required, or the other way round.
    WrongType,
    /// The type does not have this number.
    OutOfRange(i64),
    /// The text does not have the length of the type.
    WrongLength {
        /// The length of the text.
        found: usize,
        /// The length of the type.
        wanted: usize,
    },
    /// The text is not UTF-8.
    NotUtf8(Utf8Error),
    /// An allocation failed.
    Memory,
    /// Any other reason.
    Other(Box<dyn std::error::Error + Send + Sync>),
}

impl fmt::Display for FromValueError {
    fn fmt(&self, f: &mut fmt::Formatter<'_>) -> fmt::Result {
        match self {
            FromValueError::WrongType => f.write_str("another type was requested"),
            FromValueError::OutOfRange(number) => write!(f, "the requested type does not have the number {number}"),
            FromValueError::WrongLength { found, wanted } => {
                write!(f, "the text has length {found}, and the requested type has length {wanted}")
            }
            FromValueError::NotUtf8(_) => f.write_str("the text is not UTF-8"),
            FromValueError::Memory => Refusal::Memory.fmt(f),
            FromValueError::Other(error) => error.fmt(f),
        }
    }
}

impl std::error::Error for FromValueError {
    fn source(&self) -> Option<&(dyn std::error::Error + 'static)> {
        match self {
            FromValueError::NotUtf8(error) => Some(error),
            FromValueError::Other(error) => error.source(),
            _ => None,
        }
    }
}

/// Turns [`Error::QueryReturnedNoRows`] into `None`.
///
/// ```
/// use mmdb::{Connection, OptionalExtension, Result};
///
/// # fn main() -> Result<()> {
/// let db = Connection::open()?;
/// db.execute("TABLE t (id INT KEY)", ())?;
/// let row = db.query_row("SELECT a.id FROM t a WHERE a.id = ?", [7], |row| row.get::<i64>(0)).optional()?;
/// assert_eq!(row, None);
/// # Ok(())
/// # }
/// ```
pub trait OptionalExtension<T> {
    /// Returns `Ok(None)` if there is no row.
    fn optional(self) -> Result<Option<T>>;
}

impl<T> OptionalExtension<T> for Result<T> {
    fn optional(self) -> Result<Option<T>> {
        match self {
            Ok(value) => Ok(Some(value)),
            Err(Error::QueryReturnedNoRows) => Ok(None),
            Err(error) => Err(error),
        }
    }
}
