"""mmdb, a proved relational database in main memory, by the Python Database API 2.0 (PEP 249).

    import mmdb

    connection = mmdb.connect()
    connection.execute("TABLE author (id INT KEY, name TEXT)")
    with connection:
        connection.execute("INSERT author (?, ?)", (1, "Carey"))
    for number, name in connection.execute("SELECT a.id, a.name FROM author a"):
        print(number, name)

Each connection is a database of its own, in this process, and ends when it is closed. docs/LANGUAGE.md describes the language.
"""

from collections.abc import Sequence as _Sequence

from ._mmdb import (
    Columns,
    Connection,
    Cursor,
    DatabaseError,
    DataError,
    Error,
    IntegrityError,
    InterfaceError,
    InternalError,
    NotSupportedError,
    OperationalError,
    ProgrammingError,
    Row,
    Savepoint,
    Warning,
    library_version,
)
from ._types import (
    BINARY,
    DATETIME,
    NUMBER,
    ROWID,
    STRING,
    Binary,
    Date,
    DateFromTicks,
    Time,
    TimeFromTicks,
    Timestamp,
    TimestampFromTicks,
)

__version__ = "1.1.0"

apilevel = "2.0"
# Threads may share the module, but not connections, unless these are opened with check_same_thread=False.
threadsafety = 1
paramstyle = "qmark"

_Sequence.register(Row)


def connect(autocommit: bool = False, check_same_thread: bool = True) -> Connection:
    """Opens a new, empty database and returns its connection.

    With autocommit each change is committed at once, unless the program begins a transaction. Only the thread that opens
    the connection may use it; with check_same_thread=False all threads may, and calls wait for each other. Raises
    OperationalError (90) if an allocation fails.
    """
    return Connection(autocommit, check_same_thread)


__all__ = [
    "BINARY",
    "Binary",
    "Columns",
    "Connection",
    "Cursor",
    "DATETIME",
    "DataError",
    "DatabaseError",
    "Date",
    "DateFromTicks",
    "Error",
    "IntegrityError",
    "InterfaceError",
    "InternalError",
    "NUMBER",
    "NotSupportedError",
    "OperationalError",
    "ProgrammingError",
    "ROWID",
    "Row",
    "STRING",
    "Savepoint",
    "Time",
    "TimeFromTicks",
    "Timestamp",
    "TimestampFromTicks",
    "Warning",
    "apilevel",
    "connect",
    "library_version",
    "paramstyle",
    "threadsafety",
]
