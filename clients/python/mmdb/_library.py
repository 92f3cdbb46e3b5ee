"""The library as the shell uses it: lines are bytes, calls return statuses, and the reply is read when it is needed."""

from __future__ import annotations

import contextlib
from collections.abc import Iterator, Sequence
from typing import Literal

from . import _mmdb

Kind = Literal["table", "index", "watch"]
Value = int | str
Row = tuple[Value, ...]

# The statuses of include/mmdb.h that the shell tells apart.
NOTHING, DONE, COUNT, ROWS, TEXT = range(5)
SYNTAX, NO_SUCH_TABLE, NO_SUCH_STANDING_QUERY, MEMORY, MISUSE = 11, 20, 23, 90, 100
LEAST_REFUSAL = 10
# The maximum length of a text in bytes.
TEXT_BYTES = 64


def words_of(status: int) -> str:
    """Returns the words of a refusal, as the library has them."""
    return _mmdb._words(status)


class Refused(Exception):
    """A call was refused, or was misuse (100). `status` is the number of the refusal."""

    def __init__(self, status: int) -> None:
        super().__init__(f"error {status} {words_of(status)}")
        self.status = status


def encoded(text: str) -> bytes:
    """Returns the bytes of a text. Raises UnicodeEncodeError if it has a surrogate that stands for no byte."""
    return text.encode("utf-8", "surrogateescape")


def decoded(text: bytes) -> str:
    """Returns the text of some bytes. Lone surrogates stand for bytes that are not UTF-8."""
    return text.decode("utf-8", "surrogateescape")


class Database:
    """The database of a connection, or a new one. A call that returns no status raises Refused."""

    def __init__(self, connection: _mmdb.Connection | None = None) -> None:
        try:
            self._connection = _mmdb.Connection(True) if connection is None else connection
        except _mmdb.OperationalError as error:
            raise Refused(error.number or MISUSE) from None

    def close(self) -> None:
        """Closes the database and frees all that it has."""
        self._connection.close()

    def execute(self, line: bytes) -> int:
        """Executes a line and returns the status of its reply, which the database keeps."""
        return self._connection._execute_line(line)

    def run_many(self, line: bytes, rows: Sequence[Sequence[Value]]) -> tuple[int, int]:
        """Runs a change with holes once for each row of values, up to the first that is refused.

        Returns the number of runs that were done, and the status.
        """
        try:
            self._connection.executemany(decoded(line), rows)
        except _mmdb.Error as error:
            return error.runs or 0, error.number or MISUSE
        return len(rows), DONE

    def count(self) -> int:
        """Returns the number of rows of the reply, or of the rows that it changed."""
        return self._connection._reply_count()

    def read(self, line: bytes) -> list[Row]:
        """Returns all rows of the reply, which is the reply to this line."""
        return self._connection._reply_rows(line)

    def text(self) -> bytes:
        """Returns the text of the reply, as the program mmdb writes it. Raises Refused (90) if there is no memory for it."""
        try:
            return self._connection._reply_text()
        except MemoryError:
            raise Refused(MEMORY) from None

    def dump(self) -> Iterator[bytes]:
        """Yields a script that rebuilds the database, in pieces of whole lines.

        Raises Refused if an allocation fails (90), or if a command may have changed the database meanwhile (100).
        """
        place = (0, 0, 0)
        while True:
            try:
                status, piece, place = self._connection._dump_piece(*place)
            except MemoryError:
                raise Refused(MEMORY) from None
            if status != DONE:
                raise Refused(status)
            if not piece:
                return
            yield piece

    def definition(self, name: str, kind: Kind) -> bytes:
        """Returns the line that defines a table, an index or a standing query. Raises Refused if there is none."""
        try:
            return encoded(self._connection.definition(name, kind))
        except _mmdb.Error as error:
            raise Refused(error.number or MISUSE) from None

    def columns(self, line: bytes) -> list[tuple[str, type]]:
        """Returns the names and types (int or str) of the columns of the rows that a line returns, as the tables are now.

        A line that returns no rows has none. Raises Refused if the line cannot be read.
        """
        status, columns = self._connection._columns_of(line)
        if status != DONE:
            raise Refused(status)
        return [(column[0], column[1]) for column in columns]

    def place(self, line: bytes, status: int) -> int:
        """Returns the byte of a line to show for the status that refused it, or 0."""
        return self._connection._place_of(line, status)

    @contextlib.contextmanager
    def all_or_none(self, name: str) -> Iterator[None]:
        """Keeps all changes of a with statement, or none if it ends by an exception.

        In a transaction it sets a savepoint with this name and releases it. Outside one it begins a transaction and ends it.
        Raises Refused if the savepoint is refused.
        """
        try:
            with self._connection.savepoint(name):
                yield
        except _mmdb.Error as error:
            raise Refused(error.number or MISUSE) from None

    def in_transaction(self) -> bool:
        """Returns whether a transaction is open."""
        return self._connection.in_transaction
