"""Connection.iterdump: the lines of a script that rebuilds a database."""

from __future__ import annotations

from collections.abc import Iterator

from ._library import MEMORY, Database, Refused, decoded, words_of
from ._mmdb import Connection, Error, OperationalError, ProgrammingError


def error_of(refused: Refused) -> Error:
    """Returns the exception of a dump that failed: an allocation failed, or a command may have changed the database."""
    if refused.status == MEMORY:
        error: Error = OperationalError(words_of(refused.status))
    else:
        error = ProgrammingError("a command may have changed the database since the dump started")
    error.number = refused.status
    return error


def iterdump(connection: Connection) -> Iterator[str]:
    """Yields the lines, without their line feeds."""
    try:
        for piece in Database(connection).dump():
            yield from map(decoded, piece.split(b"\n")[:-1])
    except Refused as refused:
        raise error_of(refused) from None
