"""What the tests share. They test the package mmdb that Python finds: one that is installed, or on PYTHONPATH, or built in place."""

from collections.abc import Iterator

import mmdb
import pytest


@pytest.fixture
def connection() -> Iterator[mmdb.Connection]:
    """A connection to a new database."""
    opened = mmdb.connect()
    yield opened
    opened.close()


@pytest.fixture
def papers(connection: mmdb.Connection) -> mmdb.Connection:
    """A connection to a database with authors and their papers."""
    connection.execute("TABLE author (id INT KEY, name TEXT)")
    connection.execute("TABLE paper (id INT KEY, by INT REF author, title TEXT)")
    with connection:
        connection.executemany("INSERT author (?, ?)", [(1, "Carey"), (2, "Lehman")])
        connection.executemany("INSERT paper (?, ?, ?)", [(10, 2, "T-trees"), (11, 1, "Views"), (12, 2, "Recovery")])
    return connection
