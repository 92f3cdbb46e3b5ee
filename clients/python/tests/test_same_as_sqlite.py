"""Programs that do the same on this module and on sqlite3, but for the words of their lines."""

import sqlite3
from collections.abc import Callable, Iterator
from types import ModuleType
from typing import Any

import mmdb
import pytest

Lines = Callable[[str], str]
WORDS = {
    "make": ("TABLE t (id INT KEY, name TEXT)", "CREATE TABLE t (id INTEGER PRIMARY KEY, name TEXT)"),
    "insert": ("INSERT t (?, ?)", "INSERT INTO t VALUES (?, ?)"),
    "update": ("UPDATE t SET name = ? WHERE id >= ?", "UPDATE t SET name = ? WHERE id >= ?"),
    "delete": ("DELETE t WHERE id = ?", "DELETE FROM t WHERE id = ?"),
    "all": ("SCAN t", "SELECT id, name FROM t ORDER BY id"),
    "one": ("SELECT a.name FROM t a WHERE a.id = ?", "SELECT name FROM t WHERE id = ?"),
    "wrong": ("SELEC", "SELEC"),
    "savepoint": ("SAVEPOINT s", "SAVEPOINT s"),
    "go back": ("ROLLBACK TO s", "ROLLBACK TO s"),
}
MODULES = [mmdb, sqlite3]


class Database:
    """A module, a connection, and the lines of its language."""

    def __init__(self, module: ModuleType) -> None:
        self.module = module
        self.connection: Any = mmdb.connect() if module is mmdb else sqlite3.connect(":memory:")
        self.line = {name: words[module is sqlite3] for name, words in WORDS.items()}
        self.connection.execute(self.line["make"])

    def run(self, name: str, *values: object) -> Any:
        return self.connection.execute(self.line[name], values)


@pytest.fixture(params=MODULES, ids=lambda module: module.__name__)
def database(request: pytest.FixtureRequest) -> Iterator[Database]:
    opened = Database(request.param)
    yield opened
    opened.connection.close()


def test_a_life(database: Database) -> None:
    run, connection = database.run, database.connection
    cursor = connection.cursor()
    assert cursor.executemany(database.line["insert"], [(n, f"name {n}") for n in range(10)]).rowcount == 10
    assert connection.in_transaction
    connection.commit()
    assert not connection.in_transaction
    assert run("update", "it's", 8).rowcount == 2
    assert run("delete", 9).rowcount == 1
    assert run("delete", 9).rowcount == 0
    assert run("one", 8).fetchone() == ("it's",)
    assert run("one", 9).fetchone() is None
    connection.rollback()
    assert run("one", 9).fetchone() == ("name 9",)
    cursor.execute(database.line["all"])
    assert [name for name, *_ in cursor.description] == ["id", "name"]
    assert cursor.fetchone() == (0, "name 0")
    assert cursor.fetchmany(2) == [(1, "name 1"), (2, "name 2")]
    assert next(cursor) == (3, "name 3")
    assert [number for number, _ in cursor] == [4, 5, 6, 7, 8, 9]
    assert cursor.fetchall() == [] and cursor.fetchone() is None


def test_with(database: Database) -> None:
    with database.connection:
        database.run("insert", 1, "a")
    with pytest.raises(KeyError), database.connection:
        database.run("insert", 2, "b")
        raise KeyError
    assert database.run("all").fetchall() == [(1, "a")]


def test_duplicate_keys(database: Database) -> None:
    database.run("insert", 1, "a")
    with pytest.raises(database.module.IntegrityError):
        database.run("insert", 1, "b")
    with pytest.raises(database.module.IntegrityError):
        database.connection.executemany(database.line["insert"], [(2, "b"), (3, "c"), (2, "d"), (4, "e")])
    assert database.run("all").fetchall() == [(1, "a"), (2, "b"), (3, "c")]
    assert database.connection.in_transaction
    database.connection.rollback()
    assert database.run("all").fetchall() == []


def test_wrong_numbers_of_values(database: Database) -> None:
    for values in ((), (1,), (1, "a", 2)):
        with pytest.raises(database.module.ProgrammingError):
            database.run("insert", *values)


def test_wrong_lines(database: Database) -> None:
    with pytest.raises(database.module.DatabaseError):
        database.run("wrong")
    with pytest.raises(TypeError):
        database.connection.execute(5)


def test_savepoints(database: Database) -> None:
    database.run("insert", 1, "a")
    database.run("savepoint")
    database.run("insert", 2, "b")
    database.run("go back")
    assert database.connection.in_transaction
    database.connection.commit()
    assert database.run("all").fetchall() == [(1, "a")]


def test_row_factories(database: Database) -> None:
    database.run("insert", 1, "a")
    database.connection.row_factory = database.module.Row
    row = database.run("all").fetchone()
    assert (row["id"], row["name"], row[0], row[-1], len(row), row.keys()) == (1, "a", 1, "a", 2, ["id", "name"])
    assert tuple(row) == (1, "a") and row == database.run("all").fetchone()
    with pytest.raises(IndexError):
        row["nothing"]
    database.connection.row_factory = lambda cursor, row: (len(cursor.description), row)
    assert database.run("all").fetchall() == [(2, (1, "a"))]


def test_after_close(database: Database) -> None:
    cursor = database.run("all")
    other = database.connection.cursor()
    other.close()
    with pytest.raises(database.module.ProgrammingError):
        other.execute(database.line["all"])
    database.connection.close()
    database.connection.close()
    for call in (cursor.fetchall, database.connection.commit, database.connection.cursor, lambda: database.run("all")):
        with pytest.raises(database.module.ProgrammingError):
            call()
