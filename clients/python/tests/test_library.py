"""The library as the shell uses it, and what the package is made of."""

import importlib.machinery
import os
import subprocess
import sys

import mmdb
import pytest
from mmdb import _mmdb
from mmdb._library import COUNT, DONE, NOTHING, ROWS, TEXT, Database, Refused, words_of


@pytest.fixture
def database() -> Database:
    opened = Database()
    opened.execute(b"TABLE t (id INT KEY, s TEXT)")
    return opened


def test_statuses(database: Database) -> None:
    assert database.execute(b"-- words") == NOTHING
    assert database.execute(b"BEGIN") == DONE and database.in_transaction()
    assert database.execute(b"INSERT t (1, 'a'), (2, 'b')") == COUNT and database.count() == 2
    assert database.execute(b"SCAN t") == ROWS and database.count() == 2
    assert database.read(b"SCAN t") == [(1, "a"), (2, "b")]
    assert database.text() == b"(1, 'a')\n(2, 'b')\nrows 2\n"
    assert database.execute(b"TABLES") == TEXT
    assert database.text() == b"TABLE t (id INT KEY, s TEXT) rows 2\ntables 1\n"
    assert database.execute(b"SCAN u") == 20 and database.text() == b"error 20 no such table\n"
    assert database.read(b"SCAN u") == []


def test_many_rows(database: Database) -> None:
    assert database.run_many(b"INSERT t (?, ?)", [(1, "a")]) == (1, DONE)
    assert database.run_many(b"INSERT t (?, ?)", [(2, "b"), (3, "c"), (2, "d"), (4, "e")]) == (2, 40)
    assert database.run_many(b"INSERT u (?)", [(2,)]) == (0, 20)
    assert database.execute(b"SCAN t") == ROWS and database.count() == 3
    rows = [(number, f"text {number}") for number in range(5000)]
    database.execute(b"DELETE t")
    assert database.run_many(b"INSERT t (?, ?)", rows) == (5000, DONE)
    assert database.execute(b"SCAN t") == ROWS and database.read(b"SCAN t") == rows


def test_all_or_none(database: Database) -> None:
    with database.all_or_none("s"):
        database.execute(b"INSERT t (1, 'a')")
    assert not database.in_transaction()
    with pytest.raises(KeyError), database.all_or_none("s"):
        database.execute(b"DELETE t")
        raise KeyError
    assert not database.in_transaction()
    database.execute(b"SCAN t")
    assert database.count() == 1
    database.execute(b"BEGIN")
    for _ in range(64):
        database.execute(b"SAVEPOINT s")
    with pytest.raises(Refused) as raised, database.all_or_none("s"):
        pass
    assert raised.value.status == 48


def test_columns_and_places(database: Database) -> None:
    assert database.columns(b"SCAN t") == [("id", int), ("s", str)]
    assert database.columns(b"SELECT a.s FROM t a WHERE a.id = ?") == [("s", str)]
    assert database.columns(b"BEGIN") == []
    with pytest.raises(Refused) as raised:
        database.columns(b"SCAN")
    assert raised.value.status == 11 and str(raised.value) == "error 11 syntax"
    assert database.place(b"SCAN u", 20) == 5
    assert words_of(90) == "memory" and words_of(9) == "" and words_of(1000) == ""


def test_a_closed_database(database: Database) -> None:
    database.close()
    database.close()
    for call in (
        lambda: database.execute(b"SCAN t"),
        database.count,
        database.text,
        lambda: database.read(b"SCAN t"),
        lambda: database.columns(b"SCAN t"),
        lambda: database.place(b"SCAN t", 20),
        database.in_transaction,
    ):
        with pytest.raises(mmdb.ProgrammingError, match="the connection is closed"):
            call()


def test_lines_are_bytes(database: Database) -> None:
    for wrong in ("SCAN t", None, 5):
        for call in (database._connection._execute_line, database._connection._columns_of, database._connection._reply_rows):
            with pytest.raises(TypeError):
                call(wrong)


def test_versions() -> None:
    assert mmdb.library_version >= (1, 1, 0) and mmdb.library_version[0] == 1


def test_the_module_is_for_each_later_python() -> None:
    path = _mmdb.__file__
    assert path.endswith(".abi3.so") and ".abi3.so" in importlib.machinery.EXTENSION_SUFFIXES
    needed = subprocess.run(["readelf", "--dynamic", path], capture_output=True, text=True, check=True).stdout
    assert "libmmdb" not in needed
    shown = subprocess.run(["nm", "--dynamic", "--defined-only", path], capture_output=True, text=True, check=True).stdout
    assert [line.split()[-1] for line in shown.splitlines()] == ["PyInit__mmdb"]


def test_nothing_is_told_at_the_end_of_a_program() -> None:
    program = (
        "import mmdb\nconnection = mmdb.connect()\nconnection.execute('TABLE t (id INT KEY)')\n"
        "cycle = [connection.execute('SCAN t')]\ncycle.append(cycle)\nconnection.row_factory = lambda *_: connection\n"
        "class Late:\n    def __del__(self):\n        connection.execute('SCAN t').fetchall()\nlate = Late()\n"
    )
    path = os.path.dirname(os.path.dirname(_mmdb.__file__))
    environment = {**os.environ, "PYTHONPATH": os.pathsep.join([path, os.environ.get("PYTHONPATH", "")])}
    ended = subprocess.run([sys.executable, "-X", "dev", "-c", program], env=environment, capture_output=True, check=False)
    assert (ended.returncode, ended.stdout, ended.stderr) == (0, b"", b"")
