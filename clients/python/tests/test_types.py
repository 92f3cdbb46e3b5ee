"""mypy finds nothing wrong with the package, nor with a program that uses it."""

import os
import subprocess
import sys

import mmdb
import pytest

PROGRAM = '''\
import mmdb


def names(connection: mmdb.Connection) -> list[str]:
    cursor = connection.execute("SELECT a.name FROM author a WHERE a.id >= ?", parameters=(1,))
    description = cursor.description
    assert description is not None and description[0][1] is str
    return [name for (name,) in cursor]


def main() -> None:
    connection: mmdb.Connection = mmdb.connect(autocommit=True, check_same_thread=False)
    connection.row_factory = mmdb.Row
    connection.text_factory = bytes
    connection.set_trace_callback(print)
    with connection, connection.cursor() as cursor, connection.savepoint("s") as savepoint:
        cursor.executemany("INSERT author (?, ?)", ((number, str(number)) for number in range(9))).fetchmany(2)
        savepoint.rollback()
        columns: mmdb.Columns = cursor.execute("SCAN author").fetchcolumns()
        cursor.executecolumns("INSERT author (?, ?)", ([1, 2], ["a", b"b"]))
        total: int = connection.total_changes
        print(columns.names, columns.rows, total, mmdb.library_version, *connection.iterdump())
    try:
        connection.executescript("SCAN nothing")
    except mmdb.ProgrammingError as error:
        number: int | None = error.number
        print(number, error.place, error.runs)
    row: mmdb.Row = connection.execute("SCAN author").fetchone()
    print(row["id"], row[0], row.keys(), names(connection))
    kind: type[mmdb.Error] = connection.IntegrityError
    print(kind)
'''
WRONG = '''\
import mmdb

mmdb.connect().execute(5)
mmdb.connect().executemany("DELETE t", [5])
mmdb.connect().savepoint(1)
mmdb.connect().nothing
'''


def checked(*arguments: str, folder: str) -> "subprocess.CompletedProcess[str]":
    package = os.path.dirname(os.path.dirname(os.path.abspath(mmdb.__file__)))
    environment = {**os.environ, "MYPYPATH": package, "MYPY_CACHE_DIR": os.path.join(folder, "cache")}
    command = [sys.executable, "-m", "mypy", "--strict", *arguments]
    return subprocess.run(command, capture_output=True, text=True, env=environment, cwd=folder, check=False)


def test_mypy(tmp_path: "os.PathLike[str]") -> None:
    pytest.importorskip("mypy")
    folder = os.fspath(tmp_path)
    for name, text in (("program.py", PROGRAM), ("wrong.py", WRONG)):
        with open(os.path.join(folder, name), "w", encoding="utf-8") as file:
            file.write(text)
    right = checked("-p", "mmdb", folder=folder)
    assert right.returncode == 0, right.stdout + right.stderr
    program = checked("program.py", folder=folder)
    assert program.returncode == 0, program.stdout + program.stderr
    wrong = checked("wrong.py", folder=folder)
    assert wrong.returncode == 1 and "Found 4 errors" in wrong.stdout, wrong.stdout
