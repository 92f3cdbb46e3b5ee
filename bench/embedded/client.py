#!/usr/bin/env python3
"""The look-up by key and the INSERT of work.h in Python, with the package mmdb or the module sqlite3: client.py MODULE ROWS CALLS.

Prints three processor times in nanoseconds: of execute with fetchone, per row of one executemany, and of one execute per row.
"""

import importlib
import sys
import time

TABLE = {
    "mmdb": ["TABLE t (k INT KEY, h INT, r INT, v INT, w TEXT)", "INDEX th ON t (h) HASH", "INDEX tr ON t (r) TREE"],
    "sqlite3": [
        "CREATE TABLE t (k INTEGER PRIMARY KEY, h INTEGER, r INTEGER, v INTEGER, w TEXT)",
        "CREATE INDEX th ON t (h)",
        "CREATE INDEX tr ON t (r)",
    ],
}
INSERT = {"mmdb": "INSERT t (?, ?, ?, ?, 'text')", "sqlite3": "INSERT INTO t VALUES (?, ?, ?, ?, 'text')"}
LOOK_UP = {"mmdb": "SELECT a.v, a.w FROM t a WHERE a.k = ?", "sqlite3": "SELECT v, w FROM t WHERE k = ?"}


def opened(name):
    module = importlib.import_module(name)
    connection = module.connect() if name == "mmdb" else module.connect(":memory:")
    for line in TABLE[name]:
        connection.execute(line)
    return connection


def look_up(connection, name, rows, calls):
    """Returns the processor time of a look-up, in nanoseconds. A look-up reads and compares its row."""
    line = LOOK_UP[name]
    before = time.process_time_ns()
    for i in range(calls):
        key = (i * 7919 + 12345) % rows
        if connection.execute(line, (key,)).fetchone() != (key, "text"):
            raise ValueError(f"wrong row for the key {key}")
    return (time.process_time_ns() - before) / calls


def main():
    name, rows, calls = sys.argv[1], int(sys.argv[2]), int(sys.argv[3])
    connection = opened(name)
    keys = [(i * 7919 + 12345) % rows for i in range(rows)]
    with connection:
        connection.executemany(INSERT[name], [(k, 3 * k, k, k) for k in keys])
    found = look_up(connection, name, rows, calls)
    more = [(k, 3 * k, k, k) for k in range(rows, rows + calls)]
    before = time.process_time_ns()
    with connection:
        connection.executemany(INSERT[name], more)
    many = (time.process_time_ns() - before) / calls
    line = INSERT[name]
    before = time.process_time_ns()
    with connection:
        for k in range(rows + calls, rows + 2 * calls):
            connection.execute(line, (k, 3 * k, k, k))
    print(found, many, (time.process_time_ns() - before) / calls)


if __name__ == "__main__":
    main()
