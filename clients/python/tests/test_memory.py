"""Many calls take no more memory than few."""

import gc
import resource
import tracemalloc

import mmdb
import pytest

CALLS = 100_000


def resident() -> int:
    """The most bytes of memory that the process had."""
    return resource.getrusage(resource.RUSAGE_SELF).ru_maxrss * 1024


def work(connection: mmdb.Connection, calls: int) -> None:
    for number in range(calls // 5):
        connection.execute("SELECT a.k, a.s FROM t a WHERE a.id = ?", (number % 100,)).fetchone()
        connection.execute("UPDATE t SET k = ?, s = ? WHERE id = ?", (number, str(number), number % 100))
        connection.execute(f"SELECT a.k FROM t a WHERE a.id = {number}")
        with pytest.raises(mmdb.IntegrityError):
            connection.execute("INSERT t (?, 5, 'a')", (number % 100,))
        connection.commit()


def test_calls_leave_nothing_behind(connection: mmdb.Connection) -> None:
    connection.execute("TABLE t (id INT KEY, k INT, s TEXT)")
    connection.executemany("INSERT t (?, ?, 'a')", [(number, number) for number in range(100)])
    work(connection, 5000)
    gc.collect()
    before = resident()
    tracemalloc.start()
    work(connection, 1000)
    gc.collect()
    first = tracemalloc.get_traced_memory()[0]
    tracemalloc.stop()
    work(connection, CALLS)
    tracemalloc.start()
    work(connection, 1000)
    gc.collect()
    assert tracemalloc.get_traced_memory()[0] < first + 100_000
    tracemalloc.stop()
    assert resident() < before + 8_000_000


def test_databases_leave_nothing_behind() -> None:
    def use() -> None:
        connection = mmdb.connect()
        connection.execute("TABLE t (id INT KEY, s TEXT)")
        connection.executemany("INSERT t (?, ?)", [(number, 64 * "x") for number in range(200)])

    for _ in range(20):
        use()
    before = resident()
    for _ in range(500):
        use()
    assert resident() < before + 8_000_000
