"""Threads that use one connection at the same time: each finds its own rows as it left them, and the connection may be closed meanwhile."""

import random
import sys
import threading
from collections.abc import Callable

import mmdb
from test_random import SEED, in_child

THREADS, CALLS, KEYS = 4, 3000, 40
SECONDS = 60


class Part:
    """What one of the threads does: its rows have keys of their own."""

    def __init__(self, connection: mmdb.Connection, number: int):
        self.connection, self.first = connection, 1000 * number
        self.rng = random.Random(f"{SEED}.{number}")
        self.rows: dict[int, int] = {}
        self.cursor = connection.cursor()

    def key(self) -> int:
        return self.first + self.rng.randrange(KEYS)

    def run(self) -> None:
        for _ in range(CALLS):
            getattr(self, self.rng.choice(("insert", "insert", "many", "update", "delete", "select", "select", "line", "scan")))()

    def insert(self) -> None:
        key, number = self.key(), self.rng.randrange(9)
        try:
            self.cursor.execute("INSERT t (?, ?)", (key, number))
        except mmdb.IntegrityError:
            assert key in self.rows
        else:
            assert self.rows.setdefault(key, number) == number and self.cursor.rowcount == 1

    def many(self) -> None:
        new = {key: self.rng.randrange(9) for key in (self.key() for _ in range(20)) if key not in self.rows}
        self.connection.executemany("INSERT t (?, ?)", list(new.items()))
        self.rows |= new

    def update(self) -> None:
        key, number = self.key(), self.rng.randrange(9)
        found = self.cursor.execute("UPDATE t SET k = ? WHERE id = ?", (number, key)).rowcount
        assert found == (key in self.rows)
        self.rows.update({key: number} if found else {})

    def delete(self) -> None:
        key = self.key()
        assert self.cursor.execute("DELETE t WHERE id = ?", (key,)).rowcount == (self.rows.pop(key, None) is not None)

    def select(self) -> None:
        key = self.key()
        found = self.cursor.execute("SELECT a.k FROM t a WHERE a.id = ?", (key,)).fetchall()
        assert found == ([(self.rows[key],)] if key in self.rows else [])

    def line(self) -> None:
        """A line that no other thread has, in the place of one that another thread may be running."""
        key = self.key()
        found = self.connection.execute(f"SELECT a.id, a.k FROM t a WHERE a.id = {key}").fetchall()
        assert found == ([(key, self.rows[key])] if key in self.rows else [])

    def scan(self) -> None:
        line = "SELECT a.id, a.k FROM t a WHERE a.id >= ? AND a.id < ?"
        found = self.connection.execute(line, (self.first, self.first + 1000)).fetchall()
        assert found == sorted(self.rows.items())


def run_threads(works: list[Callable[[], None]]) -> list[BaseException]:
    """Runs works at the same time. Returns what they raise."""
    raised: list[BaseException] = []

    def caught(work: Callable[[], None]) -> None:
        try:
            work()
        except BaseException as error:
            raised.append(error)

    sys.setswitchinterval(1e-5)
    threads = [threading.Thread(target=caught, args=(work,)) for work in works]
    for thread in threads:
        thread.start()
    for thread in threads:
        thread.join()
    return raised


def use_at_the_same_time(tell: Callable[[str], None]) -> None:
    connection = mmdb.connect(autocommit=True, check_same_thread=False)
    connection.execute("TABLE t (id INT KEY, k INT)")
    parts = [Part(connection, number) for number in range(THREADS)]
    for error in run_threads([part.run for part in parts]):
        raise error
    rows = sorted(row for part in parts for row in part.rows.items())
    assert connection.execute("SCAN t").fetchall() == rows


def close_meanwhile(tell: Callable[[str], None]) -> None:
    """Closes a connection while threads use it. A thread may have ended before, if the machine is late."""
    ended = 0
    for round in range(40):
        connection = mmdb.connect(autocommit=True, check_same_thread=False)
        connection.execute("TABLE t (id INT KEY, k INT)")
        wait = threading.Event()
        parts = [Part(connection, number) for number in range(THREADS)]

        def close() -> None:
            wait.wait(0.0005 * round)
            connection.close()

        raised = run_threads([*(part.run for part in parts), close])
        told = [str(error) for error in raised]
        assert all(type(error) is mmdb.ProgrammingError for error in raised), told
        assert set(told) <= {"the connection is closed"}, told
        ended += len(raised)
    assert ended >= 10, f"only {ended} threads met a closed connection"


def test_threads_at_the_same_time() -> None:
    failed, told = in_child(use_at_the_same_time, SECONDS)
    assert not failed, f"MMDB_SEED={SEED}: {failed}\n{told}"


def test_a_connection_is_closed_while_threads_use_it() -> None:
    failed, told = in_child(close_meanwhile, SECONDS)
    assert not failed, f"MMDB_SEED={SEED}: {failed}\n{told}"
