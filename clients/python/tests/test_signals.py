"""Signal handlers that raise at any point of a call: no row is lost, and all is as one of its parts left it.

test_reenter.py has a handler that uses the connection.
"""

import random
import signal
from collections.abc import Callable, Iterator

import mmdb
from test_random import SEED, in_child

# How often a handler has to have come inside a call.
WANTED = 400
SECONDS = 60
# The rows that executemany takes at a time, if each has two values.
ROWS_AT_A_TIME = 512


class Interrupted(BaseException):
    """What a handler raises."""


class Interruptions:
    """Calls that a handler may end by an exception, and the states in which they may leave the database."""

    def __init__(self) -> None:
        self.rng = random.Random(f"{SEED}.interruptions")
        self.connection = mmdb.connect()
        self.connection.execute("TABLE t (id INT KEY, k INT)")
        self.rows: dict[int, int] = {}
        self.committed: dict[int, int] = {}
        self.in_transaction = False
        self.next_key = 0
        self.is_calling = False
        self.times = 0
        signal.signal(signal.SIGALRM, self.handle)
        signal.signal(signal.SIGINT, self.handle)

    def handle(self, number: int, _: object) -> None:
        if self.is_calling:
            self.is_calling = False
            self.times += 1
            raise KeyboardInterrupt if number == signal.SIGINT else Interrupted

    def returned(self, call: Callable[[], object]) -> bool:
        """Makes a call. Tells whether it returned."""
        signal.setitimer(signal.ITIMER_REAL, self.rng.choice((0.00002, 0.00005, 0.0002, 0.001)))
        try:
            self.is_calling = True
            call()
            self.is_calling = False
        except (Interrupted, KeyboardInterrupt):
            return False
        return True

    def makes(self, call: Callable[[], object], states: list[tuple[dict[int, int], bool]]) -> None:
        """Makes a call after which one of these states holds; the last one if it returns."""
        returned = self.returned(call)
        found = dict(self.connection.execute("SCAN t").fetchall()), self.connection.in_transaction
        assert found in (states[-1:] if returned else states), f"{len(found[0])} rows and {found[1]} after {returned}"
        self.rows, self.in_transaction = found
        if not self.in_transaction:
            self.committed = self.rows

    def changes(self, call: Callable[[], object], *rows: dict[int, int]) -> None:
        """Makes a change that goes through these states, the first one being that before it."""
        states = [(self.rows, self.in_transaction), *((state, True) for state in rows)]
        self.makes(call, states)

    def new_rows(self) -> list[tuple[int, int]]:
        first = self.next_key
        self.next_key += self.rng.choice((1, 3, 511, 512, 513, 1500))
        return [(key, key) for key in range(first, self.next_key)]

    def step(self) -> None:
        kind = self.rng.choice(("execute", "many", "many", "update", "delete", "commit", "rollback", "fetch", "savepoint", "script"))
        getattr(self, kind)()

    def execute(self) -> None:
        self.next_key += 1
        row = (self.next_key - 1, 0)
        self.changes(lambda: self.connection.execute("INSERT t (?, ?)", row), {**self.rows, row[0]: 0})

    def many(self) -> None:
        new = self.new_rows()
        states = [{**self.rows, **dict(new[:count])} for count in range(ROWS_AT_A_TIME, len(new), ROWS_AT_A_TIME)]
        rows = new if self.rng.random() < 0.5 else self.made(new)
        self.changes(lambda: self.connection.executemany("INSERT t (?, ?)", rows), *states, {**self.rows, **dict(new)})

    @staticmethod
    def made(rows: list[tuple[int, int]]) -> Iterator[tuple[int, int]]:
        yield from rows

    def update(self) -> None:
        self.changes(lambda: self.connection.execute("UPDATE t SET k = ?", (self.next_key,)), dict.fromkeys(self.rows, self.next_key))

    def delete(self) -> None:
        least = self.next_key - self.rng.choice((10, 100, 1000))
        kept = {key: number for key, number in self.rows.items() if key >= least}
        self.changes(lambda: self.connection.execute("DELETE t WHERE id < ?", (least,)), kept)

    def commit(self) -> None:
        self.makes(self.connection.commit, [(self.rows, self.in_transaction), (self.rows, False)])

    def rollback(self) -> None:
        self.makes(self.connection.rollback, [(self.rows, self.in_transaction), (self.committed, False)])

    def fetch(self) -> None:
        cursor = self.connection.execute("SCAN t")
        found: list[tuple[int, int]] = []
        returned = self.returned(lambda: found.extend(self.rng.choice((cursor.fetchall, lambda: list(cursor)))()))
        assert not returned or found == sorted(self.rows.items())
        left = cursor.fetchall()
        assert left == sorted(self.rows.items())[len(self.rows) - len(left) :]

    def savepoint(self) -> None:
        self.next_key += 1
        key, before = self.next_key - 1, self.rows

        def block() -> None:
            with self.connection.savepoint("s"):
                self.connection.execute("INSERT t (?, ?)", (key, key))

        # Where it is interrupted before the savepoint is set or after it is released, the row is there or not.
        self.makes(block, [(before, self.in_transaction), (before, True), ({**before, key: key}, True)])

    def script(self) -> None:
        self.next_key += 2
        first, second = self.next_key - 2, self.next_key - 1
        self.connection.commit()
        self.committed = self.rows
        one, two = {**self.rows, first: 0}, {**self.rows, first: 0, second: 0}
        text = f"INSERT t ({first}, 0)\nINSERT t ({second}, 0)"
        self.makes(lambda: self.connection.executescript(text), [(self.rows, False), (one, False), (two, False)])


def interrupt(tell: Callable[[str], None]) -> None:
    calls = Interruptions()
    while calls.times < WANTED:
        if len(calls.rows) > 5000:
            calls.connection.execute("DELETE t")
            calls.connection.commit()
            calls.rows, calls.committed, calls.in_transaction = {}, {}, False
        calls.step()
        tell(".")


def test_handlers_that_raise() -> None:
    failed, told = in_child(interrupt, SECONDS)
    assert not failed, f"MMDB_SEED={SEED}: {failed}\n{told[-3000:]}"
