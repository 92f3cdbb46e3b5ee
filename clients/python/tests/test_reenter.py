"""Lines that run at every place inside a call at which Python code can run, nested, and each reply compared.

The places are values, generators of values and of rows, row factories, text factories, finalizers and a signal handler. The variables
REENTER_SECONDS and REENTER_SEED change how long the test runs and where its random numbers begin.
"""

import gc
import itertools
import os
import random
import signal
import time
from collections.abc import Iterator
from typing import Any

import mmdb

SECONDS = float(os.environ.get("REENTER_SECONDS", "3"))
SEED = int(os.environ.get("REENTER_SEED", str(time.time_ns() % 1_000_000)))
ROWS = [(number, f"text {number}") for number in range(300)]
LOOK_UP = "SELECT a.s FROM t a WHERE a.id = ?"
MOST_DEPTH = 2


class Number:
    """A number that runs lines when it is asked for."""

    def __init__(self, world: "World", number: int) -> None:
        self.world, self.number = world, number

    def __index__(self) -> int:
        self.world.nested()
        return self.number


class Session:
    """An object in a cycle that runs lines when it is collected."""

    def __init__(self, world: "World") -> None:
        self.me, self.world = self, world

    def __del__(self) -> None:
        self.world.nested()


class World:
    """A database, and random lines with their replies. Its tables are as before after each step."""

    def __init__(self, seed: int) -> None:
        self.chance = random.Random(seed)
        self.end = time.monotonic() + SECONDS
        self.depth = self.steps = self.signals = 0
        self.fresh = itertools.count(1)
        self.connection = mmdb.connect(autocommit=True)
        self.connection.execute("TABLE t (id INT KEY, s TEXT)")
        self.connection.execute("TABLE u (id INT KEY, k INT)")
        self.connection.executemany("INSERT t (?, ?)", ROWS)
        self.shared = [self.connection.cursor() for _ in range(3)]
        self.kinds = [
            *(self.look_up, self.scan, self.iterate, self.change, self.change_many, self.change_columns),
            *(self.by_literal, self.by_factory, self.by_text_factory, self.by_shared_cursor, self.by_script, self.columns),
        ]

    def nested(self) -> None:
        if self.depth < MOST_DEPTH and time.monotonic() < self.end:
            self.depth += 1
            try:
                self.step()
            finally:
                self.depth -= 1

    def step(self) -> None:
        self.steps += 1
        if self.chance.random() < 0.2:
            Session(self)
        self.chance.choice(self.kinds)()

    def values(self, *given: Any) -> Any:
        """Values in a random form, of which some run lines."""
        mixed = [Number(self, v) if isinstance(v, int) and self.chance.random() < 0.3 else v for v in given]
        form = self.chance.randrange(4)
        if form == 0:
            return mixed
        if form == 1:
            return (self.nested() or value for value in mixed)
        return tuple(mixed)

    def rows(self, first: int, count: int) -> Iterator[Any]:
        for number in range(count):
            if self.chance.random() < 0.01:
                self.nested()
            yield self.values(first + number, number)

    def look_up(self) -> None:
        key = self.chance.randrange(len(ROWS))
        assert self.connection.execute(LOOK_UP, self.values(key)).fetchone() == (f"text {key}",)

    def scan(self) -> None:
        assert self.connection.execute("SCAN t").fetchall() == ROWS

    def iterate(self) -> None:
        assert list(self.connection.execute("SCAN t")) == ROWS

    def change(self) -> None:
        mine = 1000 * next(self.fresh)
        assert self.connection.execute("INSERT u (?, ?)", self.values(mine, 5)).rowcount == 1
        assert self.connection.execute("SELECT a.k FROM u a WHERE a.id = ?", self.values(mine)).fetchall() == [(5,)]
        assert self.connection.execute("DELETE u WHERE id = ?", self.values(mine)).rowcount == 1

    def change_many(self) -> None:
        mine, count = 1000 * next(self.fresh), self.chance.choice([0, 1, 5, 600])
        assert self.connection.executemany("INSERT u (?, ?)", self.rows(mine, count)).rowcount == count
        assert self.connection.executemany("DELETE u WHERE id = ?", [(mine + n,) for n in range(count)]).rowcount == count

    def change_columns(self) -> None:
        mine, count = 1000 * next(self.fresh), self.chance.choice([1, 5, 600])
        keys: list[Any] = [mine + number for number in range(count)]
        for place in range(0, count, 50):
            keys[place] = Number(self, keys[place])
        if self.chance.random() < 0.5:
            assert self.connection.append("u", (keys, [7] * count)) == count
        else:
            assert self.connection.executecolumns("INSERT u (?, ?)", (keys, [7] * count)).rowcount == count
        assert self.connection.execute("DELETE u WHERE id >= ? AND id < ?", (mine, mine + count)).rowcount == count

    def by_literal(self) -> None:
        key = self.chance.randrange(len(ROWS))
        assert self.connection.execute(f"SELECT a.s FROM t a WHERE a.id = {key}").fetchall() == [(f"text {key}",)]

    def by_factory(self) -> None:
        cursor = self.connection.cursor()
        cursor.row_factory = lambda cursor, row: self.nested() or row
        assert cursor.execute("SCAN t").fetchmany(7) == ROWS[:7]

    def by_text_factory(self) -> None:
        own = mmdb.connect(autocommit=True)
        own.text_factory = lambda text: self.nested() or text.upper()
        own.executescript("TABLE t (id INT KEY, s TEXT)\nINSERT t (1, 'a'), (2, 'b')")
        assert own.execute("SCAN t").fetchall() == [(1, b"A"), (2, b"B")]
        assert own.execute(LOOK_UP, self.values(2)).fetchone() == (b"B",)

    def by_shared_cursor(self) -> None:
        """What a cursor has that all depths share may be another line's, but it is whole."""
        cursor = self.chance.choice(self.shared)
        cursor.execute(*self.chance.choice([("SCAN t",), (LOOK_UP, self.values(5)), ("DELETE u WHERE id = 0",)]))
        try:
            for row in cursor.fetchmany(5):
                assert row in ROWS or row == ("text 5",)
        except mmdb.ProgrammingError as error:
            assert "no rows to fetch" in str(error)

    def by_script(self) -> None:
        mine = 1000 * next(self.fresh)
        self.connection.executescript(f"INSERT u\n  ({mine}, 0)\nDELETE u\n  WHERE id = {mine}")

    def columns(self) -> None:
        columns = self.connection.execute("SCAN t").fetchcolumns()
        offsets, text = columns["s"]
        assert columns["id"].tolist() == list(range(len(ROWS)))
        assert bytes(text[offsets[7] : offsets[8]]) == b"text 7"


def test_lines_inside_lines() -> None:
    world = World(SEED)

    def handle(*_: object) -> None:
        world.signals += 1
        world.nested()

    threshold, handler = gc.get_threshold(), signal.signal(signal.SIGALRM, handle)
    gc.set_threshold(20, 3, 3)
    signal.setitimer(signal.ITIMER_REAL, 0.005, 0.005)
    try:
        while time.monotonic() < world.end:
            world.step()
    except BaseException:
        print(f"REENTER_SEED={SEED}")
        raise
    finally:
        signal.setitimer(signal.ITIMER_REAL, 0)
        signal.signal(signal.SIGALRM, handler)
        gc.set_threshold(*threshold)
    assert world.steps > 100 and world.signals > 0
    assert world.connection.execute("SCAN u").rowcount == 0
