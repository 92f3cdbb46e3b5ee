"""Refuses each call of the package each growth of memory in turn. test_refused_memory.py runs it with refuse.c preloaded.

After a refusal the call must have raised MemoryError or OperationalError (90) and changed nothing, or must have done without the memory.
Given again, it must succeed. All of that is done several times. At least once it must leave no more memory in use than it found: the
interpreter keeps some memory of its own, and a leak of the package would be there each time.
"""

import array
import ctypes
import gc
import itertools
import sys
from collections.abc import Callable
from typing import Any

import mmdb

MEMORY = 90
MOST_ROUNDS = 8

LOOK_UP = "SELECT a.s FROM t a WHERE a.id = ?"
RANGE = "SELECT a.id, a.s FROM t a WHERE a.id >= ?"
INSERT = "INSERT t (?, ?)"
NEW_ROWS = [(1000 + number, f"a new text {number}") for number in range(40)]
MANY_VALUES = tuple(range(2000, 2040))
INSERT_MANY_VALUES = "INSERT u " + ", ".join("(?)" for _ in MANY_VALUES)
KEYS = array.array("q", [key for key, _ in NEW_ROWS])
TEXTS = [text for _, text in NEW_ROWS]
OFFSETS = array.array("i", itertools.accumulate(map(len, TEXTS), initial=0))
BYTES = "".join(TEXTS).encode()
UNIQUE = "\udcffx"
SCRIPT = "INSERT t\n  (7000, 'x')"
State = tuple[bool, list[Any], list[Any], list[Any]]


class Case:
    """A call. `before` prepares a connection for it, and makes what the call takes."""

    def __init__(self, call: Callable[[Any], Any], before: Callable[[mmdb.Connection], Any] = lambda connection: connection) -> None:
        self.call, self.before = call, before


def opened() -> mmdb.Connection:
    connection = mmdb.connect()
    connection.executescript("TABLE t (id INT KEY, s TEXT)\nTABLE u (id INT KEY)\nINDEX by_s ON t (s) TREE")
    connection.watch("w", "SELECT a.id FROM t a WHERE a.id < 9")
    connection.executemany(INSERT, [(number, f"text {number}") for number in range(120)])
    connection.commit()
    return connection


def state_of(connection: mmdb.Connection) -> State:
    return (connection.in_transaction, *(connection.execute(line).fetchall() for line in ("SCAN t", "SCAN u", "SHOW w")))


def scanned(connection: mmdb.Connection) -> mmdb.Cursor:
    return connection.execute("SCAN t")


def found(connection: mmdb.Connection) -> mmdb.Cursor:
    return connection.execute(LOOK_UP, (5,))


def named(connection: mmdb.Connection) -> mmdb.Cursor:
    connection.row_factory = mmdb.Row
    return connection.execute(RANGE, (115,))


def loaded(connection: mmdb.Connection) -> None:
    try:
        connection.load("BEGIN\nINSERT t (3000, 'x')\r\nSCAN u\nCOMMIT")
    except (MemoryError, mmdb.Error):
        connection.rollback()
        raise


def with_savepoint(connection: mmdb.Connection) -> None:
    with connection.savepoint("s"):
        pass


CASES = {
    "connect": Case(lambda c: mmdb.connect(check_same_thread=False)),
    "cursor": Case(lambda c: c.cursor()),
    "a look-up": Case(lambda c: c.execute(LOOK_UP, (5,)).fetchone()),
    "a look-up again": Case(lambda c: c.execute(LOOK_UP, (7,)).fetchone(), lambda c: (c.execute(LOOK_UP, (5,)), c)[1]),
    "a range": Case(lambda c: c.execute(RANGE, [3]).fetchall()),
    "a scan": Case(lambda c: c.execute("SCAN t")),
    "a scan over lines": Case(lambda c: c.execute("SCAN\r\nt")),
    "iteration": Case(lambda cursor: [row for row in cursor], scanned),
    "fetchall": Case(lambda cursor: cursor.fetchall(), scanned),
    "fetchmany": Case(lambda cursor: cursor.fetchmany(7), scanned),
    "fetchcolumns": Case(lambda cursor: cursor.fetchcolumns()["s"], scanned),
    "fetchcolumns of a row": Case(lambda cursor: cursor.fetchcolumns()[0], found),
    "arrow": Case(lambda columns: columns.__arrow_c_array__(), lambda c: scanned(c).fetchcolumns()),
    "description": Case(lambda cursor: cursor.description, scanned),
    "named rows": Case(lambda cursor: [(row["id"], row.keys(), repr(row), hash(row)) for row in cursor], named),
    "tables": Case(lambda c: c.execute("TABLES").fetchall()),
    "a plan": Case(lambda c: c.execute("EXPLAIN " + LOOK_UP, (5,)).fetchall()),
    "an insert": Case(lambda c: c.execute(INSERT, (3000, "three thousand"))),
    "an insert of bytes": Case(lambda c: c.execute(INSERT, (3000, b"\xffx"))),
    "an insert of another text": Case(lambda c: c.execute(INSERT, (3000, UNIQUE[:1] + "x"))),
    "an insert by a generator": Case(lambda c: c.execute(INSERT, (value for value in (3000, "x")))),
    "an insert of many values": Case(lambda c: c.execute(INSERT_MANY_VALUES, MANY_VALUES)),
    "an insert in a transaction": Case(lambda c: c.execute(INSERT, (3000, "x")), lambda c: (c.execute(INSERT, (2000, "y")), c)[1]),
    "an update": Case(lambda c: c.execute("UPDATE t SET s = ? WHERE id < ?", ("changed", 30))),
    "a delete": Case(lambda c: c.execute("DELETE t WHERE id > ?", (30,))),
    "executemany": Case(lambda c: c.executemany(INSERT, NEW_ROWS)),
    "executecolumns": Case(lambda c: c.executecolumns(INSERT, (KEYS, TEXTS))),
    "append": Case(lambda c: c.append("t", (KEYS, TEXTS))),
    "append of a buffer of texts": Case(lambda c: c.append("t", (KEYS, (OFFSETS, BYTES)))),
    "append in a transaction": Case(lambda c: c.append("u", [KEYS]), lambda c: (c.execute(INSERT, (2000, "y")), c)[1]),
    "a refused append": Case(lambda c: is_refused(c.append, "t", ([5], ["x"]))),
    "executescript": Case(lambda c: c.executescript(SCRIPT)),
    "load": Case(loaded),
    "a refused load": Case(lambda c: is_refused(c.load, "SCAN t\nINSERT t (5, 'x')")),
    "a savepoint": Case(with_savepoint),
    "commit": Case(lambda c: c.commit(), lambda c: (c.execute(INSERT, (2000, "y")), c)[1]),
    "rollback": Case(lambda c: c.rollback(), lambda c: (c.execute(INSERT, (2000, "y")), c)[1]),
    "watch": Case(lambda c: c.watch("v", "SELECT a.s FROM t a")),
    "show": Case(lambda c: c.show("w").fetchall()),
    "in_transaction": Case(lambda c: (c.in_transaction, c.total_changes, c._statements)),
    "a refused line": Case(lambda c: is_refused(c.execute, "SCAN nothing")),
    "a refused run": Case(lambda c: is_refused(c.execute, INSERT, (5, "x"))),
    "a refused value": Case(lambda c: is_refused(c.execute, INSERT, (5000, 2.5))),
    "a refused row": Case(lambda c: is_refused(c.executemany, INSERT, [(4000,)])),
    "definition": Case(lambda c: c.definition("w", "watch")),
    "a refused definition": Case(lambda c: is_refused(c.definition, "nothing")),
    "a piece of a dump": Case(lambda c: c._dump_piece(0, 0, 0)),
    "the shell's calls": Case(lambda c: (c._execute_line(b"SCAN t"), c._reply_text(), c._reply_rows(b"SCAN t"), c._columns_of(b"SCAN t"))),
}


class Memory:
    """The calls of refuse.c, which is preloaded."""

    def __init__(self) -> None:
        library = ctypes.CDLL(None)
        self.refuse, self.was_refused, self.in_use = library.refuse_growth, library.growth_was_refused, library.memory_in_use
        self.refuse.argtypes, self.refuse.restype = [ctypes.c_long], None
        self.in_use.restype = ctypes.c_size_t
        # The growths for which CPython lost an exception, and with it all that its frames refer to.
        self.lost: set[tuple[str, int]] = set()


def is_refused(call: Callable[..., Any], *arguments: Any) -> None:
    """Makes a call that is refused. Raises what says that memory was refused to it."""
    try:
        call(*arguments)
    except MemoryError:
        raise
    except mmdb.Error as error:
        if error.number == MEMORY:
            raise
        return
    raise AssertionError("the call was not refused")


def made(memory: Memory, name: str, given: Any, growth: int) -> tuple[bool, BaseException | None]:
    """Makes a call to which a growth is refused. Returns whether it was, and the exception that says so."""
    was_refused = memory.was_refused
    memory.refuse(growth)
    try:
        CASES[name].call(given)
    except MemoryError as error:
        return bool(was_refused()), error
    except mmdb.OperationalError as error:
        assert error.number == MEMORY and error.args[0].endswith("memory"), error
        return bool(was_refused()), error
    except SystemError as error:
        # CPython loses an exception if the traceback for it cannot be allocated, after the call. Of a function of the
        # package that returns NULL without an exception it says something else.
        assert error.args == ("error return without exception set",), error
        memory.lost.add((name, growth))
        return bool(was_refused()), error
    return bool(was_refused()), None


def refused_once(memory: Memory, name: str, case: Case, growth: int) -> bool:
    """Refuses a call a growth. Returns whether there was such a growth."""
    if (name, growth) in memory.lost:
        return True
    connection = opened()
    given = case.before(connection)
    before = state_of(connection)
    refused, error = made(memory, name, given, growth)
    if not refused:
        assert error is None, (name, growth, error)
        return False
    runs = getattr(error, "runs", None) or 0
    if error is not None and not runs:
        assert state_of(connection) == before, (name, growth, "the refused call changed something")
    if error is not None and runs:
        assert state_of(connection)[1] == before[1] + NEW_ROWS[:runs], (name, growth, runs)
        connection.rollback()
    if error is not None:
        case.call(given)
    fresh = opened()
    case.call(case.before(fresh))
    assert state_of(connection) == state_of(fresh), (name, growth, "the call that was given again did something else")
    return True


def growths_of(memory: Memory, name: str) -> int:
    growth = 1
    while refused_once(memory, name, CASES[name], growth):
        growth += 1
    return growth - 1


def leaks(memory: Memory, name: str) -> int:
    """Refuses a call each growth, several times. Returns how many bytes each time leaves in use."""
    least = None
    for _ in range(MOST_ROUNDS):
        gc.collect()
        before = memory.in_use()
        growths_of(memory, name)
        gc.collect()
        more = memory.in_use() - before
        least = more if least is None else min(least, more)
        if least <= 0:
            break
    return least or 0


def main() -> None:
    names = sys.argv[1:] or list(CASES)
    memory = Memory()
    total = 0
    for name in names:
        total += growths_of(memory, name)
        leaked = leaks(memory, name)
        assert leaked <= 0, (name, f"{leaked} bytes more are in use")
    print(f"{total} growths were refused to {len(names)} calls")


if __name__ == "__main__":
    main()
