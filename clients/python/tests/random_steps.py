"""Steps of a program that uses the client: drawn from a seed, run beside the model, and made smaller where they fail.

A step is a tuple of its name and what it takes; Steps in it are run in the middle of it, by a value, a row, a row factory or a finalizer.
The draw looks at no reply, so a program that lost steps is a program still.
"""

import builtins
import random
from collections.abc import Iterator
from typing import Any, NamedTuple

import mmdb

CONNECTIONS, CURSORS, THREADS, DEEPEST = 2, 4, 3, 2
# Cursors that finalizers alone use.
QUIET = CURSORS
MOST, LEAST = 2**63 - 1, -(2**63)

SETUP = """TABLE t (id INT KEY, k INT, s TEXT)
TABLE u (id INT KEY, r INT REF t CASCADE, x TEXT)
TABLE v (name TEXT KEY, r INT REF t)
TABLE side (id INT KEY, k INT)
TABLE bulk (id INT KEY, s TEXT)
TABLE z (a INT KEY, b TEXT)
INDEX i ON t (k) TREE
WATCH w SELECT a.id, b.x FROM t a, u b WHERE b.r = a.id
INSERT side (0, 0), (1, 10), (2, 20), (3, 30)
INSERT t (1, 5, 'a'), (2, 6, 'b'), (3, 7, '')
INSERT u (1, 1, 'of 1'), (2, 2, 'of 2')"""

# Lines with their weights and what their holes take: a key, a number or a text (string).
FORMS = [
    (8, "INSERT t (?, ?, ?)", "kns"), (3, "INSERT t (?, 5, ?), (?, ?, 'it''s ?')", "kskn"), (4, "INSERT u (?, ?, ?)", "kks"),
    (2, "INSERT v (?, ?)", "sk"), (1, "INSERT t (1, 2)", ""), (1, "INSERT t (?, ?)", "kn"), (1, "INSERT t (?, ?, ?)", "snk"),
    (5, "UPDATE t SET k = ? WHERE id = ?", "nk"), (3, "UPDATE t SET k = k + ? WHERE k >= ?", "nn"),
    (2, "UPDATE t SET k = k - ?, s = ?", "ns"), (2, "UPDATE t SET id = id + 1", ""), (2, "UPDATE u SET r = ? WHERE id = ?", "kk"),
    (1, "UPDATE t SET s = ? WHERE s = ?", "ss"),
    (1, "UPDATE u SET x = ? WHERE r > ?", "sk"), (4, "DELETE t WHERE id = ?", "k"), (1, "DELETE t", ""), (3, "DELETE u WHERE r = ?", "k"),
    (1, "DELETE v", ""), (1, "DELETE u", ""), (9, "SELECT a.k, a.s FROM t a WHERE a.id = ?", "k"),
    (3, "SELECT a.id FROM t a WHERE a.k >= ? AND a.k < ?", "nn"), (2, "SELECT a.id, b.x FROM t a, u b WHERE b.r = a.id AND a.k > ?", "n"),
    (2, "SELECT DISTINCT a.k FROM t a ORDER 1", ""), (1, "SELECT a.id, b.id FROM t a, t b WHERE a.id = b.id + ?", "n"),
    (1, "SELECT a.r FROM v a WHERE a.name = ?", "s"), (4, "SCAN t", ""), (3, "SCAN u", ""), (1, "SCAN v", ""),
    (1, "SCAN nothing", ""), (1, "SCAN bulk", ""), (1, "SCAN z", ""), (1, "SELECT a.b FROM z a", ""),
    (1, "SELECT a.id, a.s, b.id FROM t a, t b", ""), (1, "SELECT a.s, b.x, a.s FROM t a, u b", ""),
    (2, "SCAN INDEX i", ""), (1, "SCAN INDEX j", ""), (3, "SHOW w", ""), (1, "SHOW x", ""), (1, "TABLES", ""),
    (1, "EXPLAIN SELECT a.id FROM t a WHERE a.k = ?", "n"), (1, "WATCH x SELECT a.s FROM t a WHERE a.k > 3", ""), (1, "UNWATCH x", ""),
    (1, "UNWATCH w", ""), (1, "WATCH w SELECT a.x, a.id FROM u a", ""), (1, "INDEX j ON t (s) HASH", ""), (1, "DROP INDEX j", ""),
    (1, "INDEX i ON t (k) TREE", ""), (1, "DROP INDEX i", ""), (1, "DROP TABLE v", ""), (1, "TABLE v (name TEXT KEY, r INT REF t)", ""),
    (1, "DROP TABLE u", ""), (1, "TABLE u (id INT KEY, r INT REF t CASCADE, x TEXT)", ""), (1, "TABLE u (x TEXT, id INT KEY)", ""),
    (3, "BEGIN", ""), (3, "COMMIT", ""), (2, "ROLLBACK", ""), (3, "SAVEPOINT a", ""), (1, "SAVEPOINT b", ""), (3, "ROLLBACK TO a", ""),
    (1, "ROLLBACK TO b", ""), (1, "SCAN", ""), (1, "SCAN t;", ""), (1, "", ""), (1, "-- what ?", ""), (1, " \t", ""), (1, "SCAN\nt", ""),
    (1, "SELECT a.s,\r\n a.k\nFROM t a", ""), (1, "INSERT t\n(?,\n?, ?)", "kns"), (1, "INSERT t (9223372036854775808, 1, 'a')", ""),
    (1, "INSERT t (1, 1, '" + 65 * "x" + "')", ""), (1, "SCAN t" + 4091 * " ", ""), (1, "SCAN t" + 4090 * " ", ""),
    (1, "SELECT a.id FROM t a WHERE a.s = '\udce9''?'", ""), (1, "SCAN \ud800", ""),
]  # fmt: skip
WEIGHTS = [weight for weight, _, _ in FORMS]
CHANGES = [form for form in FORMS if form[1][:6] in ("INSERT", "UPDATE", "DELETE")]
CHANGE_WEIGHTS = [weight for weight, _, _ in CHANGES]
QUESTIONS = [form for form in FORMS if form[1].startswith(("SELECT", "SCAN ", "SHOW", "TABLES", "EXPLAIN"))]
QUESTION_WEIGHTS = [weight for weight, _, _ in QUESTIONS]
# Definitions of one table with other columns, each with a row.
DEFINITIONS = [
    ("TABLE z (a INT KEY, b TEXT)", "INSERT z (1, 'x')"),
    ("TABLE z (b TEXT KEY)", "INSERT z ('y')"),
    ("TABLE z (b INT KEY)", "INSERT z (7)"),
    ("TABLE z (c INT, b TEXT, a INT KEY)", "INSERT z (3, 'z', 2)"),
]
# What a finalizer may do while any other call runs: it changes nothing that another call looks at.
QUIET_LINES = ["SELECT a.k FROM side a WHERE a.id = 1", "SELECT a.k FROM side a WHERE a.id >= 1", "SCAN side", "SCAN nothing", "SCAN"]

class OddText(str):
    """A text whose methods are not those of str. As a value and as a line it is the text that it has."""

    def __hash__(self) -> int:
        return 1

    def __eq__(self, other: object) -> bool:
        return True

    def __str__(self) -> str:
        raise AssertionError("__str__ was called")

    encode = __str__


class OddNumber(int):
    """A number whose __index__ is another one."""

    def __index__(self) -> int:
        return 99


TEXTS = [OddText("b"), "", "a", "b", "it's", "''", "?", "\u00e9" * 32, 64 * "z", "\udcff\udc80", "\U0001f600", "a\tb\r", "\0", "--", "of 1"]
ODD_TEXTS = [65 * "z", "\u00e9" * 32 + "a", "\ud800", "a\nb", "\udc41"]
NUMBERS = [OddNumber(4), 0, 1, 2, 3, 5, 7, -1, -5, 100, MOST, LEAST, MOST - 1, True, False]
ODD_VALUES = [b"a", b"\xff'", 65 * b"z", b"a\nb", MOST + 1, LEAST - 1, 10**30, 1.5, None, (1,), [1], 2j, *ODD_TEXTS]
NAMES = ("KeyError", "ValueError", "OverflowError", "TypeError", "MemoryError", "KeyboardInterrupt", "StopIteration")
ERRORS: dict[str, type[BaseException]] = {name: getattr(builtins, name) for name in NAMES} | {
    "mmdb.IntegrityError": mmdb.IntegrityError,
    "mmdb.DataError": mmdb.DataError,
}


class Steps(tuple):
    """Steps that are run in turn."""


class Calls(NamedTuple):
    """A value whose __index__ runs steps, and then raises an error or returns a number."""

    value: Any
    steps: Steps
    error: str | None


class Values(NamedTuple):
    """The values of a line: a tuple; a list, or one that loses its values when one of them is called; a generator, which runs steps before
    one of them and may raise there; or what is refused."""

    kind: str
    items: tuple
    at: int = 0
    steps: Steps = Steps()
    error: str | None = None


class Rows(NamedTuple):
    """The rows of an executemany: a list, or a generator, which runs steps before one of them and may raise there."""

    kind: str
    rows: tuple
    at: int = 0
    steps: Steps = Steps()
    error: str | None = None


class Target(NamedTuple):
    """What runs a line: the cursor at a place, or a connection, whose new cursor then has this place."""

    where: str
    slot: int
    at: int


class Factory(NamedTuple):
    """A row factory: what it makes of rows, and the row at which it runs steps and may raise."""

    kind: str
    at: int = 0
    steps: Steps = Steps()
    error: str | None = None


class Draw:
    """Draws steps from a seed."""

    def __init__(self, seed: Any):
        self.rng = random.Random(seed)
        self.fresh = 0

    def program(self, count: int) -> Steps:
        first = [("connect", slot, *self.connected()) for slot in range(CONNECTIONS)]
        second = [self.tables_of(slot) for slot in range(CONNECTIONS)]
        return Steps([*first, *second, *self.steps(0, count)])

    @staticmethod
    def tables_of(slot: int) -> tuple:
        """Makes the tables of a new connection."""
        return ("script", Target("connection", slot, slot), tuple(SETUP.split("\n")), "\n")

    def connected(self) -> tuple:
        """What connect() is given."""
        texts = self.rng.choice(("none", "none", "none", "str", "bytes", "own"))
        return self.rng.random() < 0.3, self.rng.random() < 0.6, texts, self.quiet() if texts == "own" else Steps()

    def steps(self, depth: int, count: int | None = None) -> Steps:
        if depth > DEEPEST:
            return Steps()
        count = self.rng.choice((0, 1, 1, 2, 3)) if count is None else count
        kinds = self.rng.choices(list(STEPS), list(STEPS.values()), k=count)
        return Steps(getattr(self, kind)(depth) for kind in kinds)

    def slot(self) -> int:
        return self.rng.choice((0, 0, 0, 1))

    def cursor_slot(self) -> int:
        return self.rng.randrange(CURSORS)

    def raised(self, chance: float) -> str | None:
        return self.rng.choice(list(ERRORS)) if self.rng.random() < chance else None

    def value(self, kind: str, depth: int) -> Any:
        drawn = self.rng.random()
        if drawn < 0.03:
            return self.rng.choice(ODD_VALUES)
        if drawn < 0.06:
            return self.rng.choice(NUMBERS + TEXTS)
        if kind == "s":
            return self.rng.choice(TEXTS)
        number = self.rng.randrange(9) if kind == "k" else self.rng.choice(NUMBERS)
        if drawn < 0.14:
            return Calls(number, self.steps(depth + 1), self.raised(0.2))
        return number

    def values(self, kinds: str, depth: int, odd: float = 0.03) -> Values:
        items = tuple(self.value(kind, depth) for kind in kinds)
        drawn = self.rng.random()
        if drawn < odd:
            return Values(self.rng.choice(("dict", "text", "none", "set", "bytes")), items)
        if drawn < 2 * odd:
            return Values("tuple", items[1:] if self.rng.random() < 0.5 else (*items, 5))
        kind = self.rng.choice(("tuple", "tuple", "tuple", "tuple", "list", "list", "shrinking", "generator", "generator"))
        if kind == "generator" and self.rng.random() < 0.4:
            return Values(kind, items, self.rng.randrange(len(items) + 1), self.steps(depth + 1), self.raised(0.2))
        return Values(kind, items)

    def execute(self, depth: int) -> tuple:
        [(_, text, kinds)] = self.rng.choices(FORMS, WEIGHTS)
        line: Any = text if self.rng.random() < 0.97 else self.rng.choice((None, 5, b"SCAN t", OddText(text), OddText("SCAN t")))
        return ("execute", self.target(), line, self.values(kinds, depth))

    def executemany(self, depth: int) -> tuple:
        forms, weights = (CHANGES, CHANGE_WEIGHTS) if self.rng.random() < 0.95 else (FORMS, WEIGHTS)
        [(_, text, kinds)] = self.rng.choices(forms, weights)
        rows = tuple(self.values(kinds, depth, 0.01) for _ in range(self.rng.choice((0, 1, 2, 3, 5, 8))))
        kind = self.rng.choice(("list", "generator", "generator"))
        made = Rows(kind, rows)
        if kind == "generator" and self.rng.random() < 0.5:
            made = Rows(kind, rows, self.rng.randrange(len(rows) + 1), self.steps(depth + 1), self.raised(0.3))
        elif self.rng.random() < 0.03:
            made = Rows("none", ())
        return ("executemany", self.target(), text, made)

    def many(self, depth: int) -> tuple:
        """More rows than the client takes at a time."""
        count = self.rng.choice((511, 512, 513, 1030))
        rows = tuple(Values("tuple", (key, key % 65 * "x")) for key in range(count))
        made = Rows("generator", rows, self.rng.choice((3, 511, 512, 513)), self.steps(depth + 1), self.raised(0.3))
        return ("many", self.target(), "INSERT bulk (?, ?)", made)

    def script(self, depth: int) -> tuple:
        forms = self.rng.choices(FORMS, WEIGHTS, k=self.rng.randrange(5))
        # The command that is not complete goes on in the next line, unless that is empty.
        ends = ("\n\n",) if any(text == "SCAN" for _, text, _ in forms) else ("\n", "\r\n", "\n\n")
        lines = tuple(text for _, text, _ in forms if "\ud800" not in text)
        return ("script", self.target(), lines, self.rng.choice(ends))

    def load(self, depth: int) -> tuple:
        """A script of a line for each command."""
        forms = self.rng.choices(FORMS, WEIGHTS, k=self.rng.randrange(6))
        lines = tuple(text for _, text, _ in forms if "\n" not in text and "\ud800" not in text)
        return ("load", self.slot(), lines, self.rng.choice(("\n", "\r\n", "\n\n")))

    def target(self) -> Target:
        return Target(self.rng.choice(("cursor", "connection")), self.slot(), self.cursor_slot())

    def trace(self, depth: int) -> tuple:
        return ("trace", self.slot(), self.rng.randrange(4), self.steps(depth + 1), self.raised(0.3))

    def executecolumns(self, depth: int) -> tuple:
        [(_, text, kinds)] = self.rng.choices(*zip(*((form, form[0]) for form in CHANGES if form[2])))
        rows = tuple(Values("tuple", tuple(self.value(kind, depth) for kind in kinds)) for _ in range(self.rng.randrange(1, 6)))
        return ("executecolumns", self.target(), text, Rows("list", rows))

    def append(self, depth: int) -> tuple:
        """Rows of a table as columns."""
        forms = (("t", "kns"), ("t", "kns"), ("u", "kks"), ("v", "sk"), ("bulk", "ks"), ("t", "kn"), ("nothing", "k"), ("z", "ks"))
        table, kinds = self.rng.choice(forms)
        rows = self.rng.choice((0, 1, 1, 2, 3, 5))
        columns = tuple(tuple(self.value(kind, depth) for _ in range(rows)) for kind in kinds)
        return ("append", self.slot(), table, columns)

    def fetch(self, depth: int) -> tuple:
        how = self.rng.choice(("one", "one", "many", "all", "next", "list", "columns"))
        return ("fetch", self.cursor_slot(), how, self.rng.choice((0, 1, 2, 3, 5, -1)))

    def asked(self, depth: int) -> tuple:
        """A question and its rows, while objects wait for the collector."""
        target = self.target()
        [(_, text, kinds)] = self.rng.choices(QUESTIONS, QUESTION_WEIGHTS)
        steps = [("execute", target, text, self.values(kinds, depth, 0))]
        for _ in range(self.rng.choice((1, 2, 3))):
            if self.rng.random() < 0.3:
                steps.append(("garbage", Steps([self.steal(depth)]), self.rng.choice(("cycle", "exception"))))
            _, _, how, size = self.fetch(depth)
            steps.append(("fetch", target.at, how, size))
        return ("asked", Steps(steps))

    def redefined(self, depth: int) -> tuple:
        """A table gets other columns, by a script or line by line, and lines that are kept prepared are asked again."""
        target = self.target()._replace(where="connection")
        lines = ("DROP TABLE z", *self.rng.choice(DEFINITIONS))
        steps: list[tuple] = [("end", target.slot, "commit")]
        if self.rng.random() < 0.5:
            steps.append(("script", target, lines, "\n"))
        else:
            steps += [("execute", target, line, Values("tuple", ())) for line in lines]
        for line in ("SCAN z", "SELECT a.b FROM z a"):
            steps += [("execute", target, line, Values("tuple", ())), ("fetch", target.at, "all", 0)]
        return ("redefined", Steps(steps))

    def cursor(self, depth: int) -> tuple:
        kind = self.rng.choice(("none", "none", "row", "list", "nothing", "same"))
        factory = Factory(kind)
        if kind in ("list", "nothing", "same") and self.rng.random() < 0.5:
            factory = Factory(kind, self.rng.randrange(3), self.steps(depth + 1), self.raised(0.3))
        return ("cursor", self.slot(), self.cursor_slot(), factory)

    def close_cursor(self, depth: int) -> tuple:
        return ("close_cursor", self.cursor_slot())

    def drop_cursor(self, depth: int) -> tuple:
        return ("drop_cursor", self.cursor_slot(), self.quiet() if self.rng.random() < 0.5 else Steps())

    def end(self, depth: int) -> tuple:
        return ("end", self.slot(), self.rng.choice(("commit", "commit", "rollback")))

    def autocommit(self, depth: int) -> tuple:
        return ("autocommit", self.slot(), self.rng.random() < 0.3)

    def block(self, depth: int) -> tuple:
        return ("block", self.slot(), self.steps(depth + 1), self.raised(0.4))

    def savepoint(self, depth: int) -> tuple:
        return ("savepoint", self.slot(), self.rng.choice("aab"), self.steps(depth + 1), self.raised(0.4))

    def savepoints(self, depth: int) -> tuple:
        return ("savepoints", self.slot(), 70)

    def lines(self, depth: int) -> tuple:
        self.fresh += 150
        return ("lines", self.slot(), self.fresh, self.rng.choice((1, 5, 127, 128, 130)))

    def reconnect(self, depth: int) -> tuple:
        return ("reconnect", self.slot(), self.rng.choice(("close", "drop", "quit")), self.rng.random() < 0.8, *self.connected())

    def in_thread(self, depth: int) -> tuple:
        return ("in_thread", self.rng.randrange(THREADS), self.steps(depth + 1))

    def end_thread(self, depth: int) -> tuple:
        """A thread makes a connection and ends, and the next one in its place uses that."""
        number, slot = self.rng.randrange(1, THREADS), self.slot()
        made = ("in_thread", number, Steps([("reconnect", slot, "drop", False, False, True, "none", Steps())]))
        used = ("in_thread", number, Steps([("end", slot, "commit"), *self.steps(depth + 1)]))
        return ("end_thread", number, slot, made, used)

    def quiet(self) -> Steps:
        kinds = self.rng.choices(("quiet_line", "quiet_line", "quiet_pair", "lines", "quiet_fetch", "steal", "steal"), k=2)
        return Steps(getattr(self, kind)(0) for kind in kinds)

    def quiet_line(self, depth: int) -> tuple:
        return ("execute", Target("cursor", self.slot(), QUIET), self.rng.choice(QUIET_LINES), Values("tuple", ()))

    def quiet_fetch(self, depth: int) -> tuple:
        return ("fetch", QUIET, self.rng.choice(("one", "all")), 0)

    def steal(self, depth: int) -> tuple:
        return ("steal", self.rng.choice((None, "SCAN side", "SELECT a.k FROM side a WHERE a.id = 1", "SCAN nothing")))

    def quiet_pair(self, depth: int) -> tuple:
        return ("pair", self.slot())

    def garbage(self, depth: int) -> tuple:
        return ("garbage", self.quiet(), self.rng.choice(("cycle", "weak", "exception")))

    def collect(self, depth: int) -> tuple:
        return ("collect",)

    def tables(self, depth: int) -> tuple:
        return ("tables", self.slot())


# How often each kind of step is drawn.
STEPS = {
    "execute": 35, "executemany": 8, "fetch": 10, "asked": 10, "cursor": 5, "end": 7, "script": 2, "load": 2, "close_cursor": 1, "drop_cursor": 1.5,
    "autocommit": 0.7, "block": 2, "savepoint": 4, "savepoints": 0.1, "lines": 1, "reconnect": 0.4, "in_thread": 2, "end_thread": 0.3,
    "garbage": 3, "collect": 1, "tables": 3, "many": 0.05, "trace": 0.7, "redefined": 0.5, "executecolumns": 2,
    "append": 2,
}  # fmt: skip


def reductions(node: Any) -> Iterator[Any]:
    """What is a little smaller: with fewer steps, rows or values, in it or in a part of it; large parts first."""
    if isinstance(node, Calls):
        yield node.value
    if isinstance(node, Steps):
        size = len(node)
        while size > 0:
            for first in range(0, len(node), size):
                yield Steps(node[:first] + node[first + size :])
            size //= 2
    if isinstance(node, tuple):
        for place, part in enumerate(node):
            for smaller in reductions(part):
                parts = (*node[:place], smaller, *node[place + 1 :])
                yield type(node)(*parts) if hasattr(node, "_fields") else type(node)(parts)
