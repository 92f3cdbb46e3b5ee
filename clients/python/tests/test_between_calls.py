"""What happens when Python code runs inside a call: values, generators, factories, finalizers, signal handlers, trace functions."""

import gc
import signal
from collections.abc import Iterator

import mmdb
import pytest

INSERT = "INSERT t (?, ?)"
UPDATE = "UPDATE t SET k = ? WHERE id = ?"


@pytest.fixture
def numbers() -> Iterator[mmdb.Connection]:
    """A connection with autocommit, and the rows (1, 10), (2, 20), (3, 30)."""
    connection = mmdb.connect(autocommit=True)
    connection.executescript("TABLE t (id INT KEY, k INT)\nINSERT t (1, 10), (2, 20), (3, 30)")
    yield connection
    connection.close()


def rows(connection: mmdb.Connection) -> list[tuple[int, int]]:
    return connection.execute("SCAN t").fetchall()


class Number:
    """A number that does something when it is asked for."""

    def __init__(self, connection: mmdb.Connection, line: str, values: tuple[int, ...], number: int) -> None:
        self.call = (connection, line, values)
        self.number = number
        self.calls = 0

    def __index__(self) -> int:
        connection, line, values = self.call
        connection.execute(line, values)
        self.calls += 1
        return self.number


class Session:
    """An object in a cycle that uses the database when it is collected."""

    def __init__(self, connection: mmdb.Connection, line: str) -> None:
        self.me = self
        self.connection, self.line = connection, line

    def __del__(self) -> None:
        self.connection.execute(self.line)


def test_values_that_drop_the_statement_of_their_line(numbers: mmdb.Connection) -> None:
    numbers.execute(INSERT, (7, 70))

    def values() -> Iterator[int]:
        for number in range(200):
            numbers.execute(f"SELECT a.id FROM t a WHERE a.id = {1000 + number}")
        assert INSERT not in numbers._statements
        numbers.execute("DELETE t WHERE id = ?", (999,))
        yield from (3, 0)

    with pytest.raises(mmdb.IntegrityError) as raised:
        numbers.execute(INSERT, values())
    assert raised.value.number == 40
    assert rows(numbers) == [(1, 10), (2, 20), (3, 30), (7, 70)]


def test_rows_that_drop_the_statement_of_their_line(numbers: mmdb.Connection) -> None:
    def many() -> Iterator[tuple[int, int]]:
        for number in range(10):
            for other in range(200):
                numbers.execute(f"SELECT a.id FROM t a WHERE a.id = {1000 * number + other}")
            numbers.execute("DELETE t WHERE id = ?", (999,))
            yield (100 + number, number)

    assert numbers.executemany(INSERT, many()).rowcount == 10
    assert rows(numbers)[3:] == [(100 + number, number) for number in range(10)]


def test_a_value_that_runs_the_same_line(numbers: mmdb.Connection) -> None:
    value = Number(numbers, UPDATE, (200, 2), 1)
    numbers.execute(UPDATE, (100, value))
    assert rows(numbers) == [(1, 100), (2, 200), (3, 30)] and value.calls == 1
    numbers.executemany(UPDATE, [(5, 3), (101, value), (6, 3)])
    assert rows(numbers) == [(1, 101), (2, 200), (3, 6)] and value.calls == 2
    numbers.executecolumns(UPDATE, ([7, 102], [3, value]))
    assert rows(numbers) == [(1, 102), (2, 200), (3, 7)] and value.calls == 3


def test_a_value_with_a_text_is_asked_for_once(connection: mmdb.Connection) -> None:
    connection.execute("TABLE t (id INT KEY, s TEXT)")
    value = Number(connection, "SCAN t", (), 5)
    connection.execute("INSERT t (?, ?)", (value, "a"))
    assert value.calls == 1 and rows(connection) == [(5, "a")]


@pytest.mark.parametrize("kind", [ValueError, OverflowError, KeyError, TypeError, MemoryError, KeyboardInterrupt])
def test_what_a_value_raises(connection: mmdb.Connection, kind: type[BaseException]) -> None:
    connection.execute("TABLE t (id INT KEY, s TEXT)")

    class Bad:
        def __index__(self) -> int:
            raise kind("mine")

    for call in (
        lambda: connection.execute("INSERT t (?, ?)", (Bad(), "x")),
        lambda: connection.executemany("INSERT t (?, ?)", [(1, "x"), (Bad(), "x")]),
        lambda: connection.executecolumns("INSERT t (?, ?)", ([1, Bad()], ["x", "y"])),
        lambda: connection.append("t", ([1, Bad()], ["x", "y"])),
        lambda: connection.execute("SELECT a.id FROM t a WHERE a.id = ?", [Bad()]),
        lambda: connection.execute("INSERT t (?, ?)", (value for value in (Bad(), "x"))),
    ):
        with pytest.raises(kind) as raised:
            call()
        assert type(raised.value) is kind and raised.value.args == ("mine",)
        assert not connection.in_transaction and rows(connection) == []


def test_a_list_that_a_value_makes_shorter(numbers: mmdb.Connection) -> None:
    class Clearing:
        def __index__(self) -> int:
            values.clear()
            return 5

    values = [Clearing(), 1]
    with pytest.raises(IndexError):
        numbers.execute(UPDATE, values)
    values = [1, Clearing(), 3]
    with pytest.raises(IndexError):
        numbers.executecolumns(UPDATE, (values, [1, 2, 3]))
    values = [7, Clearing(), 8]
    with pytest.raises(IndexError):
        numbers.append("t", (values, [1, 2, 3]))
    assert rows(numbers) == [(1, 10), (2, 20), (3, 30)]


@pytest.mark.parametrize("line", ["DELETE u WHERE id = 1", "UPDATE u SET k = 1", "SCAN u", "SELECT a.id FROM u a WHERE a.id = 7"])
def test_finalizers_while_rows_are_made(line: str) -> None:
    connection = mmdb.connect(autocommit=True)
    connection.execute("TABLE t (id INT KEY, s TEXT)")
    connection.execute("TABLE u (id INT KEY, k INT)")
    filled = [(number, str(number)) for number in range(5000)]
    connection.executemany("INSERT t (?, ?)", filled)
    connection.executemany("INSERT u (?, ?)", ((number, number) for number in range(500)))
    threshold = gc.get_threshold()
    gc.set_threshold(50)
    try:
        for _ in range(10):
            Session(connection, line)
            assert connection.execute("SCAN t").fetchall() == filled
            Session(connection, line)
            assert list(connection.execute("SCAN t")) == filled
    finally:
        gc.set_threshold(*threshold)
    gc.collect()


def test_a_signal_handler_while_rows_are_made(numbers: mmdb.Connection) -> None:
    numbers.executemany(INSERT, [(number, number) for number in range(100, 3000)])
    wanted = rows(numbers)
    handled = []

    def handle(*_: object) -> None:
        numbers.execute("SELECT a.k FROM t a WHERE a.id = ?", (1,)).fetchone()
        numbers.execute("UPDATE t SET k = 10 WHERE id = 1")
        handled.append(1)

    before = signal.signal(signal.SIGALRM, handle)
    signal.setitimer(signal.ITIMER_REAL, 0.001, 0.001)
    try:
        for _ in range(200):
            assert rows(numbers) == wanted
    finally:
        signal.setitimer(signal.ITIMER_REAL, 0)
        signal.signal(signal.SIGALRM, before)
    assert handled


def test_rowcount_of_rows_that_change_rows_themselves(numbers: mmdb.Connection) -> None:
    numbers.execute("TABLE queue (id INT KEY)")
    numbers.executemany("INSERT queue (?)", ((number,) for number in range(10, 2000)))

    def from_queue() -> Iterator[tuple[int, int]]:
        while (row := numbers.execute("SCAN queue").fetchone()) is not None:
            numbers.execute("DELETE queue WHERE id = ?", row)
            yield (row[0], 0)
            if row[0] > 300:
                break

    assert numbers.executemany(INSERT, from_queue()).rowcount == 292


@pytest.mark.parametrize("name", ["commit", "rollback"])
def test_control_c_while_a_transaction_ends(name: str) -> None:
    """Whatever the call does, connection and library agree: the next change can be rolled back."""
    connection = mmdb.connect()
    connection.execute("TABLE t (id INT KEY, k INT)")
    connection.executemany(INSERT, ((number, number) for number in range(300)))
    connection.commit()
    raised = 0
    is_armed = False

    def handle(*_: object) -> None:
        if is_armed:
            raise KeyboardInterrupt

    before = signal.signal(signal.SIGALRM, handle)
    try:
        for step in range(600):
            try:
                is_armed = True
                signal.setitimer(signal.ITIMER_REAL, 0.00001 + 0.000001 * (step % 200))
                connection.execute("UPDATE t SET k = ?", (step,))
                getattr(connection, name)()
                is_armed = False
            except KeyboardInterrupt:
                is_armed = False
                raised += 1
            connection.rollback()
            assert not connection.in_transaction
            kept = rows(connection)
            connection.execute("DELETE t")
            assert connection.in_transaction
            connection.rollback()
            assert rows(connection) == kept
    finally:
        is_armed = False
        signal.setitimer(signal.ITIMER_REAL, 0)
        signal.signal(signal.SIGALRM, before)
    assert raised


def test_a_row_factory_may_make_none(numbers: mmdb.Connection) -> None:
    cursor = numbers.cursor()
    cursor.row_factory = lambda cursor, row: None if row[0] == 2 else row[0]
    assert list(cursor.execute("SCAN t")) == [1, None, 3]
    assert cursor.execute("SCAN t").fetchall() == [1, None, 3]
    assert cursor.execute("SCAN t").fetchmany(2) == [1, None]


def test_a_row_factory_that_uses_its_cursor(numbers: mmdb.Connection) -> None:
    cursor = numbers.cursor()
    cursor.row_factory = lambda cursor, row: (row, cursor.fetchone()) if row[0] == 1 else row
    assert cursor.execute("SCAN t").fetchall() == [((1, 10), (2, 20)), (3, 30)]

    def again(cursor: mmdb.Cursor, row: tuple[int, int]) -> tuple[int, int]:
        cursor.row_factory = None
        cursor.execute("SELECT a.k FROM t a WHERE a.id = 2")
        return row

    cursor.row_factory = again
    assert cursor.execute("SCAN t").fetchall() == [(1, 10), (20,)]
    cursor.row_factory = lambda cursor, row: cursor.close()
    cursor.execute("SCAN t")
    assert cursor.fetchall() == [None]


@pytest.mark.parametrize(
    "line, values",
    [("SCAN nothing", ()), ("SCAN t", {"a": 1}), ("SCAN t", (1,)), ("SCAN t", None), ("SELEC", ()), (INSERT, (1, 1)), (INSERT, (5.0, 1))],
)
def test_rows_of_the_line_before_are_gone_after_a_failure(numbers: mmdb.Connection, line: str, values: object) -> None:
    cursor = numbers.execute("SCAN t")
    cursor.fetchone()
    with pytest.raises(mmdb.Error):
        cursor.execute(line, values)  # type: ignore[arg-type]
    assert cursor.description is None and cursor.rowcount == -1 and cursor.rownumber is None
    with pytest.raises(mmdb.ProgrammingError, match="no rows to fetch"):
        cursor.fetchone()


def test_the_cache_drops_the_least_recently_used(numbers: mmdb.Connection) -> None:
    hot = "SELECT a.id FROM t a WHERE a.id = ?"
    for number in range(500):
        numbers.execute(f"SELECT a.id FROM t a WHERE a.id = {number}")
        numbers.execute(hot, (1,))
        assert list(numbers._statements)[-1] == hot
    kept = list(numbers._statements)
    assert len(kept) == 128
    assert kept == [f"SELECT a.id FROM t a WHERE a.id = {number}" for number in range(373, 500)] + [hot]


def test_a_str_of_another_class_is_no_key_of_the_cache(numbers: mmdb.Connection) -> None:
    class Line(str):
        def __hash__(self) -> int:
            return hash("SCAN t")

        def __eq__(self, other: object) -> bool:
            return True

    numbers.execute("SCAN t")
    before = list(numbers._statements)
    with pytest.raises(mmdb.ProgrammingError):
        numbers.execute(Line("SCAN nothing"))
    assert numbers.execute(Line("SELECT a.id FROM t a WHERE a.id = 1")).fetchall() == [(1,)]
    assert list(numbers._statements) == before


def test_values_that_close_the_connection(numbers: mmdb.Connection) -> None:
    class Closing:
        def __index__(self) -> int:
            numbers.close()
            return 1

    with pytest.raises(mmdb.ProgrammingError, match="the connection is closed"):
        numbers.execute(UPDATE, (5, Closing()))


def test_values_that_close_the_cursor(numbers: mmdb.Connection) -> None:
    cursor = numbers.cursor()

    class Closing:
        def __index__(self) -> int:
            cursor.close()
            return 1

    with pytest.raises(mmdb.ProgrammingError, match="the cursor is closed"):
        cursor.execute(UPDATE, (5, Closing()))
    assert rows(numbers)[0] == (1, 10)


def test_values_that_change_the_catalog(numbers: mmdb.Connection) -> None:
    line = "SELECT a.k FROM t a WHERE a.id = ?"
    assert numbers.execute(line, (1,)).fetchall() == [(10,)]

    class Changing:
        def __index__(self) -> int:
            numbers.executescript("DROP TABLE t\nTABLE t (k TEXT, id INT KEY)\nINSERT t ('x', 1)")
            return 1

    cursor = numbers.execute(line, (Changing(),))
    assert cursor.fetchall() == [("x",)] and cursor.description is not None and cursor.description[0][1] is str


def test_a_trace_function_that_runs_lines(numbers: mmdb.Connection) -> None:
    seen: list[str] = []

    def trace(line: str) -> None:
        seen.append(line)
        if not line.startswith("SELECT"):
            for number in range(200):
                numbers.execute(f"SELECT a.id FROM t a WHERE a.id = {number}")

    numbers.set_trace_callback(trace)
    numbers.execute(UPDATE, (11, 1))
    numbers.executemany(UPDATE, [(21, 2), (31, 3)])
    numbers.executescript("UPDATE t\n  SET k = 12\nWHERE id = 1\n\n-- words\nSCAN t")
    numbers.set_trace_callback(None)
    assert rows(numbers) == [(1, 12), (2, 21), (3, 31)]
    told = [line for line in seen if not line.startswith("SELECT")]
    assert told == [UPDATE, UPDATE, "UPDATE t   SET k = 12 WHERE id = 1", "SCAN t"]


def test_what_a_trace_function_raises(numbers: mmdb.Connection) -> None:
    def trace(line: str) -> None:
        raise KeyError(line)

    numbers.set_trace_callback(trace)
    for call in (
        lambda: numbers.execute("DELETE t"),
        lambda: numbers.executemany("DELETE t", [()]),
        lambda: numbers.executescript("DELETE t"),
    ):
        with pytest.raises(KeyError):
            call()
    numbers.set_trace_callback(None)
    assert len(rows(numbers)) == 3
