"""What the programs of the random test pass to the client, as it is given and as the model takes it."""

from __future__ import annotations

import array
import itertools
import weakref
from collections.abc import Callable, Iterator
from typing import TYPE_CHECKING, Any

import mmdb
from random_model import Cursor, Expected, Runs, Script, bytes_of, refused, shown
from random_steps import ERRORS, LEAST, MOST, Calls, Factory, Rows, Steps, Values

if TYPE_CHECKING:
    from random_runner import Runner


class Called:
    """Python code of the program that the client runs: a value, values, rows or a row factory. `ran` counts how often, `due` how often it
    had to."""

    def __init__(self, runner: Runner, steps: Steps, error: str | None):
        self.runner, self.steps = runner, steps
        self.error = ERRORS[error]("of the program") if error else None
        self.ran = self.due = 0
        # What the model has to do first.
        self.before: Callable[[], None] = lambda: None
        runner.called.append(self)

    def run(self) -> None:
        with self.runner.paused():
            self.ran += 1
            self.before()
            self.runner.inside(self.steps)
        if self.error is not None:
            raise self.error

    def expect(self, is_generator: bool = False) -> None:
        self.due += 1
        if is_generator and isinstance(self.error, StopIteration):
            raise Expected(RuntimeError, is_own=True)
        if self.error is not None:
            raise Expected(error=self.error)


class Number(Called):
    """A value with __index__."""

    def __init__(self, runner: Runner, spec: Calls):
        super().__init__(runner, spec.steps, spec.error)
        self.value = spec.value
        # A list that loses its values.
        self.emptied: list | None = None

    def __index__(self) -> Any:
        self.run()
        if self.emptied is not None:
            self.emptied.clear()
        return self.value


class GivenValues(Called):
    """The values of a line, as they are given and as the model takes them."""

    def __init__(self, runner: Runner, spec: Values):
        super().__init__(runner, spec.steps, spec.error)
        self.spec = spec
        self.items = [Number(runner, item) if isinstance(item, Calls) else item for item in spec.items]

    def given(self) -> Any:
        made = {
            "tuple": lambda: tuple(self.items),
            "list": lambda: list(self.items),
            "shrinking": self.shrinking,
            "generator": self.generated,
            "dict": lambda: dict(enumerate(self.items)),
            "text": lambda: "ab",
            "bytes": lambda: b"ab",
            "set": lambda: {1, 2},
            "none": lambda: None,
        }
        return made[self.spec.kind]()

    def shrinking(self) -> list[Any]:
        given = list(self.items)
        for item in self.items:
            if isinstance(item, Number):
                item.emptied = given
        return given

    def generated(self) -> Iterator[Any]:
        for place, item in enumerate(self.items):
            if place == self.spec.at:
                self.run()
            yield item
        if self.spec.at == len(self.items):
            self.run()

    def cells(self, count: int | None = None) -> list[int | bytes]:
        """What the values are, or Expected. As a row they must be so many."""
        if self.spec.kind not in ("tuple", "list", "shrinking", "generator"):
            raise Expected(mmdb.ProgrammingError)
        if self.spec.kind == "generator":
            self.expect(is_generator=True)
        if count not in (None, len(self.items)):
            raise refused(31)
        cells = []
        for item in self.items:
            cells.append(self.cell(item))
            if self.spec.kind == "shrinking" and isinstance(item, Number) and len(cells) < len(self.items):
                raise Expected(IndexError, is_own=True)
        return cells

    def cell(self, item: Any) -> int | bytes:
        if isinstance(item, Number):
            item.expect()
            item = item.value
        if isinstance(item, int):
            if not LEAST <= item <= MOST:
                raise refused(12)
            return int.__add__(item, 0)
        if not isinstance(item, (str, bytes)):
            raise Expected(mmdb.NotSupportedError)
        try:
            text = bytes_of(item)
        except UnicodeEncodeError:
            raise Expected(mmdb.DataError) from None
        if len(text) > 64:
            raise refused(13)
        return text


class GivenRows(Called):
    """The rows of an executemany, as they are given and as the model takes them."""

    many: Runs

    def __init__(self, runner: Runner, spec: Rows):
        super().__init__(runner, spec.steps, spec.error)
        self.spec = spec
        self.rows = [GivenValues(runner, row) for row in spec.rows]
        self.taken = 0
        self.before = lambda: self.take_up_to(spec.at)
        for place, row in enumerate(self.rows):
            for one in (row, *row.items):
                if isinstance(one, Called):
                    one.before = lambda place=place: self.take_up_to(place)

    def given(self) -> Any:
        if self.spec.kind == "none":
            return None
        return self.generated() if self.spec.kind == "generator" else [row.given() for row in self.rows]

    def generated(self) -> Iterator[Any]:
        for place, row in enumerate(self.rows):
            if place == self.spec.at:
                self.run()
            yield row.given()
        if self.spec.at == len(self.rows):
            self.run()

    def take_up_to(self, place: int) -> None:
        """What the client has taken, and run, before it takes this row."""
        try:
            self.many.begin()
            while self.taken < place:
                self.take_next()
        except Expected as expected:
            self.runner.fail(f"row {place} was taken after {expected.args}")

    def take_next(self) -> None:
        self.expect_own()
        row = self.rows[self.taken]
        self.taken += 1
        self.many.add(row.cells(self.many.line.count))

    def expect_own(self) -> None:
        if self.spec.kind == "generator" and self.taken == self.spec.at and not self.due:
            self.expect(is_generator=True)

    def take_all(self) -> None:
        if self.spec.kind == "none":
            raise Expected(TypeError, is_own=True)
        while self.taken < len(self.rows):
            self.take_next()
        self.expect_own()


class GivenColumns(GivenRows):
    """The rows of an executecolumns: as columns of lists, of int64 and of texts in Arrow's layout."""

    def given(self) -> Any:
        return tuple(self.column(list(values)) for values in zip(*(row.items for row in self.rows)))

    @staticmethod
    def column(values: list[Any]) -> Any:
        if all(type(value) is int and LEAST <= value <= MOST for value in values):
            return array.array("q", values)
        if all(type(value) is bytes and len(value) < 65 for value in values):
            ends = itertools.accumulate(map(len, values), initial=0)
            return array.array("i", ends), b"".join(values)
        return values

    @staticmethod
    def rows_of(columns: mmdb.Columns) -> list[tuple]:
        """Columns as rows."""
        found = []
        for place in range(len(columns)):
            column = columns[place]
            if isinstance(column, tuple):
                ends, text = column
                found.append([bytes(text[ends[row] : ends[row + 1]]) for row in range(columns.rows)])
            else:
                found.append(column.tolist())
        return list(zip(*found))


class GivenArrays:
    """The columns of an append, as they are given and as the model takes them."""

    def __init__(self, runner: Runner, columns: tuple):
        self.columns = [GivenValues(runner, Values("tuple", column)) for column in columns]
        # How many rows were inserted.
        self.changed = 0

    def given(self) -> Any:
        return tuple(GivenColumns.column(list(column.items)) for column in self.columns)

    def rows(self) -> list[tuple[int | bytes, ...]]:
        """The rows, or Expected. The columns are taken one after the other, and all values of a list have one type."""
        return list(zip(*(self.cells(column) for column in self.columns)))

    @staticmethod
    def cells(column: GivenValues) -> list[int | bytes]:
        cells: list[int | bytes] = []
        for item in column.items:
            cells.append(column.cell(item))
            if isinstance(cells[0], bytes) != isinstance(cells[-1], bytes):
                raise refused(30)
        return cells


class NoValues:
    """No values."""

    @staticmethod
    def cells() -> list[int | bytes]:
        return []


NO_VALUES = NoValues()


class Frame:
    """A call that runs: what the trace callback raised, or None, each time that it was called; and the script that runs, or the cursor
    whose rows are fetched, if any."""

    def __init__(self, script: Script | None = None, fetched: tuple[mmdb.Cursor, Cursor, Any] | None = None):
        self.traces: list[BaseException | None] = []
        self.script, self.fetched = script, fetched


class Trace(Called):
    """A trace callback, which runs steps and may raise when it is called for the nth time."""

    def __init__(self, runner: Runner, at: int, steps: Steps, error: str | None):
        super().__init__(runner, steps, error)
        runner.called.remove(self)
        self.at = at

    def __call__(self, line: str) -> None:
        with self.runner.paused():
            error = self.traced()
        if error is not None:
            raise error

    def traced(self) -> BaseException | None:
        frame = self.runner.frames[-1]
        if frame.script is not None:
            self.runner.follow(frame.script)
        # What a finalizer runs is not counted, since nobody knows when it comes.
        self.ran += not self.runner.is_quiet
        is_due = self.ran == self.at and not self.runner.is_quiet
        if is_due:
            self.runner.inside(self.steps)
        frame.traces.append(self.error if is_due else None)
        return frame.traces[-1]


class Made(Called):
    """A row factory. It compares each row with that of the model."""

    def __init__(self, runner: Runner, spec: Factory):
        super().__init__(runner, spec.steps, spec.error)
        runner.called.remove(self)
        self.kind, self.at = spec.kind, spec.at
        self.calls = 0
        # What was returned in the fetch that runs, and the call in which the error was raised.
        self.returned: list[Any] = []
        self.raised_in: Frame | None = None
        self.cursor: Cursor | None = None

    def __call__(self, cursor: mmdb.Cursor, row: tuple) -> Any:
        with self.runner.paused():
            wanted = self.cursor.take(1)
            if wanted != [shown_or_text(row, self.cursor.columns, self.cursor.connection.text_type)]:
                self.runner.fail(f"a row factory got {row!r}, not {wanted!r}")
            self.calls += 1
        if self.calls - 1 == self.at:
            self.raised_in = self.runner.frames[-1] if self.error is not None else None
            self.run()
        made = {"list": list, "nothing": lambda row: None, "same": lambda row: row}[self.kind](row)
        self.returned.append(made)
        return made

    def expect_error(self) -> None:
        """The call that is over raised what the factory has raised in it."""
        if self.raised_in is self.runner.frames[-1]:
            raise Expected(error=self.error)


class OwnText(bytes):
    """What a text_factory of the program makes of a text."""


class OwnTexts:
    """A text_factory of the program. At its nth call it runs steps, and puts another one in its place, so that nothing refers to it."""

    def __init__(self, runner: Runner, connection: mmdb.Connection, steps: Steps):
        self.runner, self.connection, self.steps = runner, weakref.ref(connection), steps
        self.left = 10

    def __call__(self, text: bytes) -> OwnText:
        self.left -= 1
        connection = self.connection()
        if self.left == 0 and connection is not None:
            self.runner.aside(self.steps)
            connection.text_factory = OwnTexts(self.runner, connection, self.steps)
        return OwnText(text)


def shown_or_text(row: Any, columns: list[tuple[str, type]] | None, text_type: type) -> bytes:
    """A row with these columns as the line of the reply from which it comes."""
    if columns != [("line", str)]:
        return shown(row, text_type)
    [text] = row
    assert type(text) is text_type, f"a text of type {type(text)}"
    return bytes_of(text)


class Garbage:
    """An object in a cycle whose finalizer runs steps."""

    def __init__(self, runner: Runner, steps: Steps):
        self.runner, self.steps, self.me = runner, steps, self

    def __del__(self) -> None:
        self.runner.aside(self.steps)
