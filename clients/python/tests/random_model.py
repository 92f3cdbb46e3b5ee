"""A model of the Python client in plain Python: what each call returns or raises, and what is so afterwards.

The language is that of tests/language.py, which docs/LANGUAGE.md decides. This file has what the client adds to it: values for holes,
cursors and their rows, transactions that begin by themselves, savepoints of a with statement, closed connections and threads.

A call of the model is a generator. It yields once, where the client runs Python code of the program (values, rows, row factories): what it
looks at before and what it does after are the two parts of a call. It returns what the call returns, or raises Expected.
"""

import functools
import pathlib
import re
import sys
from collections.abc import Callable, Generator, Iterable
from typing import Any, NamedTuple

import mmdb

_FILE = pathlib.Path(__file__).resolve().parents[3] / "tests" / "language.py"
sys.path.append(str(_FILE.parent))
import language  # noqa: E402

# The values that executemany takes at a time, before the runs that they are for.
VALUES_AT_A_TIME = 1024
QUESTIONS = {b"SCAN", b"SCAN INDEX", b"SELECT", b"SHOW", b"EXPLAIN", b"TABLES"}
CHANGES = {b"INSERT", b"UPDATE", b"DELETE"}
PIECE = re.compile(rb"('[^']*')|([+-]?)[ \t]*\?")
KINDS = {
    mmdb.DataError: (10, 12, 13, 30, 32),
    mmdb.ProgrammingError: (11, 20, 21, 22, 23, 24, 25, 26, 31, 50, 51, 52, 53),
    mmdb.IntegrityError: (40, 41, 42, 43),
    mmdb.OperationalError: (45, 46, 47, 48, 90),
}
KIND_OF = {number: kind for kind, numbers in KINDS.items() for number in numbers}

Call = Generator[None, None, Any]


class Expected(Exception):
    """The exception that a call must raise: one of a class, with the number of a refusal or None; or this very one.

    Which are the program's own, since its code raised them inside the call, is told by `is_own`.
    """

    def __init__(self, kind: type | None = None, number: int | None = None, error: BaseException | None = None, is_own: bool = False):
        super().__init__(kind, number, error)
        self.kind, self.number, self.error = kind, number, error
        self.is_own = is_own or error is not None
        # How many runs of an executemany were done.
        self.runs: int | None = None

    def is_met_by(self, error: BaseException | None) -> bool:
        if self.error is not None:
            return error is self.error
        if type(error) is not self.kind:
            return False
        if not isinstance(error, mmdb.Error):
            return True
        has_words = self.number is None or language.TEXTS[self.number] in str(error)
        return error.number == self.number and error.runs == self.runs and has_words


def refused(number: int) -> Expected:
    return Expected(KIND_OF[number], number)


class Prepared(NamedTuple):
    """A line with holes: its command where each hole has 0, the word of the command, and the number of holes."""

    line: bytes
    command: tuple | None
    word: bytes
    count: int


def line_of(text: str) -> bytes:
    """The bytes of a line. Outside of texts a line feed counts as a blank."""
    if "\n" in text:
        parts = text.split("'")
        parts[::2] = [part.replace("\r\n", " ").replace("\n", " ") for part in parts[::2]]
        text = "'".join(parts)
    return text.encode("utf-8", "surrogateescape")


@functools.lru_cache(4096)
def prepared(text: str) -> Prepared:
    """Reads a line as mmdb_prepare does, or raises its refusal."""
    check_text(text)
    line = line_of(text)
    holes = 0

    def zero(found: re.Match) -> bytes:
        nonlocal holes
        holes += not found[1]
        return found[1] or found[2] + b" 0 "

    is_comment = line.startswith(b"--")
    try:
        language.refuse(10, len(line) > language.LONGEST_LINE)
        command = None if is_comment else language.read(PIECE.sub(zero, line))
    except language.Refused as error:
        raise refused(error.number) from None
    return Prepared(line, command, command[0] if command else b"", holes)


def check_text(text: str) -> None:
    """A line must have bytes in UTF-8, with lone surrogates for those that are no UTF-8."""
    try:
        bytes_of(text)
    except UnicodeEncodeError:
        raise Expected(mmdb.ProgrammingError) from None


def filled(line: bytes, values: list[int | bytes]) -> bytes:
    """The line with a value in the place of each hole. A number in the place of digits has the sign before it."""
    left = iter(values)

    def literal(found: re.Match) -> bytes:
        if found[1]:
            return found[1]
        value = next(left)
        if not found[2]:
            return language.shown(value)
        if isinstance(value, bytes):
            raise language.Refused(11)
        return b"%+d" % (-value if found[2] == b"-" else value)

    return PIECE.sub(literal, line) if values else line


class Connection:
    """A connection: the database, and what the client knows beside it."""

    def __init__(self, thread: int, autocommit: bool, is_checked: bool, text_type: type, expect_trace: Callable[[Any], None]):
        self.database = language.Database()
        # The type of the texts that are fetched.
        self.text_type = text_type
        self.autocommit = autocommit
        self.thread = thread if is_checked else None
        self.is_closed = False
        self.total_changes = 0
        # The trace callback, and what is called where it must have been called; this raises Expected if the callback has raised.
        self.trace: Any = None
        self.expect_trace = expect_trace

    def check(self, thread: int) -> None:
        if self.is_closed or self.thread not in (None, thread):
            raise Expected(mmdb.ProgrammingError)

    @property
    def in_transaction(self) -> bool:
        return self.database.saved is not None

    def columns(self, command: tuple) -> list[tuple[str, type]]:
        """The columns of the rows that a question returns."""
        word, *said = command
        tables = self.database.tables
        if word in (b"EXPLAIN", b"TABLES"):
            return [("line", str)]
        if word in (b"SCAN", b"SCAN INDEX"):
            columns = tables[self.database.owner(said[0]) if word == b"SCAN INDEX" else said[0]].columns
        else:
            query = self.database.standing[said[0]] if word == b"SHOW" else said[0]
            names = {alias: name for name, alias in query.items}
            columns = [tables[names[field.alias]].column(field.column) for field in query.fields]
        return [(column.name.decode(), int if column.type == b"INT" else str) for column in columns]

    def answered(self, word: bytes, line: bytes) -> bytes:
        """The reply to a line, or its refusal."""
        reply = self.database.answer(line)
        if reply.startswith(b"error "):
            raise refused(int(reply.split(b" ")[1]))
        if word in CHANGES:
            self.total_changes += int(reply[3:])
        return reply

    def run(self, line: Prepared, values: list[int | bytes]) -> bytes:
        """The reply to a line with its values, or its refusal. A change and a SAVEPOINT begin a transaction if they have to."""
        if any(isinstance(value, bytes) and b"\n" in value for value in values):
            raise Expected(mmdb.DataError)
        begins = line.word in CHANGES | {b"SAVEPOINT"} and not self.autocommit and not self.in_transaction
        if begins:
            self.database.do_begin()
        try:
            return self.answered(line.word, filled(line.line, values))
        except (Expected, language.Refused) as error:
            if begins:
                self.database.do_rollback()
            raise error if isinstance(error, Expected) else refused(error.number) from None

    def appends(self, thread: int, table: str, columns: Any) -> Call:
        """append(). `columns` has rows(), what the columns are or Expected. The number of rows becomes its `changed`."""
        self.check(thread)
        yield
        rows = columns.rows()
        self.expect_trace(self.trace)
        self.check(thread)
        if any(isinstance(value, bytes) and b"\n" in value for row in rows for value in row):
            raise Expected(mmdb.DataError)
        if not rows and table.encode() not in self.database.tables:
            raise refused(20)
        begins = not self.autocommit and not self.in_transaction
        if begins:
            self.database.do_begin()
        if not rows:
            return
        tuples = (b"(" + b", ".join(map(language.shown, row)) + b")" for row in rows)
        try:
            columns.changed = int(self.answered(b"INSERT", b"INSERT %s %s" % (table.encode(), b", ".join(tuples)))[3:])
        except Expected:
            if begins:
                self.database.do_rollback()
            raise

    def enters(self, thread: int) -> Call:
        """__enter__(), and each other call that only asks whether the connection may be used."""
        self.check(thread)
        yield

    def ends(self, thread: int, word: str) -> Call:
        """commit() and rollback()."""
        self.check(thread)
        yield
        if self.in_transaction:
            self.database.do_commit() if word == "commit" else self.database.do_rollback()

    def sets_autocommit(self, thread: int, value: bool) -> Call:
        self.check(thread)
        yield
        if value and self.in_transaction:
            self.database.do_commit()
        self.autocommit = value

    def closes(self, thread: int) -> Call:
        if not self.is_closed:
            self.check(thread)
        yield
        self.is_closed = True


class Savepoint:
    """A savepoint of a with statement."""

    def __init__(self, connection: Connection, name: str):
        self.connection, self.name = connection, name
        self.is_own = False

    def begins(self, thread: int) -> Call:
        """savepoint() and __enter__()."""
        self.connection.check(thread)
        yield
        database = self.connection.database
        begins = not self.connection.in_transaction
        if begins:
            database.do_begin()
        self.is_own = begins and self.connection.autocommit
        try:
            database.do_savepoint(self.name.encode())
        except language.Refused as error:
            raise refused(error.number) from None
        self.own = database.savepoints[-1]

    def ends(self, thread: int, is_good: bool) -> Call:
        """__exit__(). It means its own savepoint, whatever other ones with its name there are."""
        self.connection.check(thread)
        yield
        database = self.connection.database
        places = [place for place, savepoint in enumerate(database.savepoints) if savepoint is self.own]
        if not places:
            return
        if not is_good:
            database.go_back(self.own[1])
        database.savepoints = database.savepoints[: places[0]]
        if self.is_own:
            database.do_commit() if is_good else database.do_rollback()


class Cursor:
    """A cursor, with the lines of the reply as the rows that are left."""

    def __init__(self, connection: Connection):
        self.connection = connection
        self.is_closed = False
        self.forget()

    def forget(self) -> None:
        self.lines: list[bytes] | None = None
        self.columns: list[tuple[str, type]] | None = None
        self.rowcount, self.at = -1, 0

    def check(self, thread: int) -> None:
        if self.is_closed:
            raise Expected(mmdb.ProgrammingError)
        self.connection.check(thread)

    def closes(self) -> Call:
        yield
        self.forget()
        self.is_closed = True

    def executes(self, thread: int, text: Any, values: Any) -> Call:
        """execute(). `values` has cells(), what the values are or Expected: they are taken before the line is looked at."""
        self.begins(thread, text)
        yield
        # What runs inside the call may use this cursor. Whether the call succeeds or not, the rows of that line are gone then.
        try:
            cells = values.cells()
            self.connection.expect_trace(self.connection.trace)
            self.check(thread)
            line = prepared(text)
            if len(cells) != line.count:
                raise refused(31)
            reply = self.connection.run(line, cells)
        finally:
            self.forget()
        if line.word in QUESTIONS:
            self.lines = reply.split(b"\n")[:-2]
            self.columns = self.connection.columns(line.command)
            self.rowcount = len(self.lines)
        elif line.word in CHANGES:
            self.rowcount = int(reply[3:])

    def executes_many(self, thread: int, text: Any, rows: Any) -> Call:
        """executemany(). `rows` adds the rows that are taken to its `many`, as far as there are or up to what raises."""
        self.begins(thread, text)
        many = rows.many = Runs(self, text, thread)
        trace = self.connection.trace
        yield
        try:
            self.connection.expect_trace(trace)
            many.begin()
            rows.take_all()
            many.flush()
        except Expected as error:
            if many.has_begun and not error.is_own and error.runs is None:
                many.flush()
                error.runs = many.runs
            raise
        finally:
            self.forget()
        self.rowcount = many.changed

    def begins(self, thread: int, text: Any) -> None:
        if not isinstance(text, str):
            raise Expected(TypeError)
        self.check(thread)
        self.forget()

    def scripts(self, thread: int, script: "Script") -> Call:
        """executescript()."""
        self.check(thread)
        self.forget()
        yield
        try:
            script.run_rest()
        finally:
            self.forget()

    def check_rows(self) -> None:
        if self.is_closed or self.connection.is_closed or self.lines is None:
            raise Expected(mmdb.ProgrammingError)

    def take(self, most: int) -> list[bytes]:
        """The next rows, at most so many, as lines of the reply."""
        taken = (self.lines or [])[self.at : self.at + most]
        self.at += len(taken)
        return taken


class Script:
    """The commands of a script, which are run in turn, each after the trace callback."""

    def __init__(self, connection: Connection, thread: int, commands: Iterable[str]):
        self.connection, self.thread = connection, thread
        lines = [line_of(text) for text in commands]
        self.left = [line for line in lines if line.strip() and not line.startswith(b"--")]
        # The command for which the trace callback was called.
        self.traced: bytes | None = None

    def follow(self) -> None:
        """The trace callback is called: the commands before this one are done."""
        if self.traced is not None:
            self.run(self.traced)
        self.traced = self.left.pop(0)

    def run(self, line: bytes) -> None:
        self.connection.expect_trace(self.connection.trace)
        self.connection.check(self.thread)
        self.connection.answered(prepared(line.decode("utf-8", "surrogateescape")).word, line)

    def run_rest(self) -> None:
        if self.traced is not None:
            self.run(self.traced)
        for line in self.left:
            self.run(line)


class Runs:
    """The runs of an executemany: rows are added, and run when there are as many as the client takes at a time."""

    def __init__(self, cursor: Cursor, text: str, thread: int):
        self.cursor, self.text, self.thread = cursor, text, thread
        self.waiting: list[list[int | bytes]] = []
        self.runs = self.changed = 0
        self.has_begun = False

    @property
    def line(self) -> Prepared:
        return prepared(self.text)

    def begin(self) -> None:
        """What the client looks at before it takes rows."""
        if not self.has_begun:
            self.cursor.connection.check(self.thread)
            if self.line.word not in CHANGES:
                raise Expected(mmdb.ProgrammingError)
            self.has_begun = True

    def add(self, cells: list[int | bytes]) -> None:
        if len(cells) != self.line.count:
            raise refused(31)
        self.waiting.append(cells)
        if len(self.waiting) == (max(1, VALUES_AT_A_TIME // self.line.count) if cells else 1):
            self.flush()

    def flush(self) -> None:
        self.cursor.check(self.thread)
        waiting, self.waiting = self.waiting, []
        for cells in waiting:
            try:
                reply = self.cursor.connection.run(self.line, cells)
            except Expected as error:
                error.runs = self.runs
                raise
            self.runs += 1
            self.changed += int(reply[3:])


def shown(row: Iterable[Any], text_type: type = str) -> bytes:
    """A row of the client as the line of a reply, which has the type of each value in it."""
    values = []
    for value in row:
        assert type(value) in (int, text_type), f"a value of type {type(value)}"
        values.append(language.shown(value if isinstance(value, int) else bytes_of(value)))
    return b"(" + b", ".join(values) + b")"


def bytes_of(text: str | bytes) -> bytes:
    """The bytes of a text, which an object of the program's own may have too."""
    return str.encode(text, "utf-8", "surrogateescape") if isinstance(text, str) else bytes(text)
