"""Runs steps on the client and on the model, and compares what each call returns or raises and what is so afterwards."""

import collections
import contextlib
import gc
import queue
import threading
import weakref
from collections.abc import Callable, Iterator
from typing import Any

import mmdb
from mmdb._library import LEAST_REFUSAL, Database, decoded
from random_given import NO_VALUES, Called, Frame, Garbage, GivenArrays, GivenColumns, GivenRows, GivenValues, Made, OwnText, OwnTexts, Trace
from random_given import shown_or_text
from random_model import Call, Connection, Cursor, Expected, Savepoint, Script, refused
from random_steps import CONNECTIONS, CURSORS, ERRORS, QUIET, THREADS, Draw, Factory, Rows, Steps, Target, Values

GREATEST_COUNT = 1_000_000


class Failure(BaseException):
    """The client and the model differ."""


class Worker:
    """A thread that does one job after another, each while the one that gave it waits."""

    def __init__(self) -> None:
        self.jobs: queue.SimpleQueue = queue.SimpleQueue()
        self.done: queue.SimpleQueue = queue.SimpleQueue()
        self.thread = threading.Thread(target=self.work, daemon=True)
        self.thread.start()

    def work(self) -> None:
        while (job := self.jobs.get()) is not None:
            try:
                job()
            except BaseException as error:
                self.done.put(error)
            else:
                self.done.put(None)

    def do(self, job: Callable[[], None]) -> None:
        self.jobs.put(job)
        error = self.done.get()
        if error is not None:
            raise error

    def end(self) -> None:
        self.jobs.put(None)
        self.thread.join()


class Runner:
    """The client and the model side by side."""

    def __init__(self, counts: collections.Counter | None = None) -> None:
        self.count = 0
        # How often each step ran, and each refusal came.
        self.counts = collections.Counter() if counts is None else counts
        self.failure: Failure | None = None
        # The place of the thread that runs now, and of those that wait for it; and for each place the number of its thread.
        self.here = 0
        self.busy = {0}
        self.threads = list(range(THREADS))
        self.workers: list[Worker | None] = [None] * THREADS
        self.called: list[Called] = []
        self.connections: list[tuple[mmdb.Connection, Connection] | None] = [None] * CONNECTIONS
        self.cursors: list[tuple[mmdb.Cursor, Cursor, Made | str | None] | None] = [None] * (CURSORS + 2)
        self.kept: list[Any] = []
        self.tuples: list[tuple] = []
        self.use_up_tuples(2000)
        self.is_quiet = False
        # Whether the client is called right now, and none of its callbacks: where a signal handler may run lines.
        self.is_calling = False
        self.frames: list[Frame] = []

    @property
    def thread(self) -> int:
        """The number of the thread that runs now. None has it again."""
        return self.threads[self.here]

    def fail(self, what: str) -> None:
        if self.failure is None:
            self.failure = Failure(what)
        raise self.failure

    def run(self, steps: Steps) -> None:
        for step in steps:
            if self.failure is not None:
                raise self.failure
            name, *given = step
            self.count += 1
            self.counts[name] += 1
            try:
                getattr(self, "do_" + name)(*given)
                if not self.is_quiet:
                    self.observe()
            except Failure:
                raise
            except BaseException as error:
                if self.failure is None:
                    self.failure = Failure(f"{step!r} raised {error!r}")
                raise self.failure from error

    @contextlib.contextmanager
    def paused(self) -> Iterator[None]:
        """While the model is at work in the middle of a call, no finalizer and no signal handler uses it."""
        collects, is_calling = gc.isenabled(), self.is_calling
        gc.disable()
        self.is_calling = False
        try:
            yield
        finally:
            self.is_calling = is_calling
            if collects:
                gc.enable()

    def inside(self, steps: Steps) -> None:
        """Runs steps in the middle of a call."""
        called, self.called = self.called, []
        with self.paused():
            try:
                self.run(steps)
            finally:
                self.called = called

    def aside(self, steps: Steps) -> None:
        """Runs steps at any time, as a finalizer does. Whether the call that they are in has done its work yet is not known."""
        was, self.is_quiet = self.is_quiet, True
        try:
            self.inside(steps)
        finally:
            self.is_quiet = was

    def ends(self) -> None:
        """What is to be done at the end of a program."""
        for slot in range(CONNECTIONS):
            self.do_tables(slot)
        for worker in self.workers:
            if worker is not None:
                worker.end()

    def follow(self, script: Script) -> None:
        try:
            script.follow()
        except (Expected, IndexError) as error:
            self.fail(f"a script went on after {error!r}")

    def attempt(self, what: str, real: Callable[[], Any], model: Call, collects: bool = True, **frame: Any) -> tuple[bool, Any]:
        """Makes a call of both. Returns whether it returned, and what."""
        called = self.called
        self.frames.append(Frame(**frame))
        expected = advanced(model)
        result, raised = self.made(real, collects)
        if self.failure is not None:
            raise self.failure
        if expected is None:
            expected = advanced(model)
        if self.frames.pop().traces:
            self.fail(f"{what} called the trace callback too often")
        for one in called:
            if one.ran != one.due:
                self.fail(f"{what} ran {type(one).__name__} {one.ran} times, not {one.due}; it raised {raised!r}")
        called.clear()
        self.compare(what, expected if isinstance(expected, Expected) else None, raised)
        return raised is None, result

    def made(self, real: Callable[[], Any], collects: bool) -> tuple[Any, BaseException | None]:
        """Makes a call of the client, in which finalizers and signal handlers may run. Returns what it returned and what it raised."""
        was = gc.isenabled()
        try:
            # A finalizer that ran in a finalizer's call would use its cursor.
            if collects and not self.is_quiet:
                # The collector starts at the nth object that the call makes, for another n in each call.
                gc.set_threshold(gc.get_count()[0] + self.count * 7 % 10, 3, 3)
                gc.enable()
                self.is_calling = True
            result = real()
            self.is_calling = False
            return result, None
        except BaseException as error:
            self.is_calling = False
            return None, error
        finally:
            if not was:
                gc.disable()

    def compare(self, what: str, expected: Expected | None, raised: BaseException | None) -> None:
        """Compares what a call raised with what it must raise."""
        if expected is not None and not expected.is_met_by(raised):
            told = raised if raised is None else (type(raised), str(raised), vars(raised))
            self.fail(f"{what} must raise {expected.args}, and raised {told}")
        if expected is None and raised is not None:
            self.fail(f"{what} raised {raised!r}")
        if isinstance(raised, mmdb.Error):
            self.counts[f"{type(raised).__name__} {raised.number}"] += 1

    def expect_trace(self, trace: Trace | None) -> None:
        """The trace callback must have been called, if there was one. If it was removed by its own steps, it was called too."""
        if traces := self.frames[-1].traces:
            error = traces.pop(0)
            if error is not None:
                raise Expected(error=error)
        elif trace is not None:
            self.fail("the trace callback was not called")

    def observe(self) -> None:
        """Compares what is so between two calls."""
        for pair in self.connections:
            if pair is not None:
                self.observe_connection(*pair)
        for entry in self.cursors:
            if entry is None:
                continue
            real, model, _ = entry
            columns = real.description
            found = real.rowcount, real.rownumber, columns and [column[:2] for column in columns]
            wanted = model.rowcount, None if model.lines is None else model.at, model.columns
            if found != wanted:
                self.fail(f"rowcount, rownumber and columns of a cursor are {found}, not {wanted}")

    def observe_connection(self, real: mmdb.Connection, model: Connection) -> None:
        try:
            found: Any = real.in_transaction, real.total_changes, real.autocommit
        except mmdb.ProgrammingError:
            found = None
        try:
            model.check(self.thread)
            wanted: Any = model.in_transaction, model.total_changes, model.autocommit
        except Expected:
            wanted = None
        if found != wanted:
            self.fail(f"in_transaction, total_changes and autocommit are {found}, not {wanted}")

    # The steps.

    def do_asked(self, steps: Steps) -> None:
        self.run(steps)

    do_redefined = do_asked

    def do_connect(self, slot: int, autocommit: bool, is_checked: bool, texts: str, steps: Steps) -> None:
        real = mmdb.connect(autocommit=autocommit, check_same_thread=is_checked)
        factories: dict[str, Any] = {"none": None, "str": str, "bytes": bytes}
        real.text_factory = OwnTexts(self, real, steps) if texts == "own" else factories[texts]
        text_type = {"bytes": bytes, "own": OwnText}.get(texts, str)
        self.connections[slot] = real, Connection(self.thread, autocommit, is_checked, text_type, self.expect_trace)

    def do_trace(self, slot: int, at: int, steps: Steps, error: str | None) -> None:
        if (pair := self.connections[slot]) is None:
            return
        trace = Trace(self, at, steps, error) if at else None
        done, _ = self.attempt("set_trace_callback()", lambda: pair[0].set_trace_callback(trace), pair[1].enters(self.thread))
        if done:
            pair[1].trace = trace

    def do_reconnect(self, slot: int, how: str, has_tables: bool, *given: Any) -> None:
        if how == "close":
            self.do_close(slot)
        self.connections[slot] = None
        if how == "quit":
            for place, entry in enumerate(self.cursors):
                if entry is not None and place % CONNECTIONS == slot:
                    self.cursors[place] = None
        self.do_connect(slot, *given)
        if has_tables:
            self.run(Steps([Draw.tables_of(slot)]))

    def do_close(self, slot: int) -> None:
        if pair := self.connections[slot]:
            self.attempt("close()", pair[0].close, pair[1].closes(self.thread), collects=False)

    def do_cursor(self, slot: int, to: int, spec: Factory) -> None:
        if (pair := self.connections[slot]) is None:
            return
        done, real = self.attempt("cursor()", pair[0].cursor, pair[1].enters(self.thread))
        if not done:
            return
        factory: Any = Made(self, spec) if spec.kind in ("list", "nothing", "same") else {"none": None, "row": mmdb.Row}[spec.kind]
        real.row_factory = factory
        model = Cursor(pair[1])
        if isinstance(factory, Made):
            factory.cursor = model
        self.cursors[to] = real, model, factory

    def do_close_cursor(self, at: int) -> None:
        if entry := self.cursors[at]:
            self.attempt("close()", entry[0].close, entry[1].closes())

    def do_drop_cursor(self, at: int, steps: Steps) -> None:
        """A cursor that nothing refers to any more, with a weak reference whose callback runs steps."""
        if entry := self.cursors[at]:
            self.cursors[at] = None
            self.kept.append(weakref.ref(entry[0], lambda _: self.aside(steps)))
            del self.kept[:-9]

    def found(self, target: Target) -> tuple[Any, Cursor, Any] | None:
        """A cursor; or a connection, with the model of the cursor that it makes."""
        if target.where == "cursor":
            return self.cursors[target.at]
        if (pair := self.connections[target.slot]) is None:
            return None
        return pair[0], Cursor(pair[1]), None

    def performed(self, what: str, target: Target, call: Callable[[Any], Any], model: Callable[[Cursor], Call | Script]) -> None:
        """Makes a call of a cursor, or of a connection whose new cursor it keeps."""
        if (found := self.found(target)) is None:
            return self.do_cursor(target.slot, target.at, Factory("none"))
        real, cursor, factory = found
        expected = model(cursor)
        script = expected if isinstance(expected, Script) else None
        expected = expected if script is None else cursor.scripts(self.thread, script)
        done, result = self.attempt(what, lambda: call(real), expected, script=script)
        if done and target.where == "cursor" and result is not real:
            self.fail(f"{what} returned {result!r}")
        if done and target.where == "connection":
            self.cursors[target.at] = result, cursor, factory

    def do_execute(self, target: Target, line: Any, spec: Values) -> None:
        if type(line) is str and self.count % 3 == 0:
            # The same line as another object.
            line = (line + " ")[:-1]
        values = GivenValues(self, spec)
        plain = "".join(line) if isinstance(line, str) else line
        given = (values.given(),) if spec.items or spec.kind != "tuple" or self.count % 2 else ()
        self.performed(f"execute({line!r}, {spec!r})", target, lambda on: on.execute(line, *given), self.executes(plain, values))

    def executes(self, line: Any, values: Any) -> Callable[[Cursor], Call]:
        return lambda cursor: cursor.executes(self.thread, line, values)

    def do_executemany(self, target: Target, line: str, spec: Rows) -> None:
        rows = GivenRows(self, spec)
        given = rows.given()
        what = f"executemany({line!r}, {spec!r:.300})"
        self.performed(what, target, lambda on: on.executemany(line, given), self.executes_many(line, rows))

    do_many = do_executemany

    def do_executecolumns(self, target: Target, line: str, spec: Rows) -> None:
        rows = GivenColumns(self, spec)
        given = rows.given()
        what = f"executecolumns({line!r}, {spec!r:.300})"
        self.performed(what, target, lambda on: on.executecolumns(line, given), self.executes_many(line, rows))

    def executes_many(self, line: str, rows: GivenRows) -> Callable[[Cursor], Call]:
        return lambda cursor: cursor.executes_many(self.thread, line, rows)

    def do_append(self, slot: int, table: str, columns: tuple) -> None:
        if (pair := self.connections[slot]) is None:
            return
        real, model = pair
        arrays = GivenArrays(self, columns)
        given = arrays.given()
        what = f"append({table!r}, {columns!r:.300})"
        done, result = self.attempt(what, lambda: real.append(table, given), model.appends(self.thread, table, arrays))
        if done and result != arrays.changed:
            self.fail(f"{what} returned {result!r}, not {arrays.changed}")

    def do_script(self, target: Target, commands: tuple, end: str) -> None:
        text = end.join(commands)

        def script(cursor: Cursor) -> Script:
            return Script(cursor.connection, self.thread, commands)

        self.performed(f"executescript({text!r})", target, lambda on: on.executescript(text), script)

    def do_load(self, slot: int, commands: tuple, end: str) -> None:
        """Loads a script of a line for each command, in one call of the library."""
        if (pair := self.connections[slot]) is None:
            return
        real, model = pair
        text = end.join(commands)
        done, result = self.attempt(f"load({text!r})", lambda: real.load(text), self.loads(model, commands))
        if done and result is not None:
            self.fail(f"load returned {result!r}")

    def loads(self, model: Connection, commands: tuple) -> Call:
        """The lines of a script that is loaded."""
        model.check(self.thread)
        yield
        model.expect_trace(model.trace)
        model.check(self.thread)
        for text in commands:
            line = text.encode("utf-8", "surrogateescape")
            if line.strip() and not line.startswith(b"--"):
                model.answered(line.split(None, 1)[0], line)

    def do_fetch(self, at: int, how: str, size: int) -> None:
        if (entry := self.cursors[at]) is None:
            return
        real, model, factory = entry
        most = {"one": 1, "next": 1, "many": max(size, 0)}.get(how, GREATEST_COUNT)
        calls = {
            "one": real.fetchone,
            "next": real.__next__,
            "many": lambda: real.fetchmany(size),
            "all": real.fetchall,
            "list": lambda: list(real),
            "columns": lambda: GivenColumns.rows_of(real.fetchcolumns()),
        }
        if isinstance(factory, Made) and how != "columns":
            self.fetch_made(how, most, calls, model, factory)
        else:
            self.fetch_plain(how, most, calls, entry)

    def fetch_plain(self, how: str, most: int, calls: dict[str, Callable[[], Any]], entry: tuple[mmdb.Cursor, Cursor, Any]) -> None:
        """Fetches rows of which no code of the program makes other ones."""
        _, model, factory = entry
        taken: list[bytes] = []
        columns = model.columns

        def fetches() -> Call:
            model.check_rows()
            if how == "next" and model.at == model.rowcount:
                raise Expected(StopIteration)
            taken.extend(model.take(most))
            yield

        # Where all rows are taken from the cursor before the first object is made, a finalizer may use it meanwhile.
        is_taken_first = factory is None and how != "list" and model.rowcount > 1 and model.connection.text_type is not OwnText
        done, rows = self.attempt(f"fetch {how}", calls[how], fetches(), fetched=entry if is_taken_first else None)
        if not done:
            return
        if how in ("one", "next"):
            rows = [rows] if rows is not None or taken else []
        if how == "columns":
            found = [shown_or_text(row, columns, bytes) for row in rows]
        elif any(type(row) is not (mmdb.Row if factory is mmdb.Row else tuple) for row in rows):
            self.fail(f"fetch {how} returned rows of another type: {rows!r}")
        else:
            found = [shown_or_text(row, columns, model.connection.text_type) for row in rows]
        if found != taken:
            self.fail(f"fetch {how} returned {found!r}, not {taken!r}")

    def do_steal(self, line: str | None) -> None:
        """Uses the cursor whose rows are being fetched: for a line, or to fetch the rows that are left."""
        entry = self.frames[-1].fetched if self.frames else None
        if entry is None:
            return
        place = CURSORS + 1
        self.cursors[place] = entry
        if line is None:
            self.do_fetch(place, "all", 0)
        else:
            self.do_execute(Target("cursor", 0, place), line, Values("tuple", ()))
        self.cursors[place] = None

    def fetch_made(self, how: str, most: int, calls: dict[str, Callable[[], Any]], model: Cursor, factory: Made) -> None:
        """Fetches rows that a row factory makes. It looks at them itself, and may fetch rows too."""
        outer, factory.returned = factory.returned, []

        def fetches() -> Call:
            model.check_rows()
            if how == "next" and model.at == model.rowcount:
                raise Expected(StopIteration)
            yield
            factory.expect_error()
            if how == "list":
                model.check_rows()

        done, rows = self.attempt(f"fetch {how}", calls[how], fetches())
        made, factory.returned = factory.returned, outer
        if not done:
            return
        if how in ("one", "next"):
            rows = [rows] if rows is not None or made else []
        if model.lines is not None and len(made) < most and model.at < model.rowcount:
            self.fail(f"fetch {how} left rows")
        if len(rows) != len(made) or any(row is not one for row, one in zip(rows, made)):
            self.fail(f"fetch {how} returned {rows!r}, not {made!r}")

    def do_end(self, slot: int, word: str) -> None:
        if pair := self.connections[slot]:
            self.attempt(f"{word}()", getattr(pair[0], word), pair[1].ends(self.thread, word))

    def do_autocommit(self, slot: int, value: bool) -> None:
        if pair := self.connections[slot]:
            self.attempt("autocommit", lambda: setattr(pair[0], "autocommit", value), pair[1].sets_autocommit(self.thread, value))

    def do_block(self, slot: int, steps: Steps, error: str | None) -> None:
        """A with statement of a connection."""
        if (pair := self.connections[slot]) is None:
            return
        real, model = pair
        done, result = self.attempt("__enter__()", real.__enter__, model.enters(self.thread))
        if done and result is not real:
            self.fail(f"__enter__() returned {result!r}")
        if done:
            self.inside(steps)
            word = "rollback" if error else "commit"
            _, result = self.attempt(f"__exit__({error})", lambda: real.__exit__(*raised_by(error)), model.ends(self.thread, word))
            if result:
                self.fail("__exit__() hid an exception")

    def do_savepoint(self, slot: int, name: str, steps: Steps, error: str | None) -> None:
        """A with statement of a savepoint."""
        if (pair := self.connections[slot]) is None:
            return
        model = Savepoint(pair[1], name)
        done, real = self.attempt("savepoint()", lambda: pair[0].savepoint(name).__enter__(), model.begins(self.thread))
        if done:
            self.inside(steps)
            _, result = self.attempt(f"__exit__({error})", lambda: real.__exit__(*raised_by(error)), model.ends(self.thread, not error))
            if result:
                self.fail("__exit__() hid an exception")

    def do_savepoints(self, slot: int, count: int) -> None:
        for _ in range(count):
            self.do_savepoint(slot, "a", Steps(), None)

    def do_lines(self, slot: int, first: int, count: int) -> None:
        """So many lines that were not there before, which the client keeps in the place of older ones."""
        if (pair := self.connections[slot]) is None:
            return
        real, model = pair
        for number in range(first, first + count):
            line = f"SELECT a.k FROM side a WHERE a.id = {number}"
            found, values = self.attempt(line, lambda: real.execute(line), self.line_runs(model))
            if not found:
                return
            if values.fetchall() != []:
                self.fail(f"{line} found a row")

    def line_runs(self, model: Connection) -> Call:
        """One of these lines."""
        model.check(self.thread)
        yield
        model.expect_trace(model.trace)
        if b"side" not in model.database.tables:
            raise refused(20)

    def do_pair(self, slot: int) -> None:
        """A row that comes and goes, where that begins no transaction."""
        pair = self.connections[slot]
        if pair is None or not pair[1].autocommit:
            return
        for line in ("INSERT side (77, 0)", "DELETE side WHERE id = 77"):
            self.performed(line, Target("connection", slot, QUIET), lambda on: on.execute(line), self.executes(line, NO_VALUES))

    def use_up_tuples(self, count: int) -> None:
        """The interpreter keeps tuples that are free, and starts no collector where it takes one of these for a row."""
        self.tuples += [tuple([0] * width) for width in (1, 2, 3) for _ in range(count)]

    def do_garbage(self, steps: Steps, kind: str) -> None:
        self.use_up_tuples(50)
        if kind == "weak":
            holder = type("Holder", (), {})()
            holder.me = holder
            self.kept.append(weakref.ref(holder, lambda _: self.aside(steps)))
        elif kind == "cycle":
            Garbage(self, steps)
        else:
            error = KeyError(Garbage(self, steps))
            error.__context__ = KeyError(error)

    def do_collect(self) -> None:
        gc.collect()

    def do_in_thread(self, number: int, steps: Steps) -> None:
        """Runs steps in another thread, while this one waits."""
        if number in self.busy:
            return
        if self.workers[number] is None:
            self.workers[number] = Worker()
        before, self.here = self.here, number
        self.busy.add(number)
        try:
            self.workers[number].do(lambda: self.inside(steps))
        finally:
            self.busy.remove(number)
            self.here = before

    def do_end_thread(self, number: int, slot: int, made: tuple, used: tuple) -> None:
        """The system may give the identity of the thread that ends to the next one. No other thread may use what it made."""
        if number in self.busy:
            return
        self.run(Steps([made]))
        self.workers[number].end()
        self.workers[number] = None
        self.threads[number] = max(self.threads) + 1
        self.run(Steps([used, ("reconnect", slot, "drop", True, False, True, "none", Steps())]))

    def do_tables(self, slot: int) -> None:
        """Compares all rows of all tables."""
        if (pair := self.connections[slot]) is None:
            return
        real, model = pair
        try:
            model.check(self.thread)
        except Expected:
            return
        for line in ["TABLES", *(f"SCAN {name.decode()}" for name in model.database.tables)]:
            cursor = Cursor(model)
            done, found = self.attempt(line, lambda: real.execute(line), cursor.executes(self.thread, line, NO_VALUES), collects=False)
            if not done:
                # The trace callback raised.
                continue
            rows = [shown_or_text(row, cursor.columns, model.text_type) for row in found.fetchall()]
            if rows != cursor.lines:
                self.fail(f"{line} returned {rows}, not {cursor.lines}")
        self.check_dump(Database(real))

    def check_dump(self, real: Database) -> None:
        """Sees that the dump of a database rebuilds it: the same catalog, rows and standing queries."""
        script = b"".join(real.dump())
        copy = Database()
        for line in script.split(b"\n")[:-1]:
            if (status := copy.execute(line)) >= LEAST_REFUSAL:
                self.fail(f"a line of the dump is refused ({status}): {line!r}")
        if b"".join(copy.dump()) != script:
            self.fail(f"the dump of a rebuilt database is not {script!r}")
        loaded = mmdb.connect()
        loaded.load(decoded(script))
        if b"".join(Database(loaded).dump()) != script:
            self.fail(f"the dump of a database that was loaded is not {script!r}")
        kinds: dict[bytes, Any] = {b"TABLE": "table", b"INDEX": "index", b"WATCH": "watch"}
        for line in script.split(b"\n")[:-1]:
            word, name = line.split(b" ", 2)[:2]
            if word in kinds and (found := real.definition(decoded(name), kinds[word])) != line:
                self.fail(f"the definition of {name!r} is {found!r} and not {line!r}")
        loaded.close()
        words = [line.split(b" ", 2)[:2] for line in script.split(b"\n")[:-1]]
        questions = {b"TABLE": b"SCAN ", b"INDEX": b"SCAN INDEX ", b"WATCH": b"SHOW "}
        for line in [b"TABLES", *(questions[word] + name for word, name in words if word in questions)]:
            found, wanted = ((database.execute(line), database.text()) for database in (copy, real))
            if found != wanted:
                self.fail(f"{line!r} returns {found} after the dump, not {wanted}")
        copy.close()


def raised_by(error: str | None) -> tuple:
    """What __exit__ is given of an exception, or of none."""
    return (ERRORS[error], ERRORS[error]("of the block"), None) if error else (None, None, None)


def advanced(model: Call) -> Expected | bool | None:
    """Goes on with a call of the model: None where it yields, True where it returns, or what it must raise."""
    try:
        next(model)
    except StopIteration:
        return True
    except Expected as expected:
        return expected
    return None
