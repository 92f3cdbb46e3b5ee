"""What programs for sqlite3 use besides the Database API: keywords, weak references, factories, counts, dumps, subclasses, pickles."""

import copy
import pickle
import weakref
from collections.abc import Sequence
from typing import Any

import mmdb
import pytest


def test_keywords(papers: mmdb.Connection) -> None:
    line = "SELECT a.name FROM author a WHERE a.id = ?"
    for made in (papers, papers.cursor()):
        assert made.execute(operation=line, parameters=(1,)).fetchall() == [("Carey",)]
        assert made.execute(line, parameters=[2]).fetchmany(size=5) == [("Lehman",)]
        assert made.executemany("DELETE author WHERE id = ?", seq_of_parameters=[(77,)]).rowcount == 0
        made.executescript(script="SCAN author")
        assert made.executecolumns("DELETE author WHERE id = ?", columns=([77, 78],)).rowcount == 0
    assert papers.append(table="author", columns=([7], ["Codd"])) == 1
    papers.commit()
    papers.watch(name="w", query="SELECT a.id FROM author a")
    assert mmdb.connect(autocommit=True, check_same_thread=False).autocommit


def test_wrong_arguments(papers: mmdb.Connection) -> None:
    cursor = papers.cursor()
    for call in (
        lambda: cursor.execute(),
        lambda: cursor.execute("SCAN author", (), ()),
        lambda: cursor.execute("SCAN author", operation="SCAN author"),
        lambda: cursor.execute("SCAN author", values=()),
        lambda: cursor.executemany("SCAN author"),
        lambda: cursor.executescript(5),
        lambda: papers.append("author"),
        lambda: papers.append(5, [[1], ["x"]]),
        lambda: papers.append("author", 5),
        lambda: papers.append("author", [5, ["x"]]),
        lambda: cursor.fetchmany("a"),
        lambda: cursor.fetchmany(1, 2),
        lambda: papers.savepoint(5),
        lambda: papers.watch("w"),
        lambda: papers.watch("w", 5),
        lambda: mmdb.connect(path="a"),
        lambda: mmdb.Cursor(),
        lambda: mmdb.Cursor(5),
        lambda: mmdb.Savepoint(),
        lambda: mmdb.Columns(),
    ):
        with pytest.raises(TypeError):
            call()  # type: ignore[no-untyped-call]


def test_weak_references(papers: mmdb.Connection) -> None:
    cursor = papers.execute("SCAN author")
    told: list[str] = []
    references = weakref.WeakSet([papers, cursor])
    weakref.finalize(cursor, told.append, "cursor")
    assert len(references) == 2
    del cursor
    assert len(references) == 1 and told == ["cursor"]


def test_bytes_are_texts(connection: mmdb.Connection) -> None:
    connection.execute("TABLE t (s TEXT KEY, n INT)")
    connection.execute("INSERT t (?, ?)", (b"abc", 1))
    connection.executemany("INSERT t (?, ?)", [(b"caf\xe9", 2), (mmdb.Binary(b""), 3)])
    assert connection.execute("SCAN t").fetchall() == [("", 3), ("abc", 1), ("caf\udce9", 2)]
    assert connection.execute("SELECT a.n FROM t a WHERE a.s = ?", ("caf\udce9",)).fetchall() == [(2,)]
    with pytest.raises(mmdb.DataError, match="this one has 65"):
        connection.execute("INSERT t (?, 4)", (65 * b"x",))
    with pytest.raises(mmdb.DataError, match="line feed"):
        connection.execute("INSERT t (?, 4)", (b"a\nb",))
    with pytest.raises(mmdb.DataError) as raised:
        connection.execute("INSERT t ('x', ?)", (b"1",))
    assert raised.value.number == 30


def test_text_factories(papers: mmdb.Connection) -> None:
    assert papers.text_factory is None
    papers.text_factory = bytes
    assert papers.execute("SCAN author").fetchall() == [(1, b"Carey"), (2, b"Lehman")]
    assert papers.execute("SELECT a.name FROM author a WHERE a.id = 1").fetchone() == (b"Carey",)
    papers.text_factory = lambda text: text.decode().upper()
    assert papers.execute("SCAN author").fetchall() == [(1, "CAREY"), (2, "LEHMAN")]
    assert papers.execute("SELECT a.name FROM author a WHERE a.id = 1").fetchone() == ("CAREY",)
    assert list(papers.execute("TABLES"))[0] == ("TABLE AUTHOR (ID INT KEY, NAME TEXT) ROWS 2",)
    papers.row_factory = mmdb.Row
    assert papers.execute("SCAN author").fetchone()["name"] == "CAREY"
    papers.text_factory = lambda text: 1 // 0
    for fetch in (mmdb.Cursor.fetchone, mmdb.Cursor.fetchall, next):
        with pytest.raises(ZeroDivisionError):
            fetch(papers.execute("SCAN author"))
    papers.text_factory = str
    assert papers.execute("SCAN author").fetchone()["name"] == "Carey"
    del papers.text_factory, papers.row_factory
    assert papers.execute("SCAN author").fetchone() == (1, "Carey")


def test_total_changes(connection: mmdb.Connection) -> None:
    assert connection.total_changes == 0
    connection.execute("TABLE t (id INT KEY, k INT)")
    connection.executemany("INSERT t (?, 0)", [(number,) for number in range(10)])
    connection.execute("UPDATE t SET k = 1 WHERE id < 5")
    assert connection.total_changes == 15
    with pytest.raises(mmdb.IntegrityError):
        connection.executemany("INSERT t (?, 0)", [(20,), (21,), (1,)])
    assert connection.total_changes == 17
    connection.rollback()
    connection.execute("SCAN t")
    assert connection.total_changes == 17
    connection.executescript("INSERT t (1, 1), (2, 2)\nDELETE t")
    assert connection.total_changes == 21


def test_rowcount_of_many_runs(connection: mmdb.Connection) -> None:
    connection.execute("TABLE t (id INT KEY, k INT)")
    assert connection.executemany("INSERT t (?, 0), (?, 1)", [(n, n + 5000) for n in range(2000)]).rowcount == 4000
    assert connection.executemany("UPDATE t SET k = ? WHERE id < ?", [(2, 5), (3, 7)]).rowcount == 12
    assert connection.executemany("DELETE t WHERE k = 3", [(), ()]).rowcount == 7
    assert connection.executemany("DELETE t WHERE id = ?", iter([])).rowcount == 0


def test_iterdump(papers: mmdb.Connection) -> None:
    papers.execute("INSERT author (?, ?)", (-3, "it's é"))
    papers.commit()
    papers.executescript("INDEX by_name ON author (name) TREE\nWATCH w SELECT a.id FROM author a")
    papers.row_factory, papers.text_factory = mmdb.Row, bytes
    lines = list(papers.iterdump())
    assert lines == [
        "TABLE author (id INT KEY, name TEXT)",
        "TABLE paper (id INT KEY, by INT REF author, title TEXT)",
        "INSERT author (-3, 'it''s é'), (1, 'Carey'), (2, 'Lehman')",
        "INSERT paper (10, 2, 'T-trees'), (11, 1, 'Views'), (12, 2, 'Recovery')",
        "INDEX by_name ON author (name) TREE",
        "WATCH w SELECT a.id FROM author a",
    ]
    again = mmdb.connect()
    again.executescript("\n".join(lines))
    papers.row_factory = papers.text_factory = None
    assert again.row_factory is None
    for line in ("SCAN author", "SCAN paper", "SCAN INDEX by_name", "SHOW w"):
        assert again.execute(line).fetchall() == papers.execute(line).fetchall()


@pytest.mark.parametrize("line", ["DELETE paper", "INDEX i ON paper (title) HASH", "BEGIN"])
def test_iterdump_of_a_database_that_is_changed_meanwhile(papers: mmdb.Connection, line: str) -> None:
    papers.commit()
    papers.executemany("INSERT author (?, ?)", ((number, "x" * 64) for number in range(100, 20000)))
    papers.commit()
    papers.autocommit = True
    lines = papers.iterdump()
    assert next(lines).startswith("TABLE author")
    papers.execute("SCAN author")
    with pytest.raises(mmdb.ProgrammingError):
        papers.execute("DELETE nothing")
    papers.execute(line)
    with pytest.raises(mmdb.ProgrammingError, match="^a command may have changed the database") as raised:
        list(lines)
    assert raised.value.number == 100
    if line != "BEGIN":
        assert len(list(papers.iterdump())) > 90


def test_iterdump_while_questions_are_asked(papers: mmdb.Connection) -> None:
    papers.executemany("INSERT author (?, ?)", ((number, "x" * 64) for number in range(100, 20000)))
    wanted = list(papers.iterdump())
    lines = []
    for line in papers.iterdump():
        lines.append(line)
        assert papers.execute("SELECT a.name FROM author a WHERE a.id = 1").fetchone() == ("Carey",)
    assert lines == wanted and sum(map(len, lines)) > 1 << 20


def test_iterdump_of_a_connection_that_counts_as_false() -> None:
    class Counted(mmdb.Connection):
        def __len__(self) -> int:
            return 0

    connection = Counted()
    connection.execute("TABLE t (id INT KEY)")
    assert list(connection.iterdump()) == ["TABLE t (id INT KEY)"]


def test_definition(papers: mmdb.Connection) -> None:
    papers.commit()
    papers.load("INDEX w ON author (name) HASH\nWATCH w SELECT a.id FROM author a WHERE a.name > '\udcff'\nTABLE w (id INT KEY)")
    papers.row_factory, papers.text_factory = mmdb.Row, bytes
    assert papers.definition("author") == "TABLE author (id INT KEY, name TEXT)"
    assert papers.definition("paper", "table") == "TABLE paper (id INT KEY, by INT REF author, title TEXT)"
    found = [papers.definition(name="w", kind=kind) for kind in ("table", "index", "watch")]
    assert found == [
        "TABLE w (id INT KEY)",
        "INDEX w ON author (name) HASH",
        "WATCH w SELECT a.id FROM author a WHERE a.name>'\udcff'",
    ]
    assert set(found) <= set(papers.iterdump())
    papers.execute("DROP INDEX w")
    with pytest.raises(mmdb.ProgrammingError, match="^no such index: w$") as raised:
        papers.definition("w", "index")
    assert raised.value.number == 22


@pytest.mark.parametrize(
    "name, kind, number",
    [("nope", "table", 20), ("author", "index", 22), ("author", "watch", 23), ("", "table", 11), ("a b", "watch", 11), ("A", "index", 11)],
)
def test_refused_definitions(papers: mmdb.Connection, name: str, kind: Any, number: int) -> None:
    with pytest.raises(mmdb.ProgrammingError) as raised:
        papers.definition(name, kind)
    assert raised.value.number == number


def test_wrong_definitions(papers: mmdb.Connection) -> None:
    wrong: Any = papers
    for arguments in ((), ("author", "table", 1), (1,), (b"author",), ("author", 1), ("author", None)):
        with pytest.raises(TypeError):
            wrong.definition(*arguments)
    for kind in ("", "view", "TABLE"):
        with pytest.raises(mmdb.ProgrammingError, match="^the kind is 'table', 'index' or 'watch'"):
            wrong.definition("author", kind)


def test_load(papers: mmdb.Connection) -> None:
    papers.commit()
    papers.execute("WATCH w SELECT a.id FROM author a WHERE a.name = 'Carey'")
    again = mmdb.connect()
    again.load("\r\n".join(papers.iterdump()))
    assert list(again.iterdump()) == list(papers.iterdump())
    assert not again.in_transaction and again.total_changes == 5
    again.load("")
    again.load("-- nothing\n\n")
    # It begins no transaction.
    again.load("INSERT author (7, 'Gray')")
    assert not again.in_transaction and again.show("w").fetchall() == [(1,)]
    again.load("BEGIN\nDELETE paper")
    assert again.in_transaction
    again.rollback()
    assert len(again.execute("SCAN paper").fetchall()) == 3


@pytest.mark.parametrize(
    "script, line, number, place, message",
    [
        ("INSERT author (3, 'x')\n\nINSERT author (3, 'y')\nINSERT author (4, 'z')", 3, 40, None, "line 3: duplicate key"),
        ("INSERT author (3, 'x')\r\nSCAN nothing\r\n", 2, 20, 5, "line 2: no such table: at 'nothing'"),
        ("INSERT author (3, 'x')\nINSERT author\n(4, 'y')", 2, 11, 13, "line 2: syntax: at the end of the line"),
        ("INSERT author (3, 'x')\nINSERT author (?, 'y')", 2, 11, 22, "line 2: syntax: at the end of the line"),
        ("INSERT author (3, 'x')\nSCAN author" + 4096 * " ", 2, 10, None, "line 2: line too long"),
    ],
)
def test_a_load_stops_at_a_refused_line(
    papers: mmdb.Connection, script: str, line: int, number: int, place: int | None, message: str
) -> None:
    papers.commit()
    with pytest.raises(mmdb.Error) as raised:
        papers.load(script)
    error = raised.value
    assert (error.line, error.number, error.place, error.runs, str(error)) == (line, number, place, None, message)
    assert len(papers.execute("SCAN author").fetchall()) == 3


def test_wrong_loads(papers: mmdb.Connection) -> None:
    wrong: Any = papers
    for arguments in ((), (b"SCAN author",), ("SCAN author", ()), (None,)):
        with pytest.raises(TypeError):
            wrong.load(*arguments)
    with pytest.raises(mmdb.ProgrammingError, match="lone surrogate"):
        papers.load("SCAN \ud800")


def test_a_load_is_traced_once(papers: mmdb.Connection) -> None:
    lines: list[str] = []
    papers.set_trace_callback(lines.append)
    papers.load("SCAN author\nSCAN paper")
    assert lines == ["SCAN author\nSCAN paper"]


def test_savepoints_and_statements_follow_a_load(papers: mmdb.Connection) -> None:
    papers.execute("SCAN author")
    with pytest.raises(mmdb.IntegrityError), papers.savepoint("s"):
        papers.load("INSERT author (3, 'x')\r\nSAVEPOINT s\r\nINSERT author (4, 'y')\r\nINSERT author (4, 'z')")
    assert len(papers.execute("SCAN author").fetchall()) == 2
    papers.commit()
    papers.load("DROP TABLE paper\nDROP TABLE author\nTABLE author (name TEXT KEY)\nINSERT author ('Gray')")
    assert papers.execute("SCAN author").fetchall() == [("Gray",)]


def test_the_line_of_a_script_is_told(papers: mmdb.Connection) -> None:
    with pytest.raises(mmdb.ProgrammingError) as raised:
        papers.executescript("SCAN author\n\nSCAN\n  nothing")
    assert raised.value.line == 3
    with pytest.raises(mmdb.ProgrammingError) as raised:
        papers.execute("SCAN nothing")
    assert raised.value.line is None


def test_there_is_no_interrupt(connection: mmdb.Connection) -> None:
    assert not hasattr(connection, "interrupt")


def test_subclasses(papers: mmdb.Connection) -> None:
    class Named(mmdb.Connection):
        def __init__(self, name: str) -> None:
            super().__init__(autocommit=True)
            self.name = name

        def execute(self, operation: str, parameters: object = ()) -> mmdb.Cursor:
            return super().execute(operation.upper() if operation == "tables" else operation, parameters)

    named = Named("a")
    assert named.autocommit and named.execute("tables").fetchall() == [] and named.cursor().connection is named

    class Own(mmdb.Cursor):
        def fetchone(self) -> object:
            return "mine"

    own = Own(papers)
    assert own.execute("SCAN author").fetchone() == "mine" and own.fetchall()[0] == (1, "Carey")

    class Fields(mmdb.Row):
        def __getattr__(self, name: str) -> object:
            return self[name]

    papers.row_factory = Fields
    row = papers.execute("SCAN author").fetchone()
    assert row.name == "Carey" and type(row[:1]) is tuple


def test_what_was_not_made() -> None:
    class Forgetful(mmdb.Connection):
        def __init__(self) -> None:
            pass

    connection = Forgetful()
    for call in (connection.cursor, connection.commit, lambda: connection.execute("TABLES"), lambda: connection.in_transaction):
        with pytest.raises(mmdb.ProgrammingError, match="__init__ was not called"):
            call()
    connection.close()
    cursor = mmdb.Cursor.__new__(mmdb.Cursor)
    for call in (cursor.fetchone, lambda: cursor.execute("TABLES"), cursor.fetchcolumns):
        with pytest.raises(mmdb.ProgrammingError, match="__init__ was not called"):
            call()
    assert cursor.connection is None and cursor.description is None
    cursor.close()


def test_what_is_made_twice(papers: mmdb.Connection) -> None:
    with pytest.raises(mmdb.ProgrammingError, match="opened once"):
        papers.__init__()  # type: ignore[misc]
    cursor = papers.execute("SCAN author")
    with pytest.raises(mmdb.ProgrammingError, match="made once"):
        cursor.__init__(papers)  # type: ignore[misc]
    assert cursor.fetchone() == (1, "Carey")
    papers.close()
    with pytest.raises(mmdb.ProgrammingError, match="opened once"):
        papers.__init__()  # type: ignore[misc]


def test_errors_can_be_pickled(papers: mmdb.Connection) -> None:
    with pytest.raises(mmdb.ProgrammingError) as raised:
        papers.execute("SCAN nothing")
    again = pickle.loads(pickle.dumps(raised.value))
    assert type(again) is mmdb.ProgrammingError and again.args == raised.value.args
    assert (again.number, again.place, again.runs) == (20, 5, None)


def test_rows_are_sequences(papers: mmdb.Connection) -> None:
    papers.row_factory = mmdb.Row
    one, other = papers.execute("SCAN author").fetchall()
    assert isinstance(one, Sequence) and not isinstance(one, tuple)
    assert list(reversed(one)) == ["Carey", 1] and "Carey" in one and one.count(1) == 1 and one.index("Carey") == 1
    with pytest.raises(ValueError):
        one.index(5)
    assert one != other and one == papers.execute("SCAN author").fetchone() and one != (1, "Carey")
    assert hash(one) == hash(papers.execute("SCAN author").fetchone()) and len({one, other, one}) == 2
    for wrong in (None, 1.5, "nothing", 2, -3):
        with pytest.raises((IndexError, TypeError)):
            one[wrong]
    with pytest.raises(TypeError):
        one < other
    for again in (pickle.loads(pickle.dumps(one)), copy.copy(one), copy.deepcopy(one)):
        assert again == one and type(again) is mmdb.Row and again["name"] == "Carey"
    assert repr(one) == "Row(id=1, name='Carey')" and one[::-1] == ("Carey", 1)


def test_rows_are_made_of_a_cursor_and_a_tuple(papers: mmdb.Connection) -> None:
    cursor = papers.execute("SCAN author")
    assert mmdb.Row(cursor, (1, None)).keys() == ["id", "name"]
    for values in ((), (1,), (1, 2, 3)):
        with pytest.raises(ValueError):
            mmdb.Row(cursor, values)
    with pytest.raises(ValueError):
        mmdb.Row(papers.cursor(), ())
    for arguments in ((), (cursor,), (cursor, [1, 2]), (papers, (1, 2))):
        with pytest.raises(TypeError):
            mmdb.Row(*arguments)


def test_names_that_occur_twice(papers: mmdb.Connection) -> None:
    papers.row_factory = mmdb.Row
    row = papers.execute("SELECT a.id, p.id FROM author a, paper p WHERE p.by = a.id").fetchone()
    assert row.keys() == ["id", "id"] and row["id"] == row[0]


def test_names_of_each_class_of_str(papers: mmdb.Connection) -> None:
    class Name(str):
        pass

    papers.row_factory = mmdb.Row
    row = papers.execute("SCAN author").fetchone()
    assert row[Name("name")] == "Carey" and row["".join(["na", "me"])] == "Carey"
