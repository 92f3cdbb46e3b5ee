"""What PEP 249 asks of a module, point by point in its order."""

import time
from collections.abc import Callable

import mmdb
import pytest

ROW = "INSERT author (?, ?)"


def calls_of(cursor: mmdb.Cursor) -> list[Callable[[], object]]:
    """Each call of a cursor that wants it to be open."""
    return [
        lambda: cursor.execute("SCAN author"),
        lambda: cursor.executemany(ROW, []),
        lambda: cursor.executescript("SCAN author"),
        cursor.fetchone,
        cursor.fetchmany,
        cursor.fetchall,
        lambda: next(cursor),
        lambda: cursor.setinputsizes([]),
        lambda: cursor.setoutputsize(1),
        cursor.__enter__,
    ]


# The module.


def test_globals() -> None:
    assert mmdb.apilevel == "2.0"
    assert mmdb.threadsafety == 1
    assert mmdb.paramstyle == "qmark"


def test_connect_opens_a_database_of_its_own() -> None:
    first, second = mmdb.connect(), mmdb.connect()
    first.execute("TABLE t (id INT KEY)")
    second.execute("TABLE t (name TEXT KEY)")
    assert first.execute("TABLES").fetchall() == [("TABLE t (id INT KEY) rows 0",)]
    first.close()
    assert second.execute("TABLES").fetchall() == [("TABLE t (name TEXT KEY) rows 0",)]
    second.close()


@pytest.mark.parametrize(
    "name, base",
    [
        ("Warning", Exception),
        ("Error", Exception),
        ("InterfaceError", mmdb.Error),
        ("DatabaseError", mmdb.Error),
        ("DataError", mmdb.DatabaseError),
        ("OperationalError", mmdb.DatabaseError),
        ("IntegrityError", mmdb.DatabaseError),
        ("InternalError", mmdb.DatabaseError),
        ("ProgrammingError", mmdb.DatabaseError),
        ("NotSupportedError", mmdb.DatabaseError),
    ],
)
def test_exceptions(name: str, base: type) -> None:
    kind = getattr(mmdb, name)
    assert kind.__bases__ == (base,)
    assert getattr(mmdb.Connection, name) is kind


# Connections.


def test_commit_keeps_and_rollback_takes_back(papers: mmdb.Connection) -> None:
    papers.execute(ROW, (3, "Stonebraker"))
    papers.rollback()
    assert len(papers.execute("SCAN author").fetchall()) == 2
    papers.execute(ROW, (3, "Stonebraker"))
    papers.commit()
    papers.rollback()
    assert len(papers.execute("SCAN author").fetchall()) == 3


def test_commit_and_rollback_without_a_transaction_do_nothing(connection: mmdb.Connection) -> None:
    connection.commit()
    connection.rollback()
    assert not connection.in_transaction


def test_a_closed_connection_is_unusable(papers: mmdb.Connection) -> None:
    cursor = papers.execute("SCAN author")
    papers.close()
    papers.close()
    calls = [
        papers.cursor,
        papers.commit,
        papers.rollback,
        papers.__enter__,
        lambda: papers.in_transaction,
        lambda: setattr(papers, "autocommit", True),
        lambda: papers.execute("SCAN author"),
        lambda: papers.executemany(ROW, []),
        lambda: papers.executescript("SCAN author"),
        lambda: papers.watch("w", "SELECT a.id FROM author a"),
        lambda: papers.show("w"),
        lambda: papers.unwatch("w"),
        lambda: papers.savepoint("s").__enter__(),
        *calls_of(cursor),
    ]
    for call in calls:
        with pytest.raises(mmdb.ProgrammingError, match="the connection is closed"):
            call()
    cursor.close()


def test_cursors_of_a_connection_see_the_same_rows(papers: mmdb.Connection) -> None:
    one, other = papers.cursor(), papers.cursor()
    one.execute(ROW, (3, "Stonebraker"))
    assert other.execute("SELECT a.name FROM author a WHERE a.id = 3").fetchone() == ("Stonebraker",)


def test_with_commits_or_rolls_back_and_stays_open(papers: mmdb.Connection) -> None:
    with papers as entered:
        assert entered is papers
        papers.execute(ROW, (3, "Stonebraker"))
    with pytest.raises(ZeroDivisionError), papers:
        papers.execute(ROW, (4, "Selinger"))
        raise ZeroDivisionError
    assert not papers.in_transaction
    assert [number for number, _ in papers.execute("SCAN author")] == [1, 2, 3]


# Cursors.


def test_description(papers: mmdb.Connection) -> None:
    cursor = papers.cursor()
    assert cursor.description is None
    cursor.execute("SELECT p.title, a.id FROM author a, paper p WHERE p.by = a.id AND a.id = ?", (77,))
    assert cursor.description == (
        ("title", mmdb.STRING, None, None, None, None, None),
        ("id", mmdb.NUMBER, None, None, None, None, None),
    )
    assert all(len(column) == 7 for column in cursor.description)
    cursor.execute("SCAN author")
    assert [name for name, *_ in cursor.description] == ["id", "name"]
    cursor.execute(ROW, (3, "Stonebraker"))
    assert cursor.description is None


def test_description_of_each_line_with_rows(papers: mmdb.Connection) -> None:
    papers.commit()
    papers.execute("INDEX i ON paper (by) HASH")
    papers.watch("w", "SELECT a.name FROM author a")
    names = {
        "SCAN paper": ["id", "by", "title"],
        "SCAN INDEX i": ["id", "by", "title"],
        "SHOW w": ["name"],
        "SELECT a.id, a.id FROM author a": ["id", "id"],
        "EXPLAIN SELECT a.id FROM author a": ["line"],
        "TABLES": ["line"],
    }
    for line, wanted in names.items():
        assert [name for name, *_ in papers.execute(line).description] == wanted


def test_rowcount(papers: mmdb.Connection) -> None:
    cursor = papers.cursor()
    assert cursor.rowcount == -1
    assert cursor.execute("SCAN paper").rowcount == 3
    assert cursor.execute("SELECT a.id FROM author a WHERE a.id = 77").rowcount == 0
    assert cursor.execute("INSERT author (3, 'a'), (4, 'b')").rowcount == 2
    assert cursor.execute("UPDATE author SET name = 'c' WHERE id >= ?", (2,)).rowcount == 3
    assert cursor.execute("DELETE author WHERE id > 77").rowcount == 0
    assert cursor.executemany("INSERT author (?, 'x'), (?, 'y')", [(5, 6), (7, 8)]).rowcount == 4
    assert cursor.executemany("DELETE author WHERE id > ? AND id < ?", [(4, 7), (6, 77), (77, 78)]).rowcount == 4
    assert cursor.executemany(ROW, []).rowcount == 0
    papers.commit()
    assert cursor.execute("INDEX i ON paper (by) TREE").rowcount == -1
    with pytest.raises(mmdb.Error):
        cursor.execute("SCAN nothing")
    assert cursor.rowcount == -1


def test_a_closed_cursor_is_unusable(papers: mmdb.Connection) -> None:
    cursor = papers.execute("SCAN author")
    cursor.close()
    cursor.close()
    for call in calls_of(cursor):
        with pytest.raises(mmdb.ProgrammingError, match="the cursor is closed"):
            call()
    assert papers.execute("SCAN author").rowcount == 2


def test_a_cursor_closes_by_with(papers: mmdb.Connection) -> None:
    with papers.cursor() as cursor:
        cursor.execute("SCAN author")
    with pytest.raises(mmdb.ProgrammingError):
        cursor.fetchone()


def test_execute_takes_a_sequence(papers: mmdb.Connection) -> None:
    line = "SELECT a.id FROM author a WHERE a.id = ? AND a.name = ?"
    for values in ((1, "Carey"), [1, "Carey"], iter((1, "Carey"))):
        assert papers.execute(line, values).fetchall() == [(1,)]
    for wrong in ("ab", b"ab", {1: "Carey", 2: ""}, {1, "Carey"}, 5, None):
        with pytest.raises(mmdb.ProgrammingError, match="come in a tuple or a list"):
            papers.execute(line, wrong)
        with pytest.raises(mmdb.ProgrammingError, match="come in a tuple or a list"):
            papers.executemany(ROW, [wrong])


def test_execute_wants_a_value_for_each_hole(papers: mmdb.Connection) -> None:
    for values in ((), (1,), (1, "a", 2)):
        with pytest.raises(mmdb.ProgrammingError, match="the line has 2 holes") as raised:
            papers.execute(ROW, values)
        assert raised.value.number == 31
    with pytest.raises(mmdb.ProgrammingError, match="the line has 0 holes"):
        papers.execute("SCAN author", (1,))


def test_execute_wants_a_str(connection: mmdb.Connection) -> None:
    for operation in (b"TABLES", None, 5):
        with pytest.raises(TypeError):
            connection.execute(operation)


def test_executemany(papers: mmdb.Connection) -> None:
    assert papers.executemany(ROW, ((number, str(number)) for number in range(3, 5000))).rowcount == 4997
    assert papers.executemany("UPDATE author SET name = ? WHERE id = ?", [("a", 3), ["b", 4]]).rowcount == 2
    names = papers.execute("SELECT a.name FROM author a WHERE a.id > 2 AND a.id < 6")
    assert names.fetchall() == [("5",), ("a",), ("b",)]
    assert papers.executemany("DELETE author WHERE id > 2", [(), ()]).rowcount == 4997


def test_executemany_ends_at_the_first_refused_run(papers: mmdb.Connection) -> None:
    for rows, kind in (
        ([(3, "a"), (4, "b"), (1, "c"), (5, "d")], mmdb.IntegrityError),
        ([(3, "a"), (4, "b"), (5, 5), (6, "d")], mmdb.DataError),
        ([(3, "a"), (4, "b"), (5, "a\nb"), (6, "d")], mmdb.DataError),
        ([(3, "a"), (4, "b"), (5, 5.5), (6, "d")], mmdb.NotSupportedError),
        ([(3, "a"), (4, "b"), (5,), (6, "d")], mmdb.ProgrammingError),
        ([(3, "a"), (4, "b"), (2**63, "c"), (6, "d")], mmdb.DataError),
    ):
        cursor = papers.cursor()
        with pytest.raises(kind) as raised:
            cursor.executemany(ROW, rows)
        assert raised.value.runs == 2 and cursor.rowcount == -1
        assert [number for number, _ in papers.execute("SCAN author")] == [1, 2, 3, 4]
        papers.rollback()
    with pytest.raises(mmdb.IntegrityError) as raised:
        papers.executemany("DELETE author WHERE id = ?", [(77,), (78,), (1,), (79,)])
    assert raised.value.number == 42 and raised.value.runs == 2


@pytest.mark.parametrize("line", ["SCAN author", "TABLES", "BEGIN", "INDEX i ON author (name) TREE"])
def test_executemany_runs_changes_alone(papers: mmdb.Connection, line: str) -> None:
    with pytest.raises(mmdb.ProgrammingError, match="only INSERT, UPDATE and DELETE"):
        papers.executemany(line, [()])


def test_fetchone(papers: mmdb.Connection) -> None:
    cursor = papers.execute("SCAN author")
    assert cursor.rownumber == 0
    assert cursor.fetchone() == (1, "Carey")
    assert cursor.rownumber == 1
    assert cursor.fetchone() == (2, "Lehman")
    assert cursor.fetchone() is None
    assert cursor.fetchone() is None
    assert cursor.rownumber == 2


def test_fetchmany(papers: mmdb.Connection) -> None:
    cursor = papers.execute("SCAN paper")
    assert cursor.arraysize == 1
    assert cursor.fetchmany() == [(10, 2, "T-trees")]
    assert cursor.fetchmany(5) == [(11, 1, "Views"), (12, 2, "Recovery")]
    assert cursor.fetchmany(5) == []
    cursor.arraysize = 2
    assert len(cursor.execute("SCAN paper").fetchmany()) == 2
    assert cursor.fetchmany(size=0) == []
    assert len(cursor.fetchmany()) == 1


def test_fetchall(papers: mmdb.Connection) -> None:
    cursor = papers.execute("SCAN paper")
    cursor.fetchone()
    assert cursor.fetchall() == [(11, 1, "Views"), (12, 2, "Recovery")]
    assert cursor.fetchall() == []


def test_iteration(papers: mmdb.Connection) -> None:
    cursor = papers.execute("SCAN author")
    assert iter(cursor) is cursor
    assert next(cursor) == (1, "Carey")
    assert list(cursor) == [(2, "Lehman")]
    with pytest.raises(StopIteration):
        next(cursor)


def test_fetch_without_rows_is_an_error(papers: mmdb.Connection) -> None:
    cursors = [papers.cursor(), papers.execute(ROW, (3, "a")), papers.execute("-- words"), papers.execute("")]
    cursors.append(papers.executemany(ROW, [(4, "b")]))
    cursors.append(papers.executescript("SCAN author"))
    refused = papers.execute("SCAN author")
    with pytest.raises(mmdb.Error):
        refused.execute("SCAN nothing")
    for cursor in (*cursors, refused):
        assert cursor.description is None and cursor.rownumber is None
        for fetch in (cursor.fetchone, cursor.fetchmany, cursor.fetchall, cursor.__next__):
            with pytest.raises(mmdb.ProgrammingError, match="no rows to fetch"):
                fetch()


def test_rows_stay_as_they_were_read(papers: mmdb.Connection) -> None:
    cursor = papers.execute("SCAN author")
    papers.execute("UPDATE author SET name = ''")
    assert cursor.fetchall() == [(1, "Carey"), (2, "Lehman")]


def test_sizes_do_nothing(papers: mmdb.Connection) -> None:
    cursor = papers.cursor()
    cursor.setinputsizes((None, 64))
    cursor.setoutputsize(1000)
    cursor.setoutputsize(1000, 1)
    assert cursor.execute("SCAN author").fetchone() == (1, "Carey")


def test_connection_and_lastrowid(papers: mmdb.Connection) -> None:
    cursor = papers.execute("INSERT author (3, 'c')")
    assert cursor.connection is papers
    assert cursor.lastrowid is None
    with pytest.raises(AttributeError):
        cursor.lastrowid = 5


# Types.


def test_constructors() -> None:
    assert mmdb.Date(1986, 5, 28) == "1986-05-28"
    assert mmdb.Time(9, 5, 0) == "09:05:00"
    assert mmdb.Timestamp(1986, 5, 28, 9, 5, 0) == "1986-05-28 09:05:00"
    ticks = time.mktime((1986, 5, 28, 9, 5, 0, 0, 0, -1))
    assert mmdb.DateFromTicks(ticks) == "1986-05-28"
    assert mmdb.TimeFromTicks(ticks + 0.5) == "09:05:00"
    assert mmdb.TimestampFromTicks(ticks + 0.5) == "1986-05-28 09:05:00"
    assert mmdb.Binary(b"ab") == b"ab"
    with pytest.raises(ValueError):
        mmdb.Date(1986, 13, 1)


def test_dates_are_texts(papers: mmdb.Connection) -> None:
    papers.execute(ROW, (3, mmdb.Date(1986, 5, 28)))
    papers.execute(ROW, (4, mmdb.Date(986, 5, 28)))
    line = "SELECT a.id FROM author a WHERE a.name >= ? AND a.name < ?"
    assert papers.execute(line, (mmdb.Date(1986, 1, 1), mmdb.Date(1987, 1, 1))).fetchall() == [(3,)]


def test_type_objects(papers: mmdb.Connection) -> None:
    number, text = (kind for _, kind, *_ in papers.execute("SCAN author").description)
    assert number == mmdb.NUMBER and mmdb.NUMBER == number and text == mmdb.STRING
    assert number != mmdb.STRING and text != mmdb.NUMBER
    for other in (mmdb.BINARY, mmdb.DATETIME, mmdb.ROWID):
        assert number != other and text != other and other == other
    assert len({mmdb.STRING, mmdb.NUMBER, mmdb.BINARY, mmdb.DATETIME, mmdb.ROWID}) == 5
    assert {mmdb.STRING: "text", mmdb.NUMBER: "number"}[number] == "number"
