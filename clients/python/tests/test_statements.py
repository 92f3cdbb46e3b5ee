"""Lines that are kept prepared, across changes of the catalog; standing queries; named rows; large results."""

from collections.abc import Iterator

import mmdb
import pytest

KEPT_STATEMENTS = 128


def test_a_line_follows_its_table(connection: mmdb.Connection) -> None:
    line = "SELECT a.k FROM t a WHERE a.id = ?"
    with pytest.raises(mmdb.ProgrammingError, match="no such table"):
        connection.execute(line, (1,))
    connection.execute("TABLE t (id INT KEY, k INT)")
    connection.executescript("INSERT t (1, 5)")
    cursor = connection.execute(line, (1,))
    assert cursor.fetchall() == [(5,)] and cursor.description[0][1] == mmdb.NUMBER
    connection.execute("DROP TABLE t")
    with pytest.raises(mmdb.ProgrammingError, match="no such table"):
        connection.execute(line, (1,))
    connection.execute("TABLE t (k TEXT, id INT KEY)")
    connection.executescript("INSERT t ('a', 1)")
    cursor = connection.execute(line, (1,))
    assert cursor.fetchall() == [("a",)] and cursor.description[0][1] == mmdb.STRING
    connection.execute("DROP TABLE t")
    connection.execute("TABLE t (id TEXT KEY)")
    with pytest.raises(mmdb.ProgrammingError, match="no such column"):
        connection.execute(line, (1,))


def test_a_scan_follows_its_table(connection: mmdb.Connection) -> None:
    for columns, row in (
        ("a INT KEY", (1,)),
        ("a TEXT KEY, b INT", ("x", 2)),
        ("a INT, b TEXT, c INT KEY", (1, "y", 3)),
    ):
        connection.execute(f"TABLE t ({columns})")
        connection.execute("INDEX i ON t (a) TREE")
        for wanted in ([], [row]):
            for line in ("SCAN t", "SCAN INDEX i"):
                cursor = connection.execute(line)
                assert cursor.fetchall() == wanted and len(cursor.description) == len(row)
            if not wanted:
                connection.execute("INSERT t (" + ", ".join("?" * len(row)) + ")", row)
        connection.commit()
        connection.execute("DROP TABLE t")


def test_a_show_follows_its_query(papers: mmdb.Connection) -> None:
    papers.watch("w", "SELECT a.id FROM author a")
    assert papers.show("w").fetchall() == [(1,), (2,)]
    papers.unwatch("w")
    with pytest.raises(mmdb.ProgrammingError) as raised:
        papers.show("w")
    assert raised.value.number == 23
    papers.watch("w", "SELECT a.name, a.id FROM author a")
    assert papers.show("w").fetchall() == [("Carey", 1), ("Lehman", 2)]


def test_standing_queries(papers: mmdb.Connection) -> None:
    papers.watch("by", "SELECT a.name, p.title FROM author a, paper p WHERE p.by = a.id AND a.id > 1")
    assert papers.show("by").fetchall() == [("Lehman", "Recovery"), ("Lehman", "T-trees")]
    papers.execute("DELETE paper WHERE id = 12")
    cursor = papers.show("by")
    assert cursor.fetchall() == [("Lehman", "T-trees")]
    assert [name for name, *_ in cursor.description] == ["name", "title"]
    papers.rollback()
    assert len(papers.show("by").fetchall()) == 2
    with pytest.raises(mmdb.IntegrityError, match="in use"):
        papers.execute("DROP TABLE paper")
    papers.unwatch("by")
    papers.execute("DROP TABLE paper")
    with pytest.raises(mmdb.ProgrammingError, match="syntax"):
        papers.watch("w", "a.id FROM author a")


def test_more_lines_than_are_kept(papers: mmdb.Connection) -> None:
    for _ in range(2):
        for number in range(3 * KEPT_STATEMENTS):
            assert papers.execute(f"SELECT a.name FROM author a WHERE a.id = {number % 3}").rowcount == (number % 3 > 0)
            line = f"SELECT a.id FROM author a WHERE a.id > {number} AND a.name = ?"
            assert papers.execute(line, ("Carey",)).rowcount == (number == 0)
    assert len(papers._statements) == KEPT_STATEMENTS
    # The numbers of those that were dropped are used again. A connection has three statements of its own.
    assert max(papers._statements.values()) < KEPT_STATEMENTS + 4


def test_a_fetch_outlives_its_line(papers: mmdb.Connection) -> None:
    cursor = papers.execute("SCAN author")
    for number in range(2 * KEPT_STATEMENTS):
        papers.execute(f"SELECT a.id FROM author a WHERE a.id = {number}")
    assert cursor.fetchall() == [(1, "Carey"), (2, "Lehman")]


def test_rows_that_come_from_other_lines(papers: mmdb.Connection) -> None:
    """What makes the rows of executemany runs so many lines that no line before them is kept."""
    line = "INSERT author (?, ?)"

    def rows() -> Iterator[tuple[int, str]]:
        for number in range(3, 3 * KEPT_STATEMENTS):
            assert papers.execute(f"SELECT a.id FROM author a WHERE a.id = {number}").rowcount == 0
            yield number, "a"

    papers.execute(line, (1000, "b"))
    assert papers.executemany(line, rows()).rowcount == 3 * KEPT_STATEMENTS - 3
    more = ((3000 + number, papers.execute(line, (2000 + number, "c")) and "d") for number in range(9))
    assert papers.executemany(line, more).rowcount == 9
    assert len(papers._statements) <= KEPT_STATEMENTS
    assert papers.execute("SELECT a.name FROM author a WHERE a.id >= 2000").rowcount == 18
    assert papers.execute(line, (5000, "e")).rowcount == 1


def test_rows_of_mixed_types(connection: mmdb.Connection) -> None:
    connection.execute("TABLE t (id INT KEY, s TEXT, k INT)")
    odd = b"\xff".decode("utf-8", "surrogateescape")
    rows = [(number, odd if number % 1000 == 7 else f"{number} é", -number) for number in range(3000)]
    assert connection.executemany("INSERT t (?, ?, ?)", rows).rowcount == 3000
    assert connection.execute("SCAN t").fetchall() == rows
    connection.rollback()
    for wrong in ((5, 5, 5), ("a", "b", 5), (5, "b", "c")):
        with pytest.raises(mmdb.DataError) as raised:
            connection.executemany("INSERT t (?, ?, ?)", [*rows[10:1000], wrong, *rows[1000:]])
        assert raised.value.number == 30 and raised.value.runs == 990
        connection.rollback()
    with pytest.raises(mmdb.DataError) as raised:
        connection.executemany("INSERT t (?, ?, ?)", [*rows[10:1000], (5, 65 * "x", 5), *rows[1000:]])
    assert raised.value.number == 13 and raised.value.runs == 990


def test_rows_that_close_the_connection() -> None:
    connection = mmdb.connect()
    connection.execute("TABLE t (id INT KEY)")

    def rows() -> Iterator[tuple[int]]:
        yield (1,)
        connection.close()
        yield (2,)

    with pytest.raises(mmdb.ProgrammingError, match="the connection is closed"):
        connection.executemany("INSERT t (?)", rows())


@pytest.mark.parametrize("kind", [KeyError, TypeError, KeyboardInterrupt])
def test_rows_that_raise(papers: mmdb.Connection, kind: type[BaseException]) -> None:
    def rows(count: int) -> Iterator[tuple[int, str]]:
        yield from ((number, "a") for number in range(3, count))
        raise kind

    with pytest.raises(kind):
        papers.executemany("INSERT author (?, ?)", rows(9))
    assert not papers.in_transaction
    with pytest.raises(kind):
        papers.executemany("INSERT author (?, ?)", rows(2000))
    assert papers.in_transaction and papers.execute("SCAN author").rowcount >= 3
    papers.rollback()
    assert papers.execute("SCAN author").rowcount == 2


def test_shifts_and_literals(papers: mmdb.Connection) -> None:
    papers.execute("UPDATE paper SET id = id + ? WHERE id = ?", (-5, 10))
    papers.execute("UPDATE paper SET id = id - ?, title = 'it''s ?' WHERE title = ?", (1, "Views"))
    assert papers.execute("SCAN paper").fetchall() == [(5, 2, "T-trees"), (10, 1, "it's ?"), (12, 2, "Recovery")]


@pytest.mark.parametrize("line", ["SELECT ? FROM t a", "SCAN ?", "TABLE t (? INT KEY)", "SELECT a.id FROM t a ORDER ?"])
def test_holes_stand_for_values_alone(connection: mmdb.Connection, line: str) -> None:
    with pytest.raises(mmdb.ProgrammingError, match="syntax"):
        connection.execute(line, ("id",))


@pytest.mark.parametrize("count", [0, 1, 2, 63, 64, 65, 1023, 1024, 1025, 5000])
@pytest.mark.parametrize("columns", [1, 2, 3, 16])
def test_results_of_any_size(connection: mmdb.Connection, count: int, columns: int) -> None:
    """The columns are numbers and texts in turn."""
    kinds = ["INT KEY", *(("TEXT", "INT")[place % 2] for place in range(columns - 1))]
    connection.execute("TABLE t (" + ", ".join(f"c{place} {kind}" for place, kind in enumerate(kinds)) + ")")
    rows = [tuple(row + place if place % 2 == 0 else f"{row}'" for place in range(columns)) for row in range(count)]
    connection.executemany("INSERT t (" + ", ".join("?" * columns) + ")", rows)
    assert connection.execute("SCAN t").fetchall() == rows
    assert connection.execute("SELECT a.c0 FROM t a WHERE a.c0 >= ?", (0,)).rowcount == count


def test_named_rows(papers: mmdb.Connection) -> None:
    papers.row_factory = mmdb.Row
    row = papers.execute("SELECT p.id, p.title, a.name FROM paper p, author a WHERE p.by = a.id").fetchone()
    assert (row["id"], row["title"], row["name"]) == (10, "T-trees", "Lehman")
    assert row[1] == "T-trees" and row[-1] == "Lehman" and row[:2] == (10, "T-trees")
    assert row.keys() == ["id", "title", "name"] and len(row) == 3
    assert tuple(row) == (10, "T-trees", "Lehman") and dict(zip(row.keys(), row))["name"] == "Lehman"
    number, title, name = row
    assert (number, title, name) == tuple(row)
    assert repr(row) == "Row(id=10, title='T-trees', name='Lehman')"
    with pytest.raises(IndexError, match="no column is named 'by'"):
        row["by"]
    with pytest.raises(IndexError):
        row[3]
    again = papers.execute("SELECT p.id, p.title, a.name FROM paper p, author a WHERE p.by = a.id")
    assert again.fetchone() == row and hash(again.fetchone()) != hash(row)
    assert [type(row) for row in again] == [mmdb.Row]
    assert [row["id"] for row in papers.execute("SCAN author")] == [1, 2]
    assert [row["id"] for row in papers.execute("SCAN author").fetchmany(5)] == [1, 2]


def test_rows_by_a_factory(papers: mmdb.Connection) -> None:
    papers.row_factory = lambda cursor, row: dict(zip([name for name, *_ in cursor.description], row))
    assert papers.execute("SCAN author").fetchall() == [{"id": 1, "name": "Carey"}, {"id": 2, "name": "Lehman"}]
    cursor = papers.cursor()
    papers.row_factory = None
    assert cursor.execute("SCAN author").fetchone() == {"id": 1, "name": "Carey"}
    assert papers.execute("SCAN author").fetchone() == (1, "Carey")


def test_explain_and_tables(papers: mmdb.Connection) -> None:
    assert papers.execute("EXPLAIN SELECT a.id FROM author a WHERE a.id = ?", (1,)).fetchall() == [("a tree #key =",)]
    assert papers.execute("TABLES").fetchall() == [
        ("TABLE author (id INT KEY, name TEXT) rows 2",),
        ("TABLE paper (id INT KEY, by INT REF author, title TEXT) rows 3",),
    ]
