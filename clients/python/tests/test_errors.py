"""Which exception stands for which refusal, and what it says."""

import os
import re

import mmdb
import pytest

TOP = os.path.join(os.path.dirname(os.path.abspath(__file__)), "..", "..", "..")

TABLES = "TABLE t (id INT KEY, k INT, s TEXT)\nTABLE u (id INT KEY, r INT REF t)\nINSERT t (1, 5, 'a')\nINSERT u (1, 1)"
MOST = 2**63 - 1
LINES = [
    (10, mmdb.DataError, "--" + 4095 * "x"),
    (11, mmdb.ProgrammingError, "SCAN t;"),
    (12, mmdb.DataError, f"INSERT t ({MOST + 1}, 5, 'b')"),
    (13, mmdb.DataError, f"INSERT t (2, 5, '{65 * 'x'}')"),
    (20, mmdb.ProgrammingError, "SCAN nothing"),
    (21, mmdb.ProgrammingError, "INDEX i ON t (j) TREE"),
    (22, mmdb.ProgrammingError, "SCAN INDEX i"),
    (23, mmdb.ProgrammingError, "SHOW w"),
    (24, mmdb.ProgrammingError, "TABLE t (id INT KEY)"),
    (25, mmdb.ProgrammingError, "SELECT a.k FROM t a, t a"),
    (26, mmdb.ProgrammingError, "SELECT b.k FROM t a"),
    (30, mmdb.DataError, "INSERT t (2, 'x', 'b')"),
    (31, mmdb.ProgrammingError, "INSERT t (2, 5)"),
    (32, mmdb.DataError, f"UPDATE t SET k = k + {MOST}"),
    (40, mmdb.IntegrityError, "INSERT t (1, 7, 'b')"),
    (41, mmdb.IntegrityError, "INSERT u (2, 7)"),
    (42, mmdb.IntegrityError, "DELETE t"),
    (43, mmdb.IntegrityError, "DROP TABLE t"),
    (48, mmdb.OperationalError, "SELECT a.k FROM t a, t b, t c, t d, t e"),
    (51, mmdb.ProgrammingError, "COMMIT"),
]


def words_of_refusals() -> dict[int, str]:
    """The words of each refusal, as the description of the language has them."""
    with open(os.path.join(TOP, "docs", "LANGUAGE.md"), encoding="utf-8") as file:
        return {int(number): words for number, words in re.findall(r"^\| (\d\d) \| `([a-z ]+)` \|", file.read(), re.MULTILINE)}


REFUSALS = words_of_refusals()


@pytest.fixture
def filled(connection: mmdb.Connection) -> mmdb.Connection:
    connection.executescript(TABLES)
    return connection


@pytest.mark.parametrize("number, kind, line", LINES, ids=[str(number) for number, _, _ in LINES])
def test_refused_lines(filled: mmdb.Connection, number: int, kind: type, line: str) -> None:
    before = [filled.execute(f"SCAN {table}").fetchall() for table in "tu"]
    with pytest.raises(kind, match=f"^{REFUSALS[number]}") as raised:
        filled.execute(line)
    assert type(raised.value) is kind
    assert raised.value.number == number
    assert not filled.in_transaction
    assert [filled.execute(f"SCAN {table}").fetchall() for table in "tu"] == before
    with pytest.raises(kind):
        filled.executescript(line)


def test_too_large_results(filled: mmdb.Connection) -> None:
    filled.executemany("INSERT t (?, 5, '')", [(number,) for number in range(2, 1026)])
    filled.commit()
    with pytest.raises(mmdb.OperationalError) as raised:
        filled.execute("SELECT a.k FROM t a, t b")
    assert raised.value.number == 46
    with pytest.raises(mmdb.OperationalError) as raised:
        filled.watch("w", "SELECT a.k FROM t a, t b")
    assert raised.value.number == 47


def test_times_of_transactions(filled: mmdb.Connection) -> None:
    filled.execute("BEGIN")
    for number, line in ((50, "BEGIN"), (52, "TABLE v (id INT KEY)"), (53, "ROLLBACK TO s")):
        with pytest.raises(mmdb.ProgrammingError) as raised:
            filled.execute(line)
        assert raised.value.number == number
        assert filled.in_transaction


def test_the_place_is_shown(filled: mmdb.Connection) -> None:
    with pytest.raises(mmdb.ProgrammingError, match="no such table: at 'nothing a'") as raised:
        filled.execute("SELECT a.id FROM nothing a")
    assert raised.value.place == len("SELECT a.id FROM ")
    with pytest.raises(mmdb.ProgrammingError, match="syntax: at the end of the line"):
        filled.execute("SCAN")
    with pytest.raises(mmdb.IntegrityError) as raised:
        filled.execute("INSERT t (1, 7, 'b')")
    assert raised.value.place is None


def test_the_line_of_a_script_is_shown(connection: mmdb.Connection) -> None:
    with pytest.raises(mmdb.ProgrammingError, match="^line 4: no such table") as raised:
        connection.executescript("TABLE t (id INT KEY)\n\n-- words\r\nSCAN u\nTABLE v (id INT KEY)")
    assert raised.value.number == 20
    assert connection.execute("TABLES").rowcount == 1


@pytest.mark.parametrize("value", [1.0, None, bytearray(b"a"), memoryview(b"a"), 1j, object(), (1,), [1]], ids=repr)
def test_values_of_no_type(filled: mmdb.Connection, value: object) -> None:
    for line, values in (("INSERT t (?, 5, 'a')", (value,)), ("INSERT t (?, ?, ?)", (2, 5, value))):
        with pytest.raises(mmdb.NotSupportedError, match=f"not {type(value).__name__}") as raised:
            filled.execute(line, values)
        assert raised.value.number is None
    with pytest.raises(mmdb.NotSupportedError):
        filled.execute("SELECT a.id FROM t a WHERE a.id = ?", (value,))
    assert not filled.in_transaction


def test_values_out_of_range(filled: mmdb.Connection) -> None:
    for number in (MOST + 1, -MOST - 2, 10**30):
        for line in ("INSERT t (?, 5, 'a')", "SELECT a.id FROM t a WHERE a.id = ?"):
            with pytest.raises(mmdb.DataError, match="^number out of range: a number has 64 bits") as raised:
                filled.execute(line, (number,))
            assert raised.value.number == 12
    filled.execute("INSERT t (?, ?, 'a')", (MOST, -MOST - 1))
    assert filled.execute("SELECT a.id, a.k FROM t a WHERE a.id = ?", (MOST,)).fetchone() == (MOST, -MOST - 1)


def test_numbers_of_other_types(filled: mmdb.Connection) -> None:
    class Index:
        def __index__(self) -> int:
            return 7

    filled.execute("INSERT t (?, ?, 'a')", (Index(), True))
    assert filled.execute("SELECT a.id, a.k FROM t a WHERE a.id = ?", (Index(),)).fetchone() == (7, 1)


def test_values_of_the_wrong_type(filled: mmdb.Connection) -> None:
    for values in (("a", 5, "b"), (2, 5, 5)):
        with pytest.raises(mmdb.DataError, match="^type mismatch") as raised:
            filled.execute("INSERT t (?, ?, ?)", values)
        assert raised.value.number == 30
