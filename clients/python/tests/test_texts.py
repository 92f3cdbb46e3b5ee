"""Texts come back as they were given, and those that no column holds are refused."""

import mmdb
import pytest

SIGNS = ["", "'", "it's", "''", "a'b'c", "?", "-- ?", "a\x00b", "\r", "\t", "é", "日本語", "\U0001f600"]
LONG = [64 * "x", 32 * "é", 16 * "\U0001f600"]


@pytest.fixture
def texts(connection: mmdb.Connection) -> mmdb.Connection:
    connection.execute("TABLE t (s TEXT KEY, n INT)")
    return connection


@pytest.mark.parametrize("text", SIGNS + LONG, ids=ascii)
def test_texts_come_back(texts: mmdb.Connection, text: str) -> None:
    texts.execute("INSERT t (?, ?)", (text, 5))
    assert texts.execute("SCAN t").fetchall() == [(text, 5)]
    assert texts.execute("SELECT a.s FROM t a WHERE a.s = ?", (text,)).fetchone() == (text,)
    quoted = text.replace("'", "''")
    assert texts.execute(f"SELECT a.n, a.s FROM t a WHERE a.s = '{quoted}'").fetchone() == (5, text)
    assert texts.execute("DELETE t WHERE s = ?", (text,)).rowcount == 1


@pytest.mark.parametrize("text, size", [(65 * "x", 65), (33 * "é", 66), (17 * "\U0001f600", 68)], ids=ascii)
def test_texts_that_are_too_long(texts: mmdb.Connection, text: str, size: int) -> None:
    with pytest.raises(mmdb.DataError, match=f"^text too long: .*this one has {size}$") as raised:
        texts.execute("INSERT t (?, 5)", (text,))
    assert raised.value.number == 13
    with pytest.raises(mmdb.DataError, match="^text too long") as raised:
        texts.execute(f"INSERT t ('{text}', 5)")
    assert raised.value.number == 13


def test_texts_with_a_line_feed(texts: mmdb.Connection) -> None:
    for text in ("\n", "a\nb"):
        with pytest.raises(mmdb.DataError, match="line feed"):
            texts.execute("INSERT t (?, 5)", (text,))
        with pytest.raises(mmdb.DataError, match="line feed"):
            texts.execute("SELECT a.n FROM t a WHERE a.s = ?", (text,))
        with pytest.raises(mmdb.DataError, match="line feed"):
            texts.executemany("INSERT t (?, 5)", [(text,)])
        with pytest.raises(mmdb.ProgrammingError, match="syntax"):
            texts.execute(f"INSERT t ('{text}', 5)")
    assert not texts.in_transaction


def test_surrogates(texts: mmdb.Connection) -> None:
    with pytest.raises(mmdb.DataError, match="lone surrogate"):
        texts.execute("INSERT t (?, 5)", ("\ud800",))
    with pytest.raises(mmdb.ProgrammingError, match="lone surrogate"):
        texts.execute("INSERT t ('\ud800', 5)")


def test_bytes_that_are_not_utf8(texts: mmdb.Connection) -> None:
    text = b"caf\xe9".decode("utf-8", "surrogateescape")
    texts.execute("INSERT t (?, 5)", (text,))
    assert texts.execute("SCAN t").fetchone() == (text, 5)
    assert texts.execute("SELECT a.s FROM t a WHERE a.s = ?", (text,)).fetchall() == [(text,)]
    texts.execute("INSERT t ('x', 6)")
    assert texts.execute("SCAN t").fetchall() == [(text, 5), ("x", 6)]


def test_numbers_and_texts_in_turn(texts: mmdb.Connection) -> None:
    line = "SELECT a.n FROM t a WHERE a.s = ?"
    texts.execute("INSERT t ('5', 1), ('', 2)")
    for _ in range(3):
        assert texts.execute(line, ("5",)).fetchall() == [(1,)]
        with pytest.raises(mmdb.DataError):
            texts.execute(line, (5,))
        assert texts.execute(line, ("",)).fetchall() == [(2,)]


def test_lines_of_several_lines(texts: mmdb.Connection) -> None:
    texts.execute(
        """
        INSERT t
            ('a', 1),\r
            ('b', 2)
        """
    )
    assert texts.execute("SELECT a.s\nFROM t a\nWHERE a.n\n=\n?\n", (2,)).fetchall() == [("b",)]
    with pytest.raises(mmdb.ProgrammingError, match="one line"):
        texts.execute("-- all rows\nSCAN t")
