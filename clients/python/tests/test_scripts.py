"""executescript: commands over one line or more."""

import time

import mmdb
import pytest


def listed(connection: mmdb.Connection) -> list[tuple[int, str]]:
    return connection.execute("SCAN t").fetchall()


@pytest.mark.parametrize(
    "script",
    [
        "INSERT t (1, 'a'), (2, 'b')",
        "INSERT t\n    (1, 'a'),\n    (2, 'b')\n",
        "INSERT t (1, 'a')\n, (2, 'b')",
        "\n\nINSERT\nt\n(\n1\n,\n'a'\n)\n,\n(2, 'b')\n\n",
        "INSERT t (1, 'a')\r\nINSERT t (2, 'b')\r\n",
        "-- words\nINSERT t (1, 'a')\n-- more words\nINSERT t (2,\r\n'b')",
        "INSERT t (1, 'a')\n\nINSERT t (2, 'b')",
        "INSERT t (1, 'a')" + 4079 * " " + "\nINSERT\nt (2, 'b')",
        "BEGIN\nINSERT t (1, 'a')\nSAVEPOINT s\nDELETE t\nWHERE id = 1\nROLLBACK\nTO s\nINSERT t (2, 'b')\nCOMMIT",
        "INDEX i\nON t (s)\nTREE\nDROP\nINDEX i\nINSERT t (1, 'a')\n  ,(2, 'b')\nEXPLAIN\nSELECT a.id\nFROM t a\nSCAN\nt",
    ],
)
def test_commands(connection: mmdb.Connection, script: str) -> None:
    connection.execute("TABLE t (id INT KEY, s TEXT)")
    assert connection.executescript(script).description is None
    assert listed(connection) == [(1, "a"), (2, "b")]
    assert not connection.in_transaction


def test_a_condition_in_the_next_line_belongs_to_its_command(connection: mmdb.Connection) -> None:
    connection.executescript("TABLE t (id INT KEY, s TEXT)\nINSERT t (1, 'a'), (2, 'b')\nDELETE t\nWHERE id = 2")
    assert listed(connection) == [(1, "a")]
    connection.executescript("INSERT t (2, 'b')\nUPDATE t\nSET s = 'c'\nWHERE id = 1\nUPDATE t SET s = 'd' WHERE id = 2")
    assert listed(connection) == [(1, "c"), (2, "d")]


@pytest.mark.parametrize(
    "script, line, number, done",
    [
        ("INSERT t (1, 'a')\nSELEC", 2, 11, 1),
        ("INSERT t (1, 'a')\n\nSELEC", 3, 11, 1),
        ("INSERT t (1, 'a')\nSCAN u\nINSERT t (2, 'b')", 2, 20, 1),
        ("INSERT t (1, 'a')\n-- words\nWHERE id = 1", 3, 11, 1),
        ("INSERT t (1, 'a')\nINSERT t (?, 'b')", 2, 11, 1),
        ("INSERT t (1,\n'a')\nINSERT t\n(1, 'b')", 3, 40, 1),
        ("INSERT t (1, 'a')\nSCAN", 2, 11, 1),
        ("INSERT t (1, 'a')\nINSERT t (2, 'x\ny')", 2, 11, 1),
        ("INSERT t (1, 'a')\n--" + 5000 * "x", 2, 10, 1),
        ("INSERT t (1, 'a')\nINSERT t (99999999999999999999, 'x')", 2, 12, 1),
    ],
)
def test_the_first_refused_command_ends_a_script(
    connection: mmdb.Connection, script: str, line: int, number: int, done: int
) -> None:
    connection.execute("TABLE t (id INT KEY, s TEXT)")
    with pytest.raises(mmdb.Error, match=f"^line {line}: ") as raised:
        connection.executescript(script)
    assert raised.value.number == number
    assert len(listed(connection)) == done


def test_a_definition_in_a_script_is_seen(connection: mmdb.Connection) -> None:
    connection.executescript("TABLE t (id INT KEY)\nINSERT t (1)")
    assert listed(connection) == [(1,)]
    connection.executescript("DROP TABLE t\nTABLE t (s TEXT, id INT KEY)\nINSERT t ('a', 1)")
    assert listed(connection) == [("a", 1)]


def test_a_script_begins_no_transaction(connection: mmdb.Connection) -> None:
    connection.executescript("TABLE t (id INT KEY, s TEXT)\nINSERT t (1, 'a')")
    assert not connection.in_transaction
    connection.executescript("BEGIN\nINSERT t (2, 'b')")
    assert connection.in_transaction
    connection.rollback()
    assert len(listed(connection)) == 1


def test_scripts_that_are_none(connection: mmdb.Connection) -> None:
    for script in ("", "\n", "\r\n\r\n", "-- words", " \t\n"):
        connection.executescript(script)
    with pytest.raises(TypeError):
        connection.executescript(b"SCAN t")  # type: ignore[arg-type]
    with pytest.raises(mmdb.ProgrammingError, match="lone surrogate"):
        connection.executescript("TABLE t (id INT KEY)\n-- \ud800")
    assert connection.execute("TABLES").rowcount == 0


def test_a_trace_function_that_closes_the_connection() -> None:
    connection = mmdb.connect()
    connection.set_trace_callback(lambda line: connection.close())
    with pytest.raises(mmdb.ProgrammingError, match="the connection is closed"):
        connection.executescript("TABLE t (id INT KEY)\nTABLE u (id INT KEY)")


def test_a_command_over_very_many_lines_is_refused_at_once(connection: mmdb.Connection) -> None:
    connection.execute("TABLE t (id INT KEY, s TEXT)")
    begin = time.monotonic()
    with pytest.raises(mmdb.DataError, match="^line 1: line too long") as raised:
        connection.executescript("INSERT t\n" + 100_000 * "(1, 'a'),\n")
    assert raised.value.number == 10 and time.monotonic() - begin < 10
