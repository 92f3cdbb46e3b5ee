"""Rows that are appended to a table as columns: all of them or none, in one command."""

import array
import itertools
from collections.abc import Iterator
from typing import Any

import mmdb
import pytest

ROWS = [(number, f"text {number} é" if number % 3 else "", -number) for number in range(5000)]


@pytest.fixture
def table(connection: mmdb.Connection) -> mmdb.Connection:
    connection.execute("TABLE t (id INT KEY, s TEXT, k INT)")
    return connection


def packed(texts: list[bytes], type_code: str = "i") -> tuple[array.array, bytes]:
    return array.array(type_code, itertools.accumulate(map(len, texts), initial=0)), b"".join(texts)


def rows(connection: mmdb.Connection) -> list[tuple[object, ...]]:
    return connection.execute("SCAN t").fetchall()


def test_columns_of_each_kind(table: mmdb.Connection) -> None:
    ids, texts, others = ([row[place] for row in ROWS] for place in range(3))
    buffer = packed([text.encode() for text in texts])
    with_gaps = array.array("q", [number for one in ids for number in (one, 77)])
    for columns in (
        (ids, texts, others),
        [array.array("q", ids), buffer, array.array("q", others)],
        iter((tuple_of(ids), [text.encode() for text in texts], memoryview(array.array("q", others)))),
        (memoryview(with_gaps)[::2], (memoryview(buffer[0]), memoryview(buffer[1])), others),
        (memoryview(array.array("q", reversed(ids)))[::-1], buffer, others),
    ):
        assert table.append("t", columns) == 5000 and table.in_transaction and rows(table) == ROWS
        table.rollback()
        assert rows(table) == []
    assert table.total_changes == 25000


def tuple_of(numbers: list[int]) -> list[Any]:
    """The numbers as objects that have them."""

    class Number:
        def __init__(self, number: int) -> None:
            self.number = number

        def __index__(self) -> int:
            return self.number

    return [Number(number) if number % 7 else bool(number) if number < 2 else number for number in numbers]


def test_columns_of_a_result(table: mmdb.Connection) -> None:
    table.append("t", [list(column) for column in zip(*ROWS)])
    columns = table.execute("SCAN t").fetchcolumns()
    other = mmdb.connect()
    other.execute("TABLE t (id INT KEY, s TEXT, k INT)")
    assert other.append("t", columns) == 5000 and rows(other) == ROWS
    columns = table.execute("SELECT a.id, a.s, a.k FROM t a WHERE a.id < 3").fetchcolumns()
    other.rollback()
    assert other.append("t", columns) == 3 and rows(other) == ROWS[:3]


def test_texts_at_a_place_in_their_bytes(table: mmdb.Connection) -> None:
    offsets, data = packed([b"before", b"a", b"", b"\xff\x00", b"behind"])
    at_any_byte = memoryview(b"?" + offsets[1:5].tobytes())[1:].cast("i")
    assert table.append("t", ([1, 2, 3], (at_any_byte, data), [0, 0, 0])) == 3
    assert rows(table) == [(1, "a", 0), (2, "", 0), (3, "\udcff\0", 0)]
    assert table.append("t", ([], (array.array("i", [4]), data), [])) == 0


def test_numpy(table: mmdb.Connection) -> None:
    numpy = pytest.importorskip("numpy")
    pairs = numpy.arange(200).reshape(100, 2)
    offsets, data = packed([b"x"] * 100)
    texts = numpy.asarray(offsets), numpy.frombuffer(data, dtype=numpy.uint8)
    assert table.append("t", (pairs[::-1, 0], texts, pairs[:, 1])) == 100
    assert rows(table)[:2] == [(0, "x", 199), (2, "x", 197)]
    for wrong in (pairs, numpy.arange(100.0), numpy.arange(100, dtype=numpy.int32), numpy.arange(100, dtype=">i8")):
        with pytest.raises(TypeError, match="a column is"):
            table.append("t", (wrong, texts, pairs[:, 1]))
    large = numpy.arange(200, 500_200)
    text = numpy.arange(0, 500_001, dtype=numpy.int32), b"y" * 500_000
    assert table.append("t", (large, text, large)) == 500_000
    assert table.execute("SELECT a.k FROM t a WHERE a.id = 500099").fetchall() == [(500099,)]


def test_transactions(table: mmdb.Connection) -> None:
    assert table.append("t", [[1], ["a"], [2]]) == 1 and table.in_transaction
    with pytest.raises(mmdb.IntegrityError):
        table.append("t", [[2, 1], ["b", "c"], [3, 4]])
    assert table.in_transaction and rows(table) == [(1, "a", 2)]
    with table.savepoint("s"):
        table.append("t", [[5], ["e"], [6]])
        with pytest.raises(KeyError), table.savepoint("s"):
            table.append("t", [[6], ["f"], [7]])
            raise KeyError
    table.commit()
    assert rows(table) == [(1, "a", 2), (5, "e", 6)]
    with pytest.raises(mmdb.IntegrityError):
        table.append("t", [[2, 1], ["b", "c"], [3, 4]])
    assert not table.in_transaction
    table.autocommit = True
    table.watch("w", "SELECT a.id FROM t a WHERE a.k > 6")
    assert table.append("t", [[8, 9], ["", ""], [6, 7]]) == 2 and not table.in_transaction
    assert table.show("w").fetchall() == [(9,)]


def test_refused_rows_change_nothing(table: mmdb.Connection) -> None:
    table.execute("TABLE u (id INT KEY, t INT REF t)")
    table.append("t", [[1], ["a"], [2]])
    table.commit()
    long, broken = packed([b"a", b"b" * 65, b"c"]), packed([b"a", b"b", b"c\n"])
    ids, texts = [5, 6, 7], ["x", "y", "z"]
    cases: list[tuple[str, Any, type[Exception], int | None]] = [
        ("nothing", (ids,), mmdb.ProgrammingError, 20),
        ("nothing", (), mmdb.ProgrammingError, 20),
        ("T", (ids, texts, ids), mmdb.ProgrammingError, 11),
        ("", (), mmdb.ProgrammingError, 11),
        ("t (1)", (ids, texts, ids), mmdb.ProgrammingError, 11),
        ("\ud800", (ids, texts, ids), mmdb.ProgrammingError, 11),
        ("\udcff", (ids, texts, ids), mmdb.ProgrammingError, 11),
        ("t", (ids, texts), mmdb.ProgrammingError, 31),
        ("t", (ids, texts, ids, ids), mmdb.ProgrammingError, 31),
        ("t", (ids, ids, ids), mmdb.DataError, 30),
        ("t", (texts, texts, ids), mmdb.DataError, 30),
        ("t", (ids, ["x", "y", 1], ids), mmdb.DataError, 30),
        ("nothing", ([1, 2, b"y"], texts, ids), mmdb.DataError, 30),
        ("t", ([5, 6, 5], texts, ids), mmdb.IntegrityError, 40),
        ("t", ([5, 6, 1], texts, ids), mmdb.IntegrityError, 40),
        ("u", (ids, ids), mmdb.IntegrityError, 41),
        ("t", (ids, long, ids), mmdb.DataError, 13),
        ("t", (ids, ["x", "y" * 65, "z"], ids), mmdb.DataError, 13),
        ("t", ([5, 2**63, 7], texts, ids), mmdb.DataError, 12),
        ("t", (ids, broken, ids), mmdb.DataError, None),
        ("t", (ids, ["x", "y\n", "z"], ids), mmdb.DataError, None),
        ("t", (ids, ["x", "\ud800", "z"], ids), mmdb.DataError, None),
        ("t", ([5, 6.5, 7], texts, ids), mmdb.NotSupportedError, None),
        ("t", (ids, ["x", None, "z"], ids), mmdb.NotSupportedError, None),
    ]
    for name, columns, kind, number in cases:
        with pytest.raises(kind) as raised:
            table.append(name, columns)
        assert raised.value.number == number, (name, columns, raised.value)
        assert not table.in_transaction and rows(table) == [(1, "a", 2)] and table.total_changes == 1


def test_wrong_columns(table: mmdb.Connection) -> None:
    ids = array.array("q", [1, 2])
    for columns, kind in (
        ((ids, ["x"], ids), ValueError),
        ((ids, ["x", "y"], [1, 2, 3]), ValueError),
        ((ids, (array.array("i", [0, 1, 3]), b"xy"), ids), ValueError),
        ((ids, (array.array("i", [0, 2, 1]), b"xy"), ids), ValueError),
        ((ids, (array.array("i", [-1, 1, 2]), b"xy"), ids), ValueError),
        ((ids, (array.array("i", []), b"xy"), ids), ValueError),
        ((ids, (array.array("q", [0, 1, 2]), b"xy"), ids), TypeError),
        ((ids, ("xy",), ids), TypeError),
        ((array.array("i", [1, 2]), ["x", "y"], ids), TypeError),
        (("ab", ["x", "y"], ids), TypeError),
        ((5, ["x", "y"], ids), TypeError),
        (None, TypeError),
    ):
        with pytest.raises(kind):
            table.append("t", columns)
    assert rows(table) == [] and not table.in_transaction


def test_columns_that_change_meanwhile(table: mmdb.Connection) -> None:
    numbers, texts = array.array("q", [1, 2]), bytearray(b"xy")

    class Changing:
        def __index__(self) -> int:
            numbers[0], texts[0] = 7, ord("z")
            return 3

    assert table.append("t", (numbers, (array.array("i", [0, 1, 2]), texts), [Changing(), 4])) == 2
    assert rows(table) == [(1, "x", 3), (2, "y", 4)] and numbers[0] == 7


@pytest.mark.parametrize(("place", "offset"), [(0, -1_000_000), (0, 2), (1, -1), (1, 3), (2, 3), (2, 0)])
def test_offsets_that_change_meanwhile(table: mmdb.Connection, place: int, offset: int) -> None:
    offsets = array.array("i", [0, 1, 2])

    class Changing:
        def __index__(self) -> int:
            offsets[place] = offset
            return 1

    with pytest.raises(ValueError, match="have changed"):
        table.append("t", ([Changing(), 2], (offsets, b"xy"), [3, 4]))
    assert rows(table) == [] and not table.in_transaction


def test_a_value_that_closes_the_connection(table: mmdb.Connection) -> None:
    class Closing:
        def __index__(self) -> int:
            table.close()
            return 3

    with pytest.raises(mmdb.ProgrammingError, match="closed"):
        table.append("t", ([1], ["x"], [Closing()]))


def test_the_trace_callback(table: mmdb.Connection) -> None:
    lines: list[str] = []
    table.set_trace_callback(lines.append)
    table.append("t", ([1], ["x"], [2]))
    with pytest.raises(mmdb.IntegrityError):
        table.append("t", ([1], ["x"], [2]))

    def refuses(line: str) -> None:
        raise KeyError(line)

    table.set_trace_callback(refuses)
    with pytest.raises(KeyError, match="INSERT t"):
        table.append("t", ([3], ["x"], [2]))
    table.set_trace_callback(None)
    assert lines == ["INSERT t", "INSERT t"] and rows(table) == [(1, "x", 2)]


def test_more_rows_than_a_table_may_have(connection: mmdb.Connection) -> None:
    connection.execute("TABLE n (id INT KEY)")
    keys = array.array("q", range(2**20 + 1))
    with pytest.raises(mmdb.OperationalError) as raised:
        connection.append("n", [keys])
    assert raised.value.number == 45 and connection.execute("SCAN n").fetchall() == []
    assert connection.append("n", [keys[1:]]) == 2**20


def generated() -> Iterator[Any]:
    yield [1]
    raise KeyError("mine")


def test_an_iterator_that_raises(table: mmdb.Connection) -> None:
    with pytest.raises(KeyError, match="mine"):
        table.append("t", generated())
    assert rows(table) == []
