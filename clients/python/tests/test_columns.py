"""Columns in and out: buffers, and the capsules of Arrow's C data interface, read by ctypes."""

import array
import ctypes
import gc

import mmdb
import pytest


@pytest.fixture
def filled(connection: mmdb.Connection) -> mmdb.Connection:
    connection.execute("TABLE t (id INT KEY, s TEXT, k INT)")
    connection.executemany("INSERT t (?, ?, ?)", ROWS)
    return connection


ROWS = [(number, f"text {number} é" if number % 3 else "", -number) for number in range(5000)]


def texts_of(column: tuple[memoryview, memoryview]) -> list[str]:
    offsets, data = column
    assert offsets.format == "i" and data.format == "B"
    return [bytes(data[begin:end]).decode() for begin, end in zip(offsets, offsets[1:])]


def rows_of(columns: mmdb.Columns) -> list[tuple[object, ...]]:
    """The rows, from the buffers."""
    found = [columns[place] for place in range(len(columns))]
    return list(zip(*(texts_of(one) if isinstance(one, tuple) else one.tolist() for one in found)))


# Columns out.


@pytest.mark.parametrize("first, most", [(0, 0), (0, 1), (0, 2), (7, 8), (7, 20), (0, 5000), (4999, 5000)])
@pytest.mark.parametrize("fetched", [0, 1, 3])
def test_columns_are_the_rows(filled: mmdb.Connection, first: int, most: int, fetched: int) -> None:
    cursor = filled.execute("SELECT a.id, a.s, a.k FROM t a WHERE a.id >= ? AND a.id < ?", (first, most))
    cursor.fetchmany(fetched)
    columns = cursor.fetchcolumns()
    wanted = ROWS[first:most][fetched:]
    assert rows_of(columns) == wanted and columns.rows == len(wanted)
    assert columns.names == ("id", "s", "k") and len(columns) == 3
    assert cursor.fetchall() == [] and cursor.rownumber == cursor.rowcount == len(ROWS[first:most])
    assert rows_of(cursor.fetchcolumns()) == []


def test_columns_by_name_and_place(filled: mmdb.Connection) -> None:
    columns = filled.execute("SCAN t").fetchcolumns()
    numbers = columns["k"]
    assert isinstance(numbers, memoryview) and (numbers.format, numbers.itemsize, numbers.readonly) == ("q", 8, True)
    assert numbers.shape == (5000,) and columns[-1] == numbers == columns[2]
    assert texts_of(columns["s"]) == [text for _, text, _ in ROWS]
    for wrong in (3, -4):
        with pytest.raises(IndexError):
            columns[wrong]
    with pytest.raises(KeyError, match="no column is named 'nothing'"):
        columns["nothing"]
    with pytest.raises(TypeError):
        columns[None]
    assert len(list(columns)) == 3


def test_columns_outlive_all(filled: mmdb.Connection) -> None:
    cursor = filled.execute("SCAN t")
    columns = cursor.fetchcolumns()
    offsets, data = columns["s"]
    numbers = columns["id"]
    del columns, cursor
    filled.close()
    gc.collect()
    assert numbers.tolist() == list(range(5000)) and texts_of((offsets, data)) == [text for _, text, _ in ROWS]


def test_columns_of_other_replies(papers: mmdb.Connection) -> None:
    for line in ("TABLES", "EXPLAIN SELECT a.id FROM author a"):
        columns = papers.execute(line).fetchcolumns()
        assert columns.names == ("line",) and rows_of(columns) == papers.execute(line).fetchall()
    assert rows_of(mmdb.connect().execute("TABLES").fetchcolumns()) == []
    with pytest.raises(mmdb.ProgrammingError, match="no rows to fetch"):
        papers.execute("INSERT author (7, '')").fetchcolumns()


def test_numpy(filled: mmdb.Connection) -> None:
    numpy = pytest.importorskip("numpy")
    columns = filled.execute("SCAN t").fetchcolumns()
    numbers = numpy.asarray(columns["k"])
    assert numbers.dtype == numpy.int64 and numbers.sum() == -sum(range(5000))
    filled.execute("DELETE t")
    assert filled.executecolumns("INSERT t (?, 'a', ?)", (numpy.arange(100), numbers[:200:2])).rowcount == 100
    assert filled.execute("SCAN t").fetchall() == [(number, "a", -2 * number) for number in range(100)]
    filled.execute("DELETE t")
    pairs = numpy.arange(200).reshape(100, 2)
    filled.executecolumns("INSERT t (?, '', ?)", (pairs[::-1, 0], pairs[:, 1]))
    assert filled.execute("SCAN t").fetchone() == (0, "", 199)
    for wrong in (pairs, numpy.arange(3.0), numpy.arange(3, dtype=numpy.int32), numpy.arange(3, dtype=">i8")):
        with pytest.raises(TypeError, match="a column is"):
            filled.executecolumns("DELETE t WHERE id = ?", (wrong,))


# Columns in.


def test_columns_go_back_in(filled: mmdb.Connection) -> None:
    columns = filled.execute("SCAN t").fetchcolumns()
    other = mmdb.connect()
    other.execute("TABLE t (id INT KEY, s TEXT, k INT)")
    cursor = other.cursor()
    assert cursor.executecolumns("INSERT t (?, ?, ?)", columns) is cursor
    assert cursor.rowcount == 5000 and cursor.description is None
    assert other.execute("SCAN t").fetchall() == ROWS


def test_columns_of_each_kind(connection: mmdb.Connection) -> None:
    connection.execute("TABLE t (id INT KEY, s TEXT, k INT)")
    offsets, data = array.array("i", [0, 1, 1, 3]), b"abc"
    columns = (array.array("q", [1, 2, 3]), (offsets, data), memoryview(array.array("q", range(6)))[::2])
    assert connection.executecolumns("INSERT t (?, ?, ?)", columns).rowcount == 3
    assert connection.execute("SCAN t").fetchall() == [(1, "a", 0), (2, "", 2), (3, "bc", 4)]
    assert connection.executecolumns("UPDATE t SET s = ? WHERE id = ?", (["x", b"y", "z"], [3, 2, True])).rowcount == 3
    assert connection.execute("SELECT a.s FROM t a ORDER 1").fetchall() == [("x",), ("y",), ("z",)]
    assert connection.executecolumns("DELETE t WHERE id = ?", iter([[]])).rowcount == 0
    at_any_byte = memoryview(b"?" + offsets.tobytes())[1:].cast("i")
    assert connection.executecolumns("UPDATE t SET s = ? WHERE id = ?", ((at_any_byte, data), [3, 2, 1])).rowcount == 3
    assert connection.execute("SELECT a.s FROM t a ORDER 1").fetchall() == [("",), ("a",), ("bc",)]


def test_columns_that_are_refused(connection: mmdb.Connection) -> None:
    connection.execute("TABLE t (id INT KEY, s TEXT)")
    line = "INSERT t (?, ?)"
    for columns, kind, runs in (
        (([1, 2, 1], ["a", "b", "c"]), mmdb.IntegrityError, 2),
        (([1, 2, 3], ["a", "b\n", "c"]), mmdb.DataError, 1),
        (([1, 2, 3], ["a", 65 * "b", "c"]), mmdb.DataError, 1),
        (([1, 2, 3.5], ["a", 65 * "b", "c"]), mmdb.DataError, 1),
        (([1, 2, 3.5], ["a", "b", None]), mmdb.NotSupportedError, 2),
        ((["a"], ["b"]), mmdb.DataError, 0),
        (([2**63], ["b"]), mmdb.DataError, 0),
        (([1], (array.array("i", [0, 65]), 65 * b"x")), mmdb.DataError, 0),
    ):
        with pytest.raises(kind) as raised:
            connection.executecolumns(line, columns)
        assert raised.value.runs == runs
        assert connection.execute("SCAN t").rowcount == runs and connection.in_transaction == (runs > 0)
        connection.rollback()


def test_columns_that_are_none(connection: mmdb.Connection) -> None:
    connection.execute("TABLE t (id INT KEY, s TEXT)")
    line = "INSERT t (?, ?)"
    offsets = array.array("i", [0, 1])
    for columns, kind in (
        ([[1]], mmdb.ProgrammingError),
        ([[1], ["a"], [2]], mmdb.ProgrammingError),
        ([[1], ["a", "b"]], ValueError),
        ([[1], "ab"], TypeError),
        ([[1], b"abcdefgh"], TypeError),
        ([array.array("d", [1.0]), ["a"]], TypeError),
        ([5, ["a"]], TypeError),
        (5, TypeError),
        ([[1], (offsets,)], TypeError),
        ([[1], (offsets, "a")], TypeError),
        ([[1], (array.array("q", [0, 1]), b"a")], TypeError),
        ([[1], (array.array("i"), b"a")], ValueError),
        ([[1], (array.array("i", [0, 2]), b"a")], ValueError),
        ([[1], (array.array("i", [-1, 1]), b"a")], ValueError),
        ([[1, 2], (array.array("i", [0, 1, 0]), b"a")], ValueError),
    ):
        with pytest.raises(kind):
            connection.executecolumns(line, columns)
        assert not connection.in_transaction
    with pytest.raises(mmdb.ProgrammingError, match="0 holes"):
        connection.executecolumns("DELETE t", [])
    with pytest.raises(mmdb.ProgrammingError, match="only INSERT"):
        connection.executecolumns("SELECT a.id FROM t a WHERE a.id = ?", [[1]])


# Arrow. The structures are as https://arrow.apache.org/docs/format/CDataInterface.html declares them.


class Schema(ctypes.Structure):
    pass


Schema._fields_ = [
    *((name, ctypes.c_char_p) for name in ("format", "name", "metadata")),
    *((name, ctypes.c_int64) for name in ("flags", "n_children")),
    ("children", ctypes.POINTER(ctypes.POINTER(Schema))),
    ("dictionary", ctypes.c_void_p),
    ("release", ctypes.CFUNCTYPE(None, ctypes.POINTER(Schema))),
    ("private_data", ctypes.c_void_p),
]


class Array(ctypes.Structure):
    pass


Array._fields_ = [
    *((name, ctypes.c_int64) for name in ("length", "null_count", "offset", "n_buffers", "n_children")),
    ("buffers", ctypes.POINTER(ctypes.c_void_p)),
    ("children", ctypes.POINTER(ctypes.POINTER(Array))),
    ("dictionary", ctypes.c_void_p),
    ("release", ctypes.CFUNCTYPE(None, ctypes.POINTER(Array))),
    ("private_data", ctypes.c_void_p),
]

pointer_of = ctypes.pythonapi.PyCapsule_GetPointer
pointer_of.argtypes, pointer_of.restype = [ctypes.py_object, ctypes.c_char_p], ctypes.c_void_p


def schema_of(capsule: object) -> Schema:
    return Schema.from_address(pointer_of(capsule, b"arrow_schema"))


def array_of(capsule: object) -> Array:
    return Array.from_address(pointer_of(capsule, b"arrow_array"))


def values_of(schema: Schema, one: Array) -> list[object]:
    """The values of a child, as a consumer reads them."""
    assert one.null_count == 0 and not one.buffers[0]
    places = range(one.offset, one.offset + one.length)
    if schema.format == b"l":
        assert one.n_buffers == 2
        numbers = (ctypes.c_int64 * (one.offset + one.length)).from_address(one.buffers[1])
        return [numbers[place] for place in places]
    assert one.n_buffers == 3 and schema.format in (b"u", b"z")
    offsets = (ctypes.c_int32 * (one.offset + one.length + 1)).from_address(one.buffers[1])
    texts = [ctypes.string_at(one.buffers[2] + offsets[place], offsets[place + 1] - offsets[place]) for place in places]
    return [text.decode() for text in texts] if schema.format == b"u" else list(texts)


def read_arrow(schema: Schema, one: Array) -> list[tuple[object, ...]]:
    assert schema.format == b"+s" and schema.n_children == one.n_children and one.n_buffers == 1 and one.offset == 0
    columns = [values_of(schema.children[i].contents, one.children[i].contents) for i in range(one.n_children)]
    assert all(len(column) == one.length for column in columns)
    return list(zip(*columns))


@pytest.mark.parametrize("fetched", [0, 1, 4999, 5000])
def test_arrow(filled: mmdb.Connection, fetched: int) -> None:
    cursor = filled.execute("SCAN t")
    cursor.fetchmany(fetched)
    columns = cursor.fetchcolumns()
    schema_capsule, array_capsule = columns.__arrow_c_array__()
    del columns, cursor
    schema, one = schema_of(schema_capsule), array_of(array_capsule)
    assert [schema.children[i].contents.name for i in range(3)] == [b"id", b"s", b"k"]
    assert [schema.children[i].contents.flags for i in range(3)] == [0, 0, 0]
    assert read_arrow(schema, one) == ROWS[fetched:]


def test_a_consumer_releases_what_it_took(filled: mmdb.Connection) -> None:
    columns = filled.execute("SELECT a.s, a.id FROM t a WHERE a.id = 5").fetchcolumns()
    schema_capsule, array_capsule = columns.__arrow_c_array__(requested_schema=None)
    schema, one = schema_of(schema_capsule), array_of(array_capsule)
    # A consumer moves the structures out of the capsules and marks these as released.
    own_schema, own = Schema.from_buffer_copy(schema), Array.from_buffer_copy(one)
    release_schema, release = own_schema.release, own.release
    for moved in (schema, one):
        ctypes.memset(ctypes.addressof(moved) + type(moved).release.offset, 0, ctypes.sizeof(ctypes.c_void_p))
    del schema_capsule, array_capsule, columns
    gc.collect()
    assert read_arrow(own_schema, own) == [("text 5 é", 5)]
    # It may also move a child out of an array, and release the array first.
    child = Array.from_buffer_copy(own.children[1].contents)
    ctypes.memset(ctypes.addressof(own.children[1].contents) + Array.release.offset, 0, ctypes.sizeof(ctypes.c_void_p))
    kind = Schema(format=b"l")
    release(ctypes.byref(own))
    release_schema(ctypes.byref(own_schema))
    assert not own.release and not own_schema.release
    assert values_of(kind, child) == [5]
    child.release(ctypes.byref(child))


def test_texts_that_are_not_utf8_are_bytes(connection: mmdb.Connection) -> None:
    connection.execute("TABLE t (id INT KEY, s TEXT)")
    good = ["a", "é", "日本語", "\U0001f600", "\ud7ff\ue000\U0010ffff", ""]
    wrong = [b"\xff", b"\xc3", b"\xc0\x80", b"\xe0\x80\x80", b"\xed\xa0\x80", b"\xf0\x80\x80\x80", b"\xf4\x90\x80\x80", b"\x80"]
    wrong.append(b"\xe6\x97")
    for texts, form in [(good, b"u"), *(([*good, text], b"z") for text in wrong)]:
        connection.execute("DELETE t")
        connection.executemany("INSERT t (?, ?)", enumerate(texts))
        columns = connection.execute("SCAN t").fetchcolumns()
        capsule = columns.__arrow_c_schema__()
        assert schema_of(capsule).children[1].contents.format == form
        schema_capsule, array_capsule = columns.__arrow_c_array__()
        read = [text for _, text in read_arrow(schema_of(schema_capsule), array_of(array_capsule))]
        assert read == (texts if form == b"u" else [text if isinstance(text, bytes) else text.encode() for text in texts])


def test_pyarrow(filled: mmdb.Connection) -> None:
    pyarrow = pytest.importorskip("pyarrow")
    batch = pyarrow.record_batch(filled.execute("SCAN t").fetchcolumns())
    assert batch.to_pydict()["k"] == [number for _, _, number in ROWS]
