"""Dumps that are not read in one go: abandoned, continued after other calls and in other threads, and read inside other calls."""

import gc
import os
import random
import signal
import threading
import weakref

import mmdb
import pytest
from test_random import SEED
from test_threads import raised_elsewhere

ROWS = [(number, "x" * 64) for number in range(20000)]
LOOK_UP = "SELECT a.s FROM t a WHERE a.id = 7"
DONE, MISUSE = 1, 100


def large(check_same_thread: bool = True) -> mmdb.Connection:
    """Returns a connection to a database whose dump has two pieces."""
    connection = mmdb.connect(autocommit=True, check_same_thread=check_same_thread)
    connection.execute("TABLE t (id INT KEY, s TEXT)")
    connection.executemany("INSERT t (?, ?)", ROWS)
    return connection


def test_an_abandoned_dump() -> None:
    connection = large()
    wanted = list(connection.iterdump())
    abandoned = [connection.iterdump() for _ in range(3)]
    assert [next(abandoned[0]), next(abandoned[0]), next(abandoned[1])] == [*wanted[:2], wanted[0]]
    abandoned[0].close()
    del abandoned
    assert list(connection.iterdump()) == wanted
    connection.execute("DELETE t")
    lines, reference = connection.iterdump(), weakref.ref(connection)
    del connection
    gc.collect()
    assert list(lines) == ["TABLE t (id INT KEY, s TEXT)"]
    gc.collect()
    assert reference() is None


def test_a_dump_of_a_connection_that_is_closed() -> None:
    connection = large()
    lines = connection.iterdump()
    next(lines)
    connection.close()
    with pytest.raises(mmdb.ProgrammingError, match="closed"):
        list(lines)
    assert list(lines) == []
    with pytest.raises(mmdb.ProgrammingError, match="closed"):
        connection.iterdump()


def test_a_dump_in_another_thread() -> None:
    lines = large().iterdump()
    error = raised_elsewhere(lambda: next(lines))
    assert isinstance(error, mmdb.ProgrammingError) and "by the thread that made it" in str(error)


def test_a_dump_in_several_threads() -> None:
    connection = large(check_same_thread=False)
    wanted = list(connection.iterdump())
    lines, lock = connection.iterdump(), threading.Lock()
    read: list[str] = []

    def read_some() -> None:
        for _ in range(len(wanted) // 4):
            with lock:
                read.append(next(lines))
            assert connection.execute(LOOK_UP).fetchone() == ("x" * 64,)

    threads = [threading.Thread(target=read_some) for _ in range(4)]
    for thread in threads:
        thread.start()
    for thread in threads:
        thread.join()
    assert [*read, *lines] == wanted


def test_a_dump_in_a_trace_callback() -> None:
    connection = large()
    wanted = list(connection.iterdump())
    lines = connection.iterdump()
    read: list[str] = []
    connection.set_trace_callback(lambda line: read.append(next(lines)))
    for _ in wanted:
        connection.execute(LOOK_UP)
    assert read == wanted
    # The callback of a change runs before the change.
    dumps: list[list[str]] = []
    connection.set_trace_callback(lambda line: dumps.append(list(connection.iterdump())))
    connection.execute("DELETE t WHERE id = 7")
    assert dumps == [wanted]
    lines = connection.iterdump()
    connection.set_trace_callback(lambda line: read.append(next(lines)))
    connection.execute("DELETE t WHERE id = 8")
    with pytest.raises(mmdb.ProgrammingError, match="^a command may have changed"):
        list(lines)


def test_a_dump_while_signal_handlers_run() -> None:
    connection, chance = large(), random.Random(f"{SEED}.dumps")
    changes, questions, ended = 0, 0, 0

    def ask(number: int, frame: object) -> None:
        nonlocal questions
        questions += 1
        assert connection.execute(LOOK_UP).fetchone() == ("x" * 64,)

    def change(number: int, frame: object) -> None:
        nonlocal changes
        changes += 1
        assert connection.execute("UPDATE t SET s = ? WHERE id = 5", (str(changes),)).rowcount == 1

    before = signal.signal(signal.SIGALRM, ask)
    try:
        wanted = list(connection.iterdump())
        signal.setitimer(signal.ITIMER_REAL, 0.0005, 0.0005)
        while questions < 50:
            assert list(connection.iterdump()) == wanted
        signal.setitimer(signal.ITIMER_REAL, 0)
        signal.signal(signal.SIGALRM, change)
        for _ in range(1000):
            wanted, found = list(connection.iterdump()), None
            signal.setitimer(signal.ITIMER_REAL, chance.uniform(0.0001, 0.005))
            try:
                found = list(connection.iterdump())
            except mmdb.ProgrammingError as error:
                assert error.number == MISUSE and changes > 0
                ended += 1
            signal.setitimer(signal.ITIMER_REAL, 0)
            # The one change came before the dump, after it, or in it.
            assert found in (None, wanted, list(connection.iterdump()))
            if ended == 10:
                break
    finally:
        signal.setitimer(signal.ITIMER_REAL, 0)
        signal.signal(signal.SIGALRM, before)
    assert ended > 0, "no handler ran inside a dump, so nothing was tested"


def test_places_that_no_dump_has() -> None:
    connection = large()
    _, first, (part, row, version) = connection._dump_piece(0, 0, 0)
    status, second, end = connection._dump_piece(part, row, version)
    assert status == DONE and first + second == "".join(line + "\n" for line in connection.iterdump()).encode()
    assert connection._dump_piece(*end) == (DONE, b"", end)
    most = 2**64 - 1
    for part in (0, 1, 2, 3, most):
        for row in (1, len(ROWS) - 1, len(ROWS), most):
            status, piece, _ = connection._dump_piece(part, row, version)
            is_past_the_end = part > 1 or (part == 1 and row >= len(ROWS))
            assert status == DONE and (piece == b"" if is_past_the_end else piece.endswith(b")\n"))
            for other in (version - 1, version + 1, most):
                assert connection._dump_piece(part, row, other) == (MISUSE, b"", (part, row, other))
    assert connection._dump_piece(0, 0, most)[:2] == (DONE, first)


def test_a_dump_in_a_text_file(tmp_path: "os.PathLike[str]") -> None:
    """Carriage returns and bytes that are not UTF-8 survive, if the file is opened as the README says."""
    rows = [(1, b"\r"), (2, b"\xff\r\xc3"), (3, "a\r'\u2028\x85".encode()), (4, b"")]
    connection, again = mmdb.connect(), mmdb.connect()
    connection.execute("TABLE t (id INT KEY, s TEXT)")
    connection.executemany("INSERT t (?, ?)", rows)
    path = os.path.join(tmp_path, "dump.mmdb")
    with open(path, "w", encoding="utf-8", newline="\n", errors="surrogateescape") as file:
        file.writelines(line + "\n" for line in connection.iterdump())
    with open(path, encoding="utf-8", newline="\n", errors="surrogateescape") as file:
        again.executescript(file.read())
    again.text_factory = bytes
    assert again.execute("SCAN t").fetchall() == rows
    assert list(again.iterdump()) == list(connection.iterdump())
