"""A connection is used by the thread that made it alone, or by all threads, one call at a time."""

import asyncio
import gc
import threading
import weakref
from collections.abc import Callable
from concurrent.futures import ThreadPoolExecutor

import mmdb
import pytest


def raised_elsewhere(call: Callable[[], object]) -> BaseException | None:
    """What a call raises in another thread."""
    raised: list[BaseException] = []

    def run() -> None:
        try:
            call()
        except BaseException as error:
            raised.append(error)

    thread = threading.Thread(target=run)
    thread.start()
    thread.join()
    return raised[0] if raised else None


def calls_of(connection: mmdb.Connection) -> list[Callable[[], object]]:
    """Each call that uses the database."""
    cursor = connection.execute("SCAN author")
    return [
        connection.cursor,
        connection.commit,
        connection.rollback,
        connection.__enter__,
        lambda: connection.in_transaction,
        lambda: connection.total_changes,
        lambda: setattr(connection, "autocommit", False),
        lambda: connection.execute("SCAN author"),
        lambda: connection.executemany("INSERT author (?, ?)", []),
        lambda: connection.executecolumns("INSERT author (?, ?)", [[], []]),
        lambda: connection.append("author", [[], []]),
        lambda: connection.executescript("SCAN author"),
        lambda: connection.load("SCAN author"),
        lambda: connection.savepoint("s"),
        connection.iterdump,
        lambda: connection.definition("author"),
        lambda: connection.set_trace_callback(None),
        lambda: cursor.execute("SCAN author"),
        lambda: cursor.executemany("INSERT author (?, ?)", []),
        lambda: cursor.executecolumns("INSERT author (?, ?)", [[], []]),
        lambda: cursor.executescript("SCAN author"),
        lambda: connection._execute_line(b"SCAN author"),
        connection._reply_text,
        lambda: connection._dump_piece(0, 0, 0),
        connection.close,
    ]


def test_other_threads_are_refused(papers: mmdb.Connection) -> None:
    for call in calls_of(papers):
        error = raised_elsewhere(call)
        assert isinstance(error, mmdb.ProgrammingError) and "by the thread that made it" in str(error)
    assert papers.execute("SCAN author").rowcount == 2


def test_other_threads_may_use_it_without_the_check() -> None:
    connection = mmdb.connect(check_same_thread=False)
    connection.execute("TABLE author (id INT KEY, name TEXT)")
    for call in calls_of(connection):
        assert raised_elsewhere(call) is None
    with pytest.raises(mmdb.ProgrammingError, match="closed"):
        connection.execute("SCAN author")


def test_a_thread_that_has_ended_is_not_taken_for_another() -> None:
    """The system gives the identity of a thread that has ended to the next one."""
    made: list[mmdb.Connection] = []
    idents = set()
    for _ in range(50):
        thread = threading.Thread(target=lambda: made.append(mmdb.connect()))
        thread.start()
        thread.join()
        idents.add(thread.ident)
        for connection in made:
            assert isinstance(raised_elsewhere(lambda: connection.execute("TABLES")), mmdb.ProgrammingError)
    assert len(idents) < 50, "the system never gave an identity again, so nothing was tested"


def test_each_thread_has_its_own() -> None:
    totals: list[int] = []

    def work(start: int) -> None:
        connection = mmdb.connect()
        connection.execute("TABLE t (id INT KEY, k INT)")
        connection.executemany("INSERT t (?, ?)", [(number, start) for number in range(500)])
        line = "SELECT a.k FROM t a WHERE a.id = ?"
        totals.append(sum(connection.execute(line, (number,)).fetchone()[0] for number in range(500)))
        connection.close()

    threads = [threading.Thread(target=work, args=(start,)) for start in range(4)]
    for thread in threads:
        thread.start()
    for thread in threads:
        thread.join()
    assert sorted(totals) == [0, 500, 1000, 1500]


def test_one_call_at_a_time() -> None:
    """Threads share a connection and its cursors. Each change is there once, and each result is whole."""
    connection = mmdb.connect(autocommit=True, check_same_thread=False)
    connection.execute("TABLE t (id INT KEY, k INT)")
    connection.execute("TABLE fixed (id INT KEY, s TEXT)")
    fixed = [(number, f"text {number}") for number in range(3000)]
    connection.executemany("INSERT fixed (?, ?)", fixed)
    shared = connection.cursor()
    errors: list[BaseException] = []

    def work(start: int) -> None:
        try:
            for number in range(200):
                connection.execute("INSERT t (?, ?)", (1000 * start + number, start))
                assert connection.execute("SELECT a.s FROM fixed a WHERE a.id = ?", (number,)).fetchall() == [fixed[number][1:]]
                connection.execute(f"SELECT a.s FROM fixed a WHERE a.id = {1000 * start + number}").fetchall()
                if number % 10 == start:
                    assert connection.execute("SCAN fixed").fetchall() == fixed
                    shared.execute("SCAN fixed")
                    gc.collect()
            connection.executemany("UPDATE t SET k = ? WHERE id = ?", [(-start, 1000 * start + n) for n in range(200)])
        except BaseException as error:
            errors.append(error)

    threads = [threading.Thread(target=work, args=(start,)) for start in range(6)]
    for thread in threads:
        thread.start()
    for thread in threads:
        thread.join()
    assert errors == []
    assert connection.execute("SCAN t").fetchall() == [(1000 * s + n, -s) for s in range(6) for n in range(200)]
    assert connection.total_changes == 3000 + 2 * 6 * 200
    assert len(connection._statements) <= 128


def test_a_close_waits_for_calls_of_other_threads() -> None:
    for _ in range(20):
        connection = mmdb.connect(autocommit=True, check_same_thread=False)
        connection.execute("TABLE t (id INT KEY)")
        ended: list[str] = []

        def work() -> None:
            try:
                for number in range(100_000):
                    connection.executemany("INSERT t (?)", [(1000 * number + place,) for place in range(500)])
            except mmdb.ProgrammingError as error:
                ended.append(str(error))

        threads = [threading.Thread(target=work) for _ in range(1)]
        for thread in threads:
            thread.start()
        while connection.total_changes < 2000:
            pass
        connection.close()
        for thread in threads:
            thread.join()
        assert ended == ["the connection is closed"]


def test_to_thread() -> None:
    async def work() -> list[tuple[int]]:
        connection = mmdb.connect(check_same_thread=False)
        await asyncio.to_thread(connection.execute, "TABLE t (id INT KEY)")
        await asyncio.gather(*(asyncio.to_thread(connection.execute, "INSERT t (?)", (n,)) for n in range(50)))
        await asyncio.to_thread(connection.commit)
        cursor = await asyncio.to_thread(connection.execute, "SCAN t")
        rows = await asyncio.to_thread(cursor.fetchall)
        await asyncio.to_thread(connection.close)
        return rows

    assert asyncio.run(work()) == [(n,) for n in range(50)]


@pytest.mark.parametrize("is_checked", [True, False])
def test_what_another_thread_drops_is_closed(is_checked: bool) -> None:
    """A thread opens it and ends, and another one drops it: the weak reference dies at once, and so do its rows."""
    with ThreadPoolExecutor(1) as pool:
        held = [pool.submit(mmdb.connect, check_same_thread=is_checked).result()]
    dead = weakref.ref(held[0])
    assert raised_elsewhere(lambda: (held.clear(), gc.collect())) is None
    assert dead() is None


def test_what_is_dropped_is_closed() -> None:
    connection = mmdb.connect()
    connection.execute("TABLE t (id INT KEY)")
    cursor = connection.execute("SCAN t")
    dead = weakref.ref(connection)
    del connection
    assert dead() is not None
    del cursor
    assert dead() is None
