"""When transactions begin and end, and savepoints."""

from contextlib import suppress

import mmdb
import pytest

TABLE = "TABLE t (id INT KEY, k INT)"


@pytest.fixture
def numbers(connection: mmdb.Connection) -> mmdb.Connection:
    connection.execute(TABLE)
    connection.execute("INSERT t (1, 10), (2, 20)")
    connection.commit()
    return connection


def rows(connection: mmdb.Connection) -> list[tuple]:
    return connection.execute("SCAN t").fetchall()


@pytest.mark.parametrize(
    "line, values",
    [
        ("INSERT t (?, 30)", (3,)),
        ("UPDATE t SET k = ?", (5,)),
        ("DELETE t WHERE id = ?", (1,)),
        ("\t DELETE t", ()),
    ],
)
def test_a_change_begins_a_transaction(numbers: mmdb.Connection, line: str, values: tuple) -> None:
    before = rows(numbers)
    assert not numbers.in_transaction
    numbers.execute(line, values)
    assert numbers.in_transaction
    numbers.rollback()
    assert rows(numbers) == before
    numbers.executemany(line, [values])
    assert numbers.in_transaction
    numbers.rollback()
    assert rows(numbers) == before


@pytest.mark.parametrize(
    "line", ["SCAN t", "SELECT a.id FROM t a", "EXPLAIN SELECT a.id FROM t a", "TABLES", "-- INSERT", ""]
)
def test_a_question_begins_none(numbers: mmdb.Connection, line: str) -> None:
    numbers.execute(line)
    assert not numbers.in_transaction


def test_a_refused_change_begins_none(numbers: mmdb.Connection) -> None:
    for values in ((1, 5), (3, "a"), (3, 2.5), (3,), (2**63, 5)):
        with pytest.raises(mmdb.Error):
            numbers.execute("INSERT t (?, ?)", values)
        assert not numbers.in_transaction
        with pytest.raises(mmdb.Error):
            numbers.executemany("INSERT t (?, ?)", [values])
        assert not numbers.in_transaction
    with pytest.raises(mmdb.Error):
        numbers.executemany("UPDATE t SET id = ?", [(5,)])
    assert not numbers.in_transaction


def test_a_refused_change_leaves_an_open_one_open(numbers: mmdb.Connection) -> None:
    numbers.execute("DELETE t WHERE id = 1")
    with pytest.raises(mmdb.IntegrityError):
        numbers.execute("INSERT t (2, 5)")
    assert numbers.in_transaction
    assert rows(numbers) == [(2, 20)]
    numbers.rollback()
    assert rows(numbers) == [(1, 10), (2, 20)]


def test_transactions_by_lines(numbers: mmdb.Connection) -> None:
    numbers.execute("BEGIN")
    assert numbers.in_transaction
    numbers.execute("DELETE t")
    numbers.execute("ROLLBACK")
    assert not numbers.in_transaction
    numbers.execute("DELETE t WHERE id = 1")
    numbers.execute("COMMIT")
    assert not numbers.in_transaction
    numbers.executescript("BEGIN\nINSERT t (3, 5)")
    assert numbers.in_transaction
    numbers.commit()
    assert rows(numbers) == [(2, 20), (3, 5)]


@pytest.mark.parametrize("line", ["TABLE u (id INT KEY)", "DROP TABLE t", "WATCH w SELECT a.id FROM t a", "UNWATCH v"])
def test_definitions_are_refused_in_a_transaction(numbers: mmdb.Connection, line: str) -> None:
    numbers.watch("v", "SELECT a.id FROM t a WHERE a.k > 0")
    numbers.execute("INSERT t (3, 30)")
    with pytest.raises(mmdb.ProgrammingError, match="commit or roll back first") as raised:
        numbers.execute(line)
    assert raised.value.number == 52
    assert numbers.in_transaction
    numbers.rollback()
    assert len(rows(numbers)) == 2


def test_indexes_come_and_go_in_a_transaction(numbers: mmdb.Connection) -> None:
    numbers.execute("INSERT t (3, 5)")
    numbers.execute("INDEX i ON t (k) TREE")
    assert numbers.execute("SCAN INDEX i").fetchall() == [(3, 5), (1, 10), (2, 20)]
    numbers.rollback()
    assert numbers.execute("SCAN INDEX i").fetchall() == [(1, 10), (2, 20)]


def test_autocommit() -> None:
    connection = mmdb.connect(autocommit=True)
    assert connection.autocommit
    connection.execute(TABLE)
    connection.execute("INSERT t (1, 10)")
    connection.executemany("INSERT t (?, ?)", [(2, 20), (3, 30)])
    assert not connection.in_transaction
    connection.rollback()
    assert len(rows(connection)) == 3
    connection.execute("BEGIN")
    connection.execute("DELETE t")
    connection.rollback()
    assert len(rows(connection)) == 3
    connection.close()


def test_autocommit_can_be_set(numbers: mmdb.Connection) -> None:
    assert numbers.autocommit is False
    numbers.execute("DELETE t WHERE id = 1")
    numbers.autocommit = True
    assert not numbers.in_transaction
    numbers.rollback()
    assert rows(numbers) == [(2, 20)]
    numbers.execute("DELETE t")
    numbers.autocommit = False
    numbers.execute("INSERT t (5, 5)")
    numbers.rollback()
    assert rows(numbers) == []


def test_savepoints(numbers: mmdb.Connection) -> None:
    with numbers:
        numbers.execute("INSERT t (3, 30)")
        with numbers.savepoint("s") as savepoint:
            assert savepoint.name == "s"
            numbers.execute("INSERT t (4, 40)")
        with pytest.raises(KeyError), numbers.savepoint("s"):
            numbers.execute("DELETE t")
            raise KeyError
        with numbers.savepoint("s") as savepoint:
            numbers.execute("DELETE t")
            savepoint.rollback()
            numbers.execute("INSERT t (5, 50)")
    assert [number for number, _ in rows(numbers)] == [1, 2, 3, 4, 5]


def test_savepoints_nest(numbers: mmdb.Connection) -> None:
    with numbers.savepoint("outer"):
        numbers.execute("INSERT t (3, 30)")
        with pytest.raises(mmdb.IntegrityError), numbers.savepoint("inner"):
            numbers.execute("INSERT t (4, 40)")
            numbers.execute("INSERT t (1, 10)")
        assert [number for number, _ in rows(numbers)] == [1, 2, 3]
        with pytest.raises(KeyError), numbers.savepoint("outer"):
            with numbers.savepoint("inner"):
                numbers.execute("DELETE t")
                raise KeyError
        assert [number for number, _ in rows(numbers)] == [1, 2, 3]
    assert numbers.in_transaction
    numbers.rollback()
    assert len(rows(numbers)) == 2


def test_a_savepoint_begins_a_transaction(numbers: mmdb.Connection) -> None:
    numbers.execute("SAVEPOINT s")
    assert numbers.in_transaction
    numbers.commit()


def test_a_savepoint_with_autocommit_has_a_transaction_of_its_own(numbers: mmdb.Connection) -> None:
    numbers.autocommit = True
    with numbers.savepoint("s"):
        assert numbers.in_transaction
        numbers.execute("INSERT t (3, 30)")
    assert not numbers.in_transaction
    with pytest.raises(KeyError), numbers.savepoint("s"):
        numbers.execute("DELETE t")
        raise KeyError
    assert not numbers.in_transaction and len(rows(numbers)) == 3
    numbers.execute("BEGIN")
    with numbers.savepoint("s"):
        numbers.execute("DELETE t")
    assert numbers.in_transaction
    numbers.rollback()
    assert len(rows(numbers)) == 3


def test_savepoints_with_one_name_nest(numbers: mmdb.Connection) -> None:
    def step(depth: int) -> None:
        with numbers.savepoint("step"):
            numbers.execute("INSERT t (?, 0)", (100 + depth,))
            if depth < 5:
                step(depth + 1)
            if depth == 2:
                raise KeyError

    with pytest.raises(KeyError):
        step(1)
    numbers.commit()
    assert rows(numbers) == [(1, 10), (2, 20)]
    with numbers.savepoint("step"):
        numbers.execute("INSERT t (3, 30)")
        with pytest.raises(KeyError), numbers.savepoint("step"):
            numbers.execute("DELETE t")
            raise KeyError
        numbers.execute("INSERT t (4, 40)")
    numbers.commit()
    assert [number for number, _ in rows(numbers)] == [1, 2, 3, 4]


@pytest.mark.parametrize("fails", [False, True])
def test_a_savepoint_that_is_gone_leaves_an_earlier_one_of_its_name_alone(numbers: mmdb.Connection, fails: bool) -> None:
    with pytest.raises(LookupError), numbers.savepoint("a"):
        numbers.execute("INSERT t (3, 30)")
        with numbers.savepoint("b") as middle:
            with suppress(KeyError), numbers.savepoint("a") as inner:
                numbers.execute("INSERT t (4, 40)")
                middle.rollback()
                with pytest.raises(mmdb.ProgrammingError, match="no such savepoint"):
                    inner.rollback()
                numbers.execute("INSERT t (5, 50)")
                if fails:
                    raise KeyError
            assert [number for number, _ in rows(numbers)] == [1, 2, 3, 5]
        raise IndexError
    assert [number for number, _ in rows(numbers)] == [1, 2]


@pytest.mark.parametrize("fails", [False, True])
@pytest.mark.parametrize("is_script", [False, True])
def test_a_block_ends_with_its_own_savepoint(numbers: mmdb.Connection, fails: bool, is_script: bool) -> None:
    with suppress(KeyError), numbers.savepoint("s"):
        numbers.execute("INSERT t (3, 30)")
        for line in ("SAVEPOINT s", "SAVEPOINT t", "SAVEPOINT s"):
            numbers.executescript(line) if is_script else numbers.execute(line)
        numbers.execute("INSERT t (4, 40)")
        if fails:
            raise KeyError
    assert [number for number, _ in rows(numbers)] == ([1, 2] if fails else [1, 2, 3, 4])
    with pytest.raises(mmdb.ProgrammingError, match="no such savepoint"):
        numbers.execute("ROLLBACK TO s")


@pytest.mark.parametrize("fails", [False, True])
def test_a_thousand_savepoints_in_a_row(numbers: mmdb.Connection, fails: bool) -> None:
    for number in range(1000):
        try:
            with numbers.savepoint("item"):
                numbers.execute("INSERT t (?, 0)", (10 + number,))
                if fails:
                    raise KeyError
        except KeyError:
            pass
    assert len(rows(numbers)) == (2 if fails else 1002)


def test_a_savepoint_is_set_once(numbers: mmdb.Connection) -> None:
    savepoint = numbers.savepoint("s")
    with savepoint:
        with pytest.raises(mmdb.ProgrammingError, match="set already"):
            savepoint.__enter__()
        numbers.execute("DELETE t")
    with pytest.raises(KeyError), savepoint:
        numbers.execute("INSERT t (3, 30)")
        raise KeyError
    assert rows(numbers) == []
    assert savepoint.__exit__(None, None, None) is False
    with pytest.raises(mmdb.ProgrammingError) as raised:
        savepoint.rollback()
    assert raised.value.number == 53


def test_a_savepoint_that_a_rollback_removed(numbers: mmdb.Connection) -> None:
    numbers.execute("SAVEPOINT outer")
    with numbers.savepoint("inner"):
        numbers.execute("DELETE t")
        numbers.execute("ROLLBACK TO outer")
    assert numbers.in_transaction and len(rows(numbers)) == 2
    with pytest.raises(KeyError), numbers.savepoint("inner"):
        numbers.execute("DELETE t")
        numbers.execute("ROLLBACK TO outer")
        raise KeyError
    assert numbers.in_transaction and len(rows(numbers)) == 2


def test_a_savepoint_of_a_transaction_that_ended(numbers: mmdb.Connection) -> None:
    with pytest.raises(KeyError), numbers.savepoint("s"):
        numbers.execute("DELETE t")
        numbers.commit()
        raise KeyError
    assert rows(numbers) == []


@pytest.mark.parametrize("name", ["", "S", "1a", "a b", "s SAVEPOINT", "a" * 33, "é", "a\n"])
def test_names_are_checked(numbers: mmdb.Connection, name: str) -> None:
    for call in (
        lambda: numbers.savepoint(name).__enter__(),
        lambda: numbers.show(name),
        lambda: numbers.unwatch(name),
        lambda: numbers.watch(name, "SELECT a.id FROM t a"),
    ):
        with pytest.raises(mmdb.ProgrammingError, match="is no name|syntax"):
            call()
        assert not numbers.in_transaction


def test_at_most_64_savepoints(numbers: mmdb.Connection) -> None:
    for _ in range(64):
        numbers.execute("SAVEPOINT s")
    with pytest.raises(mmdb.OperationalError) as raised:
        numbers.execute("SAVEPOINT s")
    assert raised.value.number == 48
