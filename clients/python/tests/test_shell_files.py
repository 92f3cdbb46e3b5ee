"""Files of the shell: what is dumped makes the database again, and what is exported can be imported."""

import errno
import glob
import io
import os
import random
from collections.abc import Iterator

import pytest

from mmdb import shell_files
from mmdb._library import DONE, LEAST_REFUSAL, MEMORY, Database, Refused, Row, decoded
from mmdb.shell_commands import Shell
from mmdb.shell_catalog import Failure, Session
from mmdb.shell_files import Progress, dump, export_csv, import_csv, written
from mmdb.shell_script import lines_of, run_script
from mmdb.shell_tables import literal_row

TOP = os.path.dirname(os.path.dirname(os.path.dirname(os.path.dirname(os.path.abspath(__file__)))))
SCRIPTS = sorted(
    glob.glob(os.path.join(TOP, "tests", "rows", "**", "*.in"), recursive=True)
    + glob.glob(os.path.join(TOP, "examples", "*.mmdb"))
)
QUIET = Progress(None)


def name_of(path: str) -> str:
    return os.path.relpath(path, TOP)


def read(path: str) -> bytes:
    with open(path, "rb") as file:
        return file.read()


def session_of(*lines: str) -> Session:
    """A database in which these lines were done."""
    session = Session(Database())
    for line in lines:
        session.demand(line.encode())
    return session


def reply(session: Session, line: str) -> bytes:
    session.demand(line.encode())
    return session.database.text()


def contents(session: Session) -> list[bytes]:
    """The catalog, and all rows that tables, indexes and standing queries show."""
    catalog = session.catalog()
    scans = [f"SCAN {name}" for name in catalog.tables] + [f"SCAN INDEX {name}" for name in catalog.indexes]
    return [reply(session, line) for line in ["TABLES", *scans, *(f"SHOW {name}" for name in catalog.standing)]]


def loaded(path: str) -> Session:
    """A database that a script makes, of which no line may be refused."""
    session = Session(Database())
    with open(path, "rb") as file:
        for line in lines_of(file):
            assert len(line) <= 4096
            session.demand(line)
    assert not session.database.in_transaction()
    return session


def check_dump(session: Session, folder: "os.PathLike[str]") -> str:
    """Dumps a database, and sees that the script makes it again. Answers the script."""
    paths = [os.path.join(folder, name) for name in ("first.mmdb", "second.mmdb")]
    dump(session, paths[0])
    again = loaded(paths[0])
    assert contents(again) == contents(session)
    dump(again, paths[1])
    first, second = (read(path) for path in paths)
    assert first == second
    assert sorted(os.listdir(folder)) == ["first.mmdb", "second.mmdb"]
    return decoded(first)


@pytest.mark.parametrize("path", SCRIPTS, ids=name_of)
def test_dumps_of_what_scripts_make(path: str, tmp_path: "os.PathLike[str]") -> None:
    session = Session(Database())
    with open(path, "rb") as file:
        for line in lines_of(file):
            session.execute(line)
    check_dump(session, tmp_path)


def test_dump_of_an_empty_database(tmp_path: "os.PathLike[str]") -> None:
    assert check_dump(session_of(), tmp_path) == ""


def test_dump_in_the_order_of_foreign_keys(tmp_path: "os.PathLike[str]") -> None:
    session = session_of(
        "TABLE z (id INT KEY)",
        "TABLE y (id TEXT KEY, r INT REF z)",
        "TABLE b (id INT KEY, r TEXT REF y CASCADE, q INT REF z)",
        "DROP TABLE b",
        "TABLE x (id INT KEY)",
        "TABLE a (r TEXT REF y CASCADE, q INT REF x, id INT KEY)",
        "INSERT z (2), (1)",
        "INSERT y ('it''s', 2), ('', 1)",
        "INSERT x (7)",
        "INSERT a ('', 7, -9223372036854775808), ('it''s', 7, 9223372036854775807)",
    )
    assert check_dump(session, tmp_path).splitlines() == [
        "TABLE z (id INT KEY)",
        "TABLE y (id TEXT KEY, r INT REF z)",
        "TABLE x (id INT KEY)",
        "TABLE a (r TEXT REF y CASCADE, q INT REF x, id INT KEY)",
        "INSERT z (1), (2)",
        "INSERT y ('', 1), ('it''s', 2)",
        "INSERT x (7)",
        "INSERT a ('', 7, -9223372036854775808), ('it''s', 7, 9223372036854775807)",
    ]


def test_dump_of_standing_queries_and_indexes(tmp_path: "os.PathLike[str]") -> None:
    session = session_of(
        "TABLE t (id INT KEY, k INT)",
        "INDEX second ON t (k) TREE",
        "INDEX first ON t (k) HASH",
        "WATCH w SELECT a.id FROM t a WHERE a.k > 5",
        "WATCH v SELECT DISTINCT a.k FROM t a, t b WHERE a.id = b.k ORDER 1",
        "INSERT t (1, 1), (2, 7)",
        "UNWATCH w",
        "WATCH w SELECT a.k FROM t a",
        "DROP INDEX first",
        "INDEX first ON t (id) TREE",
    )
    assert check_dump(session, tmp_path).splitlines()[-4:] == [
        "INDEX second ON t (k) TREE",
        "INDEX first ON t (id) TREE",
        "WATCH v SELECT DISTINCT a.k FROM t a,t b WHERE a.id=b.k ORDER 1",
        "WATCH w SELECT a.k FROM t a",
    ]


def test_dump_of_odd_texts(tmp_path: "os.PathLike[str]") -> None:
    session = session_of("TABLE t (s TEXT KEY)", "TABLE empty (id INT KEY)")
    texts = [bytes([byte]) for byte in range(256) if byte != 10]
    texts += [b"", b"''", b"it's", b"-- no comment", b"a\r", "日本".encode(), b"'" * 64, b"x" * 64, b"(1), (2)"]
    for text in texts:
        session.demand(b"INSERT t ('" + text.replace(b"'", b"''") + b"')")
    check_dump(session, tmp_path)


def test_dump_of_the_longest_rows(tmp_path: "os.PathLike[str]") -> None:
    columns = [f"{'c' * 29}{number:02} TEXT" for number in range(15)]
    name = "t" * 32
    session = session_of(f"TABLE {name} (id TEXT KEY, {', '.join(columns)})", f"INDEX i ON {name} (id) HASH")
    for key in range(20):
        row = literal_row([f"{key:064}", *["'" * 64] * 15])
        session.demand(f"INSERT {name} {row}".encode())
    lines = check_dump(session, tmp_path).splitlines()
    assert len(lines) > 10 and all(line.startswith("INSERT ") for line in lines[1:-1])


def test_dump_of_a_long_table(tmp_path: "os.PathLike[str]") -> None:
    session = session_of("TABLE t (id INT KEY, k INT)")
    session.database.run_many(b"INSERT t (?, ?)", [(number, -number) for number in range(5000)])
    lines = check_dump(session, tmp_path).splitlines()
    assert len(lines) > 10 and all(4000 < len(line) <= 4096 for line in lines[1:-1])


def test_dump_in_a_transaction(tmp_path: "os.PathLike[str]") -> None:
    session = session_of("TABLE t (id INT KEY)", "INSERT t (1)", "BEGIN", "INSERT t (2)")
    assert check_dump(session, tmp_path).endswith("INSERT t (1), (2)\n")
    assert session.database.in_transaction()


def test_a_dump_that_cannot_be_made_leaves_the_file(tmp_path: "os.PathLike[str]", monkeypatch: pytest.MonkeyPatch) -> None:
    def pieces(_: Database) -> Iterator[bytes]:
        yield b"TABLE t (id INT KEY)\n"
        raise Refused(MEMORY)

    path = os.path.join(tmp_path, "kept.mmdb")
    with open(path, "w") as file:
        file.write("-- kept\n")
    monkeypatch.setattr(Database, "dump", pieces)
    with pytest.raises(Refused):
        dump(session_of("TABLE t (id INT KEY)"), path)
    assert read(path) == b"-- kept\n"
    assert os.listdir(tmp_path) == ["kept.mmdb"]


def test_dump_of_a_standing_query_of_another_session(tmp_path: "os.PathLike[str]") -> None:
    session = session_of("TABLE t (id INT KEY)")
    session.database.execute(b"WATCH hidden SELECT a.id FROM t a WHERE a.id > -1")
    assert check_dump(session, tmp_path).splitlines()[-1] == "WATCH hidden SELECT a.id FROM t a WHERE a.id>-1"


def test_files_are_written_anew(tmp_path: "os.PathLike[str]") -> None:
    path, link = os.path.join(tmp_path, "file"), os.path.join(tmp_path, "link")
    with open(path, "w") as old:
        old.write("old")
    os.chmod(path, 0o640)
    os.symlink(path, link)
    with written(link) as file:
        file.write(b"new")
        assert os.stat(file.name).st_mode & 0o777 == 0o640
    assert read(path) == b"new" and os.path.islink(link)
    assert os.stat(path).st_mode & 0o777 == 0o640
    with written("/dev/null") as file:
        file.write(b"new")


def test_a_device_that_fails_leaves_the_file(tmp_path: "os.PathLike[str]", monkeypatch: pytest.MonkeyPatch) -> None:
    def fail(_: int) -> None:
        raise OSError(errno.EIO, "Input/output error")

    path = os.path.join(tmp_path, "kept")
    with open(path, "w") as old:
        old.write("old")
    monkeypatch.setattr(os, "fsync", fail)
    with pytest.raises(OSError) as raised, written(path) as file:
        file.write(b"new")
    assert raised.value.filename == path and read(path) == b"old" and os.listdir(tmp_path) == ["kept"]


class Files:
    """A session with a table, and a CSV file."""

    def __init__(self, folder: "os.PathLike[str]", *lines: str) -> None:
        self.session = session_of(*lines)
        self.path = os.path.join(folder, "rows.csv")

    def imports(self, table: str, content: bytes, has_header: bool = False) -> int:
        with open(self.path, "wb") as file:
            file.write(content)
        return import_csv(self.session, table, self.path, has_header, QUIET)

    def refuses(self, content: bytes, words: str, has_header: bool = False) -> None:
        """Sees that the file is refused by these words, and that the table is as it was."""
        before, is_inside = contents(self.session), self.session.database.in_transaction()
        with pytest.raises(Failure) as failure:
            self.imports("t", content, has_header)
        assert str(failure.value) == f"{self.path}:{words}"
        assert contents(self.session) == before
        assert self.session.database.in_transaction() == is_inside


@pytest.fixture
def files(tmp_path: "os.PathLike[str]") -> Files:
    tables = "TABLE u (id INT KEY)", "TABLE t (id INT KEY, s TEXT, r INT REF u)"
    return Files(tmp_path, *tables, "INSERT u (7)", "INSERT t (1, 'one', 7)")


def test_import(files: Files) -> None:
    assert files.imports("t", b'2,two,7\r\n\r\n3,"a, ""b""",7\n +4 ,,7\n-5, blank ,007') == 4
    assert reply(files.session, "SCAN t").decode().splitlines() == [
        "(-5, ' blank ', 7)",
        "(1, 'one', 7)",
        "(2, 'two', 7)",
        "(3, 'a, \"b\"', 7)",
        "(4, '', 7)",
        "rows 5",
    ]


def test_import_with_a_header(files: Files) -> None:
    assert files.imports("t", b"\xef\xbb\xbfr, id ,s\n7,2,two\n", has_header=True) == 1
    assert b"(2, 'two', 7)" in reply(files.session, "SCAN t")
    files.refuses(b"r,id\n7,2\n", "1: the header names r, id, but the columns are id, s, r", has_header=True)
    files.refuses(b"\nr,id,s,s\n", "2: the header names r, id, s, s, but the columns are id, s, r", has_header=True)
    files.refuses(b"", "1: the header names nothing, but the columns are id, s, r", has_header=True)


@pytest.mark.parametrize(
    "content, words",
    [
        (b"2,two,7\n1,again,7\n", "2: error 40 duplicate key: (1, 'again', 7)"),
        (b"2,two,7\n3,it's,8\n", "2: error 41 no target row: (3, 'it''s', 8)"),
        (b"2,two,7\n3,three\n", "2: 2 fields, but 3 columns in the table"),
        (b"2,two,7,\n", "1: 4 fields, but 3 columns in the table"),
        (b"x,two,7\n", "1: 'x' is not a number"),
        (b"1_0,two,7\n", "1: '1_0' is not a number"),
        (b",two,7\n", "1: '' is not a number"),
        (b"+-2,two,7\n", "1: '+-2' is not a number"),
        ("²,two,7\n".encode(), "1: '²' is not a number"),
        (b"1.5,two,7\n", "1: '1.5' is not a number"),
        (b"9223372036854775808,two,7\n", "1: 9223372036854775808 does not fit 64 bits"),
        (b"-9223372036854775809,two,7\n", "1: -9223372036854775809 does not fit 64 bits"),
        (b"1" * 5000 + b",two,7\n", "1: " + "1" * 5000 + " does not fit 64 bits"),
        (b"2," + b"x" * 65 + b",7\n", f"1: the text '{'x' * 65}' has 65 bytes; the limit is 64"),
        (b"2,two,7\n\n\n3," + "é".encode() * 33 + b",7\n", f"4: the text '{'é' * 33}' has 66 bytes; the limit is 64"),
        (b'2,"a\nb",7\n', "1: the text 'a\\nb' contains a line feed"),
        (b'2,two,7\n3,"a\nb\nc"\n', "2: 2 fields, but 3 columns in the table"),
        (b"1,again,7\n2\n", "1: error 40 duplicate key: (1, 'again', 7)"),
    ],
)
def test_import_names_the_line_that_is_refused(files: Files, content: bytes, words: str) -> None:
    files.refuses(content, words)
    files.session.demand(b"BEGIN")
    files.refuses(content, words)


@pytest.mark.parametrize("content", [b'2,two,7\n3,"abc\n\n', b'2,two,7\n3,"two"2,7\n'])
def test_import_of_broken_quotes(files: Files, content: bytes) -> None:
    with pytest.raises(Failure, match=f"^{files.path}:2: "):
        files.imports("t", content)
    assert reply(files.session, "SCAN t").endswith(b"rows 1\n")


def test_import_of_the_least_and_the_greatest_number(files: Files) -> None:
    assert files.imports("t", b"9223372036854775807,,7\n-9223372036854775808,,7\n" + b"0" * 5000 + b",,7\n") == 3
    assert reply(files.session, "SCAN t").startswith(b"(-9223372036854775808, '', 7)\n(0, '', 7)\n")


def test_long_imports(files: Files) -> None:
    rows = b"".join(b"%d,x,7\n" % number for number in range(10, 4010))
    files.refuses(rows + b"10,x,7\n", "4001: error 40 duplicate key: (10, 'x', 7)")
    files.refuses(rows + b"10,x\n", "4001: 2 fields, but 3 columns in the table")
    assert files.imports("t", rows) == 4000
    assert files.session.catalog().tables["t"].rows == 4001


def test_import_in_a_transaction(files: Files) -> None:
    for line in (b"BEGIN", b"INSERT t (2, 'two', 7)"):
        files.session.demand(line)
    assert files.imports("t", b"3,three,7\n") == 1
    files.refuses(b"4,four,7\n3,again,7\n", "2: error 40 duplicate key: (3, 'again', 7)")
    assert reply(files.session, "SCAN t").count(b"\n") == 4
    files.session.demand(b"ROLLBACK")
    assert reply(files.session, "SCAN t").count(b"\n") == 2


@pytest.mark.parametrize("is_inside", [False, True], ids=["alone", "in a transaction"])
def test_an_import_that_is_interrupted(files: Files, monkeypatch: pytest.MonkeyPatch, is_inside: bool) -> None:
    def interrupt(*_: object) -> None:
        raise KeyboardInterrupt

    monkeypatch.setattr(Progress, "tell", interrupt)
    with open(files.path, "wb") as file:
        file.write(b"2,two,7\n")
    if is_inside:
        files.session.demand(b"BEGIN")
    before = contents(files.session)
    out = io.StringIO()
    Shell(files.session.database, out).answer(f".import t {files.path}")
    assert out.getvalue() == "interrupted\n"
    assert contents(files.session) == before
    assert files.session.database.in_transaction() == is_inside


def test_import_into_no_table(files: Files) -> None:
    for table, status in (("nope", 20), ("INDEX", 11), ("t (", 11)):
        with pytest.raises(Refused) as refused:
            files.imports(table, b"1\n")
        assert refused.value.status == status
        assert not files.session.database.in_transaction()


def test_progress(files: Files, monkeypatch: pytest.MonkeyPatch) -> None:
    monkeypatch.setattr(shell_files, "SECONDS_BETWEEN_REPORTS", 0)
    monkeypatch.setattr(shell_files, "ROWS_AT_ONCE", 1000)
    with open(files.path, "wb") as file:
        file.writelines(b"%d,x,7\n" % number for number in range(10, 20010))
    out = io.StringIO()
    assert import_csv(files.session, "t", files.path, False, Progress(out)) == 20000
    told = [words.strip() for words in out.getvalue().split("\r") if words.strip()]
    assert told[0].startswith("1,000 rows, ") and told[-1] == "20,000 rows, 100% of the file"
    assert out.getvalue().endswith("\r" + " " * len(told[-1]) + "\r")


def random_text(chance: random.Random) -> str:
    letters = "a ,;\"'\t\r\0\\日é\ufeff\udcff-1"
    text = "".join(chance.choice(letters) for _ in range(chance.randrange(12)))
    return decoded(text.encode("utf-8", "surrogateescape"))


@pytest.mark.parametrize("has_header", [False, True])
def test_what_is_exported_can_be_imported(has_header: bool, tmp_path: "os.PathLike[str]") -> None:
    chance = random.Random(7)
    table = "TABLE t (s TEXT, n INT, id TEXT KEY)"
    files = Files(tmp_path, table)
    rows: list[Row] = []
    for key in range(999):
        rows.append((random_text(chance), chance.randrange(-(2**63), 2**63), f"{key}{random_text(chance)}"))
    assert files.session.database.run_many(b"INSERT t (?, ?, ?)", rows)[0] == len(rows)
    assert export_csv(files.session, b"SCAN t", files.path, has_header) == len(rows)
    again = session_of(table)
    assert import_csv(again, "t", files.path, has_header, QUIET) == len(rows)
    assert reply(again, "SCAN t") == reply(files.session, "SCAN t")


@pytest.mark.parametrize("text", ["", "\ufeff", "\ufeffx", "\r", "\0", "\udcff", '"', "'", ","])
def test_a_file_of_one_text(text: str, tmp_path: "os.PathLike[str]") -> None:
    files = Files(tmp_path, "TABLE t (s TEXT KEY)")
    assert files.session.database.run_many(b"INSERT t (?)", [(text,)]) == (1, DONE)
    assert export_csv(files.session, b"SCAN t", files.path, False) == 1
    again = session_of("TABLE t (s TEXT KEY)")
    assert import_csv(again, "t", files.path, False, QUIET) == 1
    assert reply(again, "SCAN t") == reply(files.session, "SCAN t")


def test_commands_of_files(tmp_path: "os.PathLike[str]") -> None:
    out = io.StringIO()
    shell = Shell(Database(), out)
    path, script = os.path.join(tmp_path, "a file.csv"), os.path.join(tmp_path, "dump.mmdb")
    lines = {
        "TABLE t (id INT KEY, s TEXT)": "ok",
        "INSERT t (1, 'a b'), (2, 'c')": "ok 2",
        "WATCH w SELECT a.s FROM t a": "ok",
        f'.export t "{path}" --header': "rows 2",
        f'.import t "{path}"': f"{path}:1: 'id' is not a number",
        f'.import t "{path}" --header': f"{path}:2: error 40 duplicate key: (1, 'a b')",
        "DELETE t": "ok 2",
        f"  .import  t '{path}'  --header ": "ok 2",
        f".dump {script}": "1 table, 2 rows, 0 indexes, 1 standing query",
        f".export SELECT a.id FROM t a WHERE a.s = 'a b' \"{path}\"": "rows 1",
        f".export SELECT a.id FROM t a WHERE a.s = 'a b'": "usage: .export QUERY-or-TABLE FILE.csv [--header]",
        f".export nope {tmp_path}/x.csv": "no table or standing query nope",
        f".export SCAN nope {tmp_path}/x.csv": "error 20 no such table",
        f".export w {tmp_path}/nope/x.csv": f"{tmp_path}/nope/x.csv: No such file or directory",
        f".import t {tmp_path}/x.csv": f"{tmp_path}/x.csv: No such file or directory",
        f".import nope '{path}'": "error 20 no such table",
    }
    for line, wanted in lines.items():
        begin = out.tell()
        shell.answer(line)
        assert out.getvalue()[begin:] == wanted + "\n", line
    assert read(path) == b"1\r\n"
    assert sorted(os.listdir(tmp_path)) == ["a file.csv", "dump.mmdb"]
    replies = io.BytesIO()
    with open(script, "rb") as file:
        run_script(Database(), file, replies)
    assert replies.getvalue() == b"ok\nok 2\nok\n"
