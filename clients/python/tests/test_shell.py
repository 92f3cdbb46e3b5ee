"""The shell, command by command, without a terminal."""

import io
import os
import re

import pytest

from mmdb._library import Database
from mmdb.shell_commands import DOT_COMMANDS, Shell
from mmdb.shell_catalog import Failure, catalog_of
from mmdb.shell_tables import aligned, marked
from mmdb.shell_terminal import completions, history_path

LIBRARY = (
    "TABLE author (id INT KEY, name TEXT)",
    "TABLE paper (id INT KEY, by INT REF author, year INT)",
    "INSERT author (1, 'Carey'), (2, 'Lehman')",
    "INSERT paper (10, 2, 1986), (11, 1, -1)",
    "INDEX by_year ON paper (year) TREE",
    "WATCH recent SELECT a.name, p.year FROM author a, paper p WHERE p.by = a.id AND p.year > 1980",
)


class Typist:
    """Types lines into a shell and reads what it writes."""

    def __init__(self, *lines: str) -> None:
        self.out = io.StringIO()
        self.shell = Shell(Database(), self.out)
        self.types(*lines)

    def types(self, *lines: str) -> str:
        """What the shell writes when these lines are typed."""
        begin = self.out.tell()
        for line in lines:
            self.shell.answer(line)
        return self.out.getvalue()[begin:]


@pytest.fixture(autouse=True)
def wide_terminal(monkeypatch: pytest.MonkeyPatch) -> None:
    monkeypatch.setenv("COLUMNS", "120")


@pytest.fixture
def typist() -> Typist:
    return Typist(*LIBRARY)


def test_the_example_of_the_document() -> None:
    with open(os.path.join(os.path.dirname(os.path.dirname(os.path.abspath(__file__))), "SHELL.md")) as file:
        example = file.read().split("```")[1]
    told, typist = "", Typist()
    for line in re.findall(r"^mmdb> (.*)", example, re.M):
        told += f"mmdb> {line}\n{typist.types(line)}"
    assert told == example[example.index("mmdb> ") :]


def test_replies_without_rows(typist: Typist) -> None:
    assert typist.types("INSERT author (3, 'Ann')") == "ok 1\n"
    assert typist.types("BEGIN", "ROLLBACK") == "ok\nok\n"
    assert typist.types("", "   ", "-- a comment") == ""
    assert typist.types("EXPLAIN SELECT a.id FROM author a") == "a scan\nsteps 1\n"
    assert typist.types("TABLES").endswith("WATCH recent rows 1\ntables 2\n")


def test_rows_in_a_table(typist: Typist) -> None:
    assert typist.types("SCAN paper").splitlines() == [
        " id | by | year",
        "----+----+------",
        " 10 |  2 | 1986",
        " 11 |  1 |   -1",
        "2 rows",
    ]
    assert typist.types("SHOW recent").splitlines() == [" name   | year", "--------+------", " Lehman | 1986", "1 row"]
    assert typist.types("SCAN INDEX by_year").splitlines()[2] == " 11 |  1 |   -1"


def test_columns_of_a_join(typist: Typist) -> None:
    query = "SELECT b.id, a.id, a.name FROM author a, paper b WHERE b.by = a.id AND b.year < 0"
    assert typist.types(query).splitlines() == [" id | id | name", "----+----+-------", " 11 |  1 | Carey", "1 row"]


def test_empty_tables_show_their_columns(typist: Typist) -> None:
    typist.types("TABLE empty (id INT KEY, words TEXT)")
    assert typist.types("SCAN empty").splitlines() == [" id | words", "----+-------", "0 rows"]


def test_texts_in_a_table(typist: Typist) -> None:
    typist.types("DELETE paper", "DELETE author", "INSERT author (1, 'it''s'), (2, '日本'), (3, 'e\u0301x')")
    typist.types("INSERT author (4, 'a\tb\x1b[1m')")
    typist.shell.session.execute(b"INSERT author (5, '\xff')")
    assert typist.types("SCAN author").splitlines()[1:] == [
        "----+-------------",
        "  1 | it's",
        "  2 | 日本",
        "  3 | e\u0301x",
        "  4 | a\\tb\\x1b[1m",
        "  5 | \\xff",
        "5 rows",
    ]


def test_wide_characters_take_two_columns() -> None:
    lines = list(aligned(["a", "b"], [str, int], [("日本", 1), ("e\u0301", 20)]))
    assert lines == [" a    |  b", "------+----", " 日本 |  1", " e\u0301    | 20"]


def test_a_refusal_has_its_line_and_a_mark(typist: Typist) -> None:
    line, mark, reply = typist.types("SCAN nope").splitlines()
    assert (line, reply) == ("SCAN nope", "error 20 no such table")
    assert mark == "     ^"
    line, mark, reply = typist.types("INSERT author (3, 'Ann'").splitlines()
    assert (line, reply) == ("INSERT author (3, 'Ann'", "error 11 syntax")
    assert mark == " " * len(line) + "^"


def test_a_refusal_for_nothing_in_the_line_has_no_mark(typist: Typist) -> None:
    assert typist.types("COMMIT") == "error 51 no transaction\n"


@pytest.mark.parametrize(
    "line, columns, shown",
    [
        ("SCAN nope", 80, ("SCAN nope", 5)),
        ("a\tb é x", 80, ("a b é x", 6)),
        ("日本 x", 80, ("日本 x", 5)),
        ("a" * 50 + "x" + "b" * 50, 40, (".." + "a" * 24 + "x" + "b" * 10 + "..", 26)),
        ("a" * 100 + "x", 40, (".." + "a" * 24 + "x", 26)),
        ("x" + "b" * 100, 40, ("x" + "b" * 36 + "..", 0)),
        ("日" * 20 + "x", 30, (".." + "日" * 8 + "x", 18)),
        ("a" * 50 + "x", 1, (".." + "a" * 10 + "x", 12)),
    ],
)
def test_marks(line: str, columns: int, shown: tuple[str, int]) -> None:
    place = len(line[: line.index("x")].encode()) if "x" in line else len(b"SCAN ")
    assert marked(line.encode(), place, columns) == (shown[0], " " * shown[1] + "^")


def test_long_lines_fit_the_terminal(typist: Typist) -> None:
    many_rows = ", ".join(f"({number}, 'x')" for number in range(300))
    for line in ("SCAN author " + "x" * 3000, f"INSERT author {many_rows}, (1", f"INSERT author (1 x), {many_rows}"):
        shown, mark, reply = typist.types(line).splitlines()
        assert reply == "error 11 syntax" and len(shown) < 120 and len(mark) < 120
    assert typist.types("x" * 5000) == "error 10 line too long\n"


def test_modes(typist: Typist) -> None:
    assert typist.types(".mode lines", "SHOW recent") == "('Lehman', 1986)\nrows 1\n"
    assert typist.types(".mode csv", "SHOW recent") == "name,year\nLehman,1986\n"
    assert typist.types("INSERT author (3, 'a, \"b\"')", "SCAN author").splitlines()[-1] == '3,"a, ""b"""'
    assert typist.types(".mode table", "SHOW recent").splitlines()[-1] == "1 row"
    assert typist.types(".mode wide") == "usage: .mode csv|lines|table\n"


def test_timer(typist: Typist) -> None:
    assert typist.types(".timer on") == ""
    assert re.fullmatch(r"ok\n\d+\.\d{3} ms\n", typist.types("BEGIN"))
    assert typist.types("-- nothing", ".mode lines") == ""
    assert typist.types(".timer off", "COMMIT") == "ok\n"
    assert typist.types(".timer") == "usage: .timer on|off\n"


def test_tables(typist: Typist) -> None:
    query = "SELECT a.name,p.year FROM author a,paper p WHERE p.by=a.id AND p.year>1980"
    lines = [line.rstrip() for line in typist.types(".tables").splitlines()]
    assert [re.split(r" *\| *", line.strip()) for line in lines if "|" in line] == [
        ["kind", "name", "rows", "definition"],
        ["table", "author", "2", "id INT KEY, name TEXT"],
        ["table", "paper", "2", "id INT KEY, by INT REF author, year INT"],
        ["index", "by_year", "", "ON paper (year) TREE"],
        ["standing query", "recent", "1", query],
    ]
    assert lines[-1] == "2 tables"


def test_plan(typist: Typist) -> None:
    assert typist.types(".plan SELECT a.id FROM author a WHERE a.id = 1").splitlines() == [
        " step | alias | rows are reached by",
        "------+-------+---------------------",
        "    1 | a     | tree #key =",
        "1 step",
    ]
    assert typist.types(".plan recent").splitlines()[2:] == [
        "    1 | a     | scan",
        "    2 | p     | built hash by",
        "2 steps",
    ]
    assert typist.types(".plan nope") == "no standing query nope\n"
    assert typist.types(".plan SELECT a.id FROM nope a").splitlines()[-1] == "error 20 no such table"
    assert typist.types(".plan") == "usage: .plan QUERY\n"


def test_help_tells_of_each_command(typist: Typist) -> None:
    told = typist.types(".help")
    assert all(f"\n{name}" in "\n" + told and command.help in told for name, command in DOT_COMMANDS.items())
    assert all(len(line) < 80 or line.startswith(".") for line in told.splitlines())


def test_each_usage(typist: Typist) -> None:
    for name, command in DOT_COMMANDS.items():
        words = "" if name in (".export", ".plan") else "a b c d --e"
        assert typist.types(f"{name} {words}") == f"usage: {name} {command.usage}".rstrip() + "\n"
    assert typist.types(".import t 'half") == "usage: .import TABLE FILE.csv [--header]\n"
    assert typist.types(".nope x") == "unknown command .nope; .help lists all commands\n"
    assert not typist.shell.is_over


def test_quit(typist: Typist) -> None:
    assert typist.types(".quit") == ""
    assert typist.shell.is_over


def test_read(typist: Typist, tmp_path: "os.PathLike[str]") -> None:
    path = os.path.join(tmp_path, "a script.mmdb")
    with open(path, "wb") as file:
        file.write(b"-- comment\r\nINSERT author (3, 'Ann')\r\nSCAN nope\n.tables\n\nSHOW recent\n")
        file.write(b"COMMIT\n" + b"x" * 5000 + b"\nBEGIN\nDELETE paper")
    told = typist.types(f".read '{path}'").splitlines()
    assert told == [
        *("SCAN nope", "     ^", f"{path}:3: error 20 no such table"),
        *(".tables", "^", f"{path}:4: error 11 syntax"),
        *(" name   | year", "--------+------", " Lehman | 1986", "1 row"),
        *("COMMIT", f"{path}:7: error 51 no transaction"),
        *("x" * 117 + "..", f"{path}:8: error 10 line too long"),
        "10 lines, 4 refused",
    ]
    assert typist.shell.session.database.in_transaction()
    assert typist.types("SCAN paper").endswith("\n0 rows\n")


def test_read_of_no_file(typist: Typist, tmp_path: "os.PathLike[str]") -> None:
    assert typist.types(f".read {tmp_path}/nope") == f"{tmp_path}/nope: No such file or directory\n"
    assert typist.types(f".read {tmp_path}") == f"{tmp_path}: Is a directory\n"


def test_queries_of_standing_queries(typist: Typist) -> None:
    session = typist.shell.session
    typist.types(" \tWATCH\tw  SELECT  a.id FROM author a WHERE a.name='é' \t")
    assert session.query("w") == "SELECT a.id FROM author a WHERE a.name='é'".encode()
    session.database.execute(b"WATCH hidden SELECT a.id FROM author a")
    assert typist.types(".plan hidden").splitlines()[-1] == "1 step"
    assert "SELECT a.id FROM author a" in typist.types(".tables")
    for name in ("nope", "author", "a b", "W", ""):
        with pytest.raises(Failure, match="no standing query"):
            session.query(name)


def test_a_catalog_is_read_from_its_listing() -> None:
    catalog = catalog_of(
        "TABLE rows (rows INT KEY, r TEXT REF tables CASCADE) rows 12\nINDEX on_it ON rows (r) HASH\nWATCH rows rows 3\ntables 1\n"
    )
    assert catalog.tables == {"rows": ("rows", ["rows INT KEY", "r TEXT REF tables CASCADE"], 12)}
    assert catalog.tables["rows"].column_names() == ["rows", "r"]
    assert catalog.indexes == {"on_it": ("on_it", "rows", "(r) HASH")}
    assert catalog.standing == {"rows": ("rows", 3)}


@pytest.mark.parametrize(
    "line, found",
    [
        ("IN", ["INDEX ", "INSERT "]),
        (".t", [".tables ", ".timer "]),
        ("INSERT ", ["author", "paper"]),
        ("INSERT p", ["paper"]),
        ("DROP ", ["INDEX ", "TABLE "]),
        ("ROLLBACK ", ["TO "]),
        ("DROP TABLE a", ["author"]),
        ("DROP INDEX ", ["by_year"]),
        ("SCAN ", ["INDEX ", "author", "paper"]),
        ("SCAN INDEX b", ["by_year"]),
        ("SHOW ", ["recent"]),
        ("TABLE a", []),
        ("TABLE t (id INT KEY, r INT REF ", ["author", "paper"]),
        ("INDEX i ON paper (y", ["year"]),
        ("UPDATE author SET na", ["name"]),
        ("UPDATE author SET name = 'au", []),
        ("SELECT p.y", ["p.year"]),
        ("SELECT a.name FROM author a WHERE a.", ["a.id", "a.name"]),
        ("SELECT a.name FROM author a WH", ["WHERE "]),
        (".mode c", ["csv"]),
        (".timer o", ["off", "on"]),
        (".import a", ["author"]),
        (".export r", ["recent"]),
        (".export SELECT p.ye", ["p.year"]),
        (".plan re", ["recent"]),
        (".plan SELECT a.name FROM au", ["author"]),
        (".help x", []),
    ],
)
def test_completions(typist: Typist, line: str, found: list[str]) -> None:
    begin = max(line.rfind(blank) for blank in " \t(,='") + 1
    assert completions(typist.shell.session.catalog(), line, begin, line[begin:])[: max(len(found), 1)] == found


def test_a_field_is_completed_by_what_stands_behind_it(typist: Typist) -> None:
    assert completions(typist.shell.session.catalog(), "SELECT a. FROM author a", 7, "a.") == ["a.id", "a.name"]


def test_files_are_completed(typist: Typist, tmp_path: "os.PathLike[str]") -> None:
    os.mkdir(os.path.join(tmp_path, "folder"))
    with open(os.path.join(tmp_path, "file.csv"), "w"):
        pass
    word = os.path.join(tmp_path, "f")
    for before in (".read ", ".dump ", ".import author ", ".export author "):
        found = completions(typist.shell.session.catalog(), before + word, len(before), word)
        assert found == [f"{tmp_path}/file.csv", f"{tmp_path}/folder/"]


def test_where_the_history_is(monkeypatch: pytest.MonkeyPatch) -> None:
    monkeypatch.delenv("MMDB_HISTORY", raising=False)
    monkeypatch.setenv("HOME", "/home/ann")
    monkeypatch.delenv("XDG_STATE_HOME", raising=False)
    assert history_path() == "/home/ann/.local/state/mmdb/history"
    monkeypatch.setenv("XDG_STATE_HOME", "/state")
    assert history_path() == "/state/mmdb/history"
    monkeypatch.setenv("MMDB_HISTORY", "/tmp/h")
    assert history_path() == "/tmp/h"
    monkeypatch.setenv("MMDB_HISTORY", "")
    assert history_path() == ""
