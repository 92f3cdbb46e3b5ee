"""The shell at a real terminal: the prompt, completion by Tab, the history, and lines that are pasted."""

import os
import sys
from collections.abc import Iterator

import pytest

import mmdb._library

if os.environ.get("CI"):
    import pexpect
else:
    pexpect = pytest.importorskip("pexpect")

PACKAGE = os.path.dirname(os.path.dirname(os.path.abspath(mmdb._library.__file__)))
PROMPT, PROMPT_IN_TRANSACTION = "\r\nmmdb> ", "\r\nmmdb*> "
UP, TAB, CONTROL_C, CONTROL_D = "\x1b[A", "\t", "\x03", "\x04"


class Terminal:
    """A shell at a terminal of 80 columns."""

    def __init__(self, folder: "os.PathLike[str]") -> None:
        self.history = os.path.join(folder, "state", "history")
        path = os.pathsep.join([PACKAGE, *filter(None, [os.environ.get("PYTHONPATH")])])
        environment = dict(os.environ, PYTHONPATH=path, TERM="xterm", MMDB_HISTORY=self.history, INPUTRC="/dev/null")
        for name in ("COLUMNS", "LINES"):
            environment.pop(name, None)
        self.child = pexpect.spawn(
            sys.executable,
            ["-m", "mmdb"],
            env={**environment, "LC_ALL": "C.UTF-8"},
            encoding="utf-8",
            timeout=20,
            dimensions=(24, 80),
        )
        self.child.expect_exact(PROMPT)

    def types(self, line: str, prompt: str = PROMPT) -> list[str]:
        """What is shown behind a line that is typed, up to the next prompt."""
        self.child.send(line + "\r")
        self.child.expect_exact(prompt)
        return self.child.before.split("\r\n")[1:]

    def shows(self, keys: str, text: str) -> None:
        """Sees that keys bring a text to the terminal."""
        self.child.send(keys)
        self.child.expect_exact(text)

    def kept_lines(self) -> list[str]:
        """The lines of the history that the file has."""
        with open(self.history, encoding="utf-8") as file:
            return file.read().splitlines()

    def ends(self, keys: str) -> None:
        """Sees that keys end the shell."""
        self.child.send(keys)
        self.child.expect(pexpect.EOF)
        self.child.close()
        assert self.child.exitstatus == 0


@pytest.fixture
def terminal(tmp_path: "os.PathLike[str]") -> Iterator[Terminal]:
    terminal = Terminal(tmp_path)
    yield terminal
    terminal.child.close(force=True)


def test_prompts_and_tables(terminal: Terminal) -> None:
    assert terminal.types("TABLE author (id INT KEY, name TEXT)") == ["ok"]
    assert terminal.types("INSERT author (1, 'Carey'), (20, '日本')") == ["ok 2"]
    assert terminal.types("SCAN author") == [" id | name", "----+-------", "  1 | Carey", " 20 | 日本", "2 rows"]
    assert terminal.types("BEGIN", PROMPT_IN_TRANSACTION) == ["ok"]
    assert terminal.types("-- comment", PROMPT_IN_TRANSACTION) == []
    assert terminal.types("ROLLBACK") == ["ok"]
    terminal.ends(".quit\r")


def test_a_mark_under_the_place(terminal: Terminal) -> None:
    assert terminal.types("SCAN nope") == ["SCAN nope", "     ^", "error 20 no such table"]


def test_completion(terminal: Terminal) -> None:
    terminal.types("TABLE author (id INT KEY, name TEXT)")
    terminal.types("WATCH young SELECT a.name FROM author a")
    terminal.shows("INSE" + TAB, "INSERT ")
    terminal.shows("au" + TAB, "author")
    assert terminal.types(" (1, 'Carey')") == ["ok 1"]
    terminal.shows("SELECT a.na" + TAB, "a.name")
    assert terminal.types(" FROM author a") == [" name", "-------", " Carey", "1 row"]
    terminal.shows("SHOW " + TAB, "young")
    assert terminal.types("")[-1] == "1 row"
    terminal.shows(".ta" + TAB, ".tables ")
    assert terminal.types("")[-1] == "1 table"


def test_history(terminal: Terminal, tmp_path: "os.PathLike[str]") -> None:
    terminal.types("BEGIN", PROMPT_IN_TRANSACTION)
    terminal.types("", PROMPT_IN_TRANSACTION)
    terminal.types("ROLLBACK")
    terminal.shows(UP, "ROLLBACK")
    terminal.shows(UP, "BEGIN")
    assert terminal.types("", PROMPT_IN_TRANSACTION) == ["ok"]
    terminal.ends(CONTROL_D)
    assert terminal.kept_lines() == ["BEGIN", "ROLLBACK", "BEGIN"]
    assert os.stat(terminal.history).st_mode & 0o777 == 0o600
    again = Terminal(tmp_path)
    again.shows(UP, "BEGIN")
    again.types("", PROMPT_IN_TRANSACTION)
    again.types("COMMIT")
    again.ends(CONTROL_D)
    assert terminal.kept_lines() == ["BEGIN", "ROLLBACK", "BEGIN", "COMMIT"]


@pytest.mark.parametrize("begin, end", [("", ""), ("\x1b[200~", "\x1b[201~")], ids=["as typed", "bracketed"])
def test_pasted_lines(terminal: Terminal, begin: str, end: str) -> None:
    terminal.child.send(begin + "TABLE t (id INT KEY)\rBEGIN\rINSERT t (2)\rSCAN t" + end + "\r")
    terminal.child.expect_exact(" id")
    terminal.child.expect_exact("1 row" + PROMPT_IN_TRANSACTION)
    terminal.shows(UP, "SCAN t")
    terminal.shows(UP, "INSERT t (2)")
    assert terminal.types("", PROMPT_IN_TRANSACTION)[-1] == "error 40 duplicate key"


def test_control_c_drops_the_line(terminal: Terminal) -> None:
    terminal.child.send("SCAN no" + CONTROL_C)
    terminal.child.expect_exact(PROMPT)
    assert terminal.types("BEGIN", PROMPT_IN_TRANSACTION) == ["ok"]


def test_long_lines(terminal: Terminal) -> None:
    words = "-" * 4096
    terminal.child.send(words + "\r")
    terminal.child.expect_exact(PROMPT)
    assert "error" not in terminal.child.before
    terminal.child.send(words + "-\r")
    terminal.child.expect_exact("error 10 line too long" + PROMPT)
