"""The shell at a terminal: the prompt, the history, and completion by Tab."""

from __future__ import annotations

import contextlib
import glob
import io
import os
import re
import sys
from types import ModuleType

from mmdb._library import Database, Refused
from mmdb.shell_catalog import Catalog, Session
from mmdb.shell_commands import DOT_COMMANDS, HEADER, MODES, Shell

PROMPT, PROMPT_IN_TRANSACTION = "mmdb> ", "mmdb*> "
MOST_HISTORY_LINES = 10000
DELIMITERS = " \t\n(),=<>+-'\""
FIRST_KEYWORDS = """
BEGIN COMMIT DELETE DROP EXPLAIN INDEX INSERT ROLLBACK SAVEPOINT SCAN SELECT SHOW TABLE TABLES UNWATCH UPDATE WATCH
""".split()
LATER_KEYWORDS = "AND CASCADE DISTINCT FROM HASH INDEX INT KEY ON ORDER REF SELECT SET TABLE TEXT TO TREE WHERE".split()
KEYWORDS_BEHIND = {"DROP": ["INDEX", "TABLE"], "EXPLAIN": ["SELECT"], "ROLLBACK": ["TO"]}
BEFORE_A_TABLE = ("DELETE", "DROP TABLE", "FROM", "INSERT", "ON", "REF", "SCAN", "UPDATE")
BEFORE_AN_INDEX = ("DROP INDEX", "SCAN INDEX")
BEFORE_A_STANDING_QUERY = ("SHOW", "UNWATCH")
BEFORE_A_NEW_NAME = ("INDEX", "SAVEPOINT", "TABLE", "WATCH")


def starting(word: str, found: list[str]) -> list[str]:
    """Returns the words that begin with a word, sorted, each once."""
    return sorted({one for one in found if one.startswith(word)})


def files_starting(word: str) -> list[str]:
    """Returns the paths that begin with a word; a folder ends in a slash."""
    return sorted(path + "/" * os.path.isdir(path) for path in glob.glob(glob.escape(os.path.expanduser(word)) + "*"))


def keywords_starting(word: str, keywords: list[str]) -> list[str]:
    """Returns the keywords that begin with a word, each with a blank after it."""
    return [keyword + " " for keyword in starting(word, keywords)]


def completions(catalog: Catalog, line: str, begin: int, word: str) -> list[str]:
    """Returns the completions of a word that begins at a place of a line."""
    before = line[:begin]
    if not before.strip():
        return keywords_starting(word, list(DOT_COMMANDS) if word.startswith(".") else FIRST_KEYWORDS)
    if before.lstrip().startswith("."):
        return completions_of_dot_command(catalog, line, begin, word)
    if before.count("'") % 2 == 1:
        return []
    if "." in word:
        return completions_of_field(catalog, line, word)
    return completions_in_command(catalog, before, word)


def completions_of_dot_command(catalog: Catalog, line: str, begin: int, word: str) -> list[str]:
    """Returns the possible arguments of a dot command."""
    command, *given = line[:begin].split()
    tables, standing = list(catalog.tables), list(catalog.standing)
    if command in (".mode", ".timer"):
        return starting(word, ["off", "on"] if command == ".timer" else [*MODES])
    if command in (".dump", ".read"):
        return files_starting(word)
    if command == ".import":
        return starting(word, tables) if not given else files_starting(word) + starting(word, [HEADER])
    if command == ".export" and not given:
        return keywords_starting(word, ["SCAN", "SELECT", "SHOW"]) + starting(word, tables + standing)
    if command == ".plan" and not given:
        return keywords_starting(word, ["SELECT"]) + starting(word, standing)
    if command in (".export", ".plan"):
        query = line.replace(command, " " * len(command), 1)
        files = files_starting(word) + starting(word, [HEADER]) if command == ".export" else []
        return completions(catalog, query, begin, word) + files
    return []


def completions_of_field(catalog: Catalog, line: str, word: str) -> list[str]:
    """Completes an alias, a dot and the beginning of a column. FROM, which gives the table, may follow later."""
    alias, _, column = word.partition(".")
    names = re.findall(rf"\b(\w+) +{re.escape(alias)}\b", line)
    tables = [catalog.tables[name] for name in names if name in catalog.tables] or list(catalog.tables.values())
    columns = [name for table in tables for name in table.column_names()]
    return [f"{alias}.{name}" for name in starting(column, columns)]


def completions_in_command(catalog: Catalog, before: str, word: str) -> list[str]:
    """Returns what may follow the first words of a command."""
    words = before.split()
    last, last_two = words[-1], " ".join(words[-2:])
    tables = list(catalog.tables)
    if last_two in BEFORE_AN_INDEX:
        return starting(word, list(catalog.indexes))
    if last in BEFORE_A_TABLE or last_two in BEFORE_A_TABLE:
        return keywords_starting(word, ["INDEX"] * (last == "SCAN")) + starting(word, tables)
    if last in BEFORE_A_STANDING_QUERY:
        return starting(word, list(catalog.standing))
    if last in BEFORE_A_NEW_NAME:
        return []
    if last in KEYWORDS_BEHIND:
        return keywords_starting(word, KEYWORDS_BEHIND[last])
    named = [catalog.tables[name] for name in re.findall(r"\w+", before) if name in catalog.tables]
    columns = [name for table in named or catalog.tables.values() for name in table.column_names()]
    return keywords_starting(word, LATER_KEYWORDS) + starting(word, columns + tables)


class Completer:
    """Completes words for readline, which requests one completion after another."""

    def __init__(self, readline: ModuleType, session: Session) -> None:
        self._readline = readline
        self._session = session
        self._found: list[str] = []

    def __call__(self, word: str, state: int) -> str | None:
        if state == 0:
            line, begin = self._readline.get_line_buffer(), self._readline.get_begidx()
            self._found = completions(self._catalog(), line, begin, word)
        return self._found[state] if state < len(self._found) else None

    def _catalog(self) -> Catalog:
        try:
            return self._session.catalog()
        except Refused:
            return Catalog({}, {}, {})


def history_path() -> str:
    """Returns the history file: MMDB_HISTORY, or mmdb/history in the state folder. Empty for no history."""
    named = os.environ.get("MMDB_HISTORY")
    if named is not None:
        return os.path.expanduser(named)
    state = os.environ.get("XDG_STATE_HOME") or os.path.expanduser("~/.local/state")
    return os.path.join(state, "mmdb", "history")


class History:
    """The lines typed in this run and in earlier ones."""

    def __init__(self, readline: ModuleType, path: str) -> None:
        self._readline = readline
        self._path = path
        self._new = 0
        readline.set_auto_history(False)
        with contextlib.suppress(OSError):
            if path:
                readline.read_history_file(path)

    def add(self, line: str) -> None:
        """Adds a line, unless it is empty or equal to the last one."""
        last = self._readline.get_history_item(self._readline.get_current_history_length())
        if line.strip() and line != last:
            self._readline.add_history(line)
            self._new += 1

    def save(self) -> None:
        """Appends the lines of this run to the file. They are lost if it cannot be written."""
        if not self._path or not self._new:
            return
        with contextlib.suppress(OSError):
            os.makedirs(os.path.dirname(self._path) or ".", mode=0o700, exist_ok=True)
            os.close(os.open(self._path, os.O_CREAT | os.O_APPEND | os.O_WRONLY, 0o600))
            self._readline.set_history_length(MOST_HISTORY_LINES)
            self._readline.append_history_file(self._new, self._path)


def readline_for(session: Session) -> ModuleType | None:
    """Returns the module readline, set up to complete words, or None if Python lacks it."""
    try:
        import readline
    except ImportError:
        return None
    readline.set_completer_delims(DELIMITERS)
    readline.set_completer(Completer(readline, session))
    is_libedit = "libedit" in (readline.__doc__ or "")
    readline.parse_and_bind("bind ^I rl_complete" if is_libedit else "tab: complete")
    return readline


def ask(shell: Shell, history: History | None) -> None:
    """Prompts for lines and executes them until the input or the shell ends. Pasted text may have several lines."""
    while not shell.is_over:
        is_open = shell.session.database.in_transaction()
        try:
            typed = input(PROMPT_IN_TRANSACTION if is_open else PROMPT)
        except EOFError:
            print()
            return
        except KeyboardInterrupt:
            print()
            continue
        for line in typed.split("\n"):
            line = line.removesuffix("\r")
            if history is not None:
                history.add(line)
            if not shell.is_over:
                shell.answer(line)


def run_at_terminal() -> None:
    """Runs the shell at a terminal, on a new database. Raises Refused if the database cannot be allocated."""
    database = Database()
    if isinstance(sys.stdout, io.TextIOWrapper):
        sys.stdout.reconfigure(errors="backslashreplace")
    shell = Shell(database, sys.stdout, shows_progress=True)
    readline = readline_for(shell.session)
    history = History(readline, history_path()) if readline else None
    print("The database is empty, and is lost when the shell ends. .help lists commands, .quit ends.")
    try:
        ask(shell, history)
    finally:
        if history is not None:
            history.save()
        database.close()
