"""The commands of the shell: those of the language, and dot commands, which are the shell's own."""

from __future__ import annotations

import os
import re
import shlex
import shutil
import time
from collections.abc import Iterable, Sequence
from typing import NamedTuple, TextIO

from mmdb._library import COUNT, DONE, LEAST_REFUSAL, NOTHING, ROWS, SYNTAX
from mmdb._library import Database, Refused, Row, decoded, encoded, words_of
from mmdb.shell_catalog import Catalog, Failure, Session
from mmdb.shell_files import Progress, dump, export_csv, import_csv
from mmdb.shell_script import lines_of
from mmdb.shell_tables import aligned, count_of, csv_lines, marked

MODES = ("csv", "lines", "table")
HEADER = "--header"
QUERY_AND_FILE = re.compile(r"(.*?)[ \t]+(\"[^\"]*\"|[^ \t\"']+)")
QUERY = re.compile(r"(SELECT|SCAN|SHOW)\b.*")
STEP = re.compile(r"(\w+) (.*)")
LANGUAGE = """
Commands of the language, each on a line of its own:

TABLE t (id INT KEY, r INT REF u CASCADE, s TEXT)   DROP TABLE t
INSERT t (1, 5, 'it''s'), (2, 5, 'x')               DELETE t WHERE r = 5
UPDATE t SET s = 'y' WHERE id >= 2                  SCAN t
SELECT a.id, b.v FROM t a, u b WHERE a.r = b.id ORDER 2
WATCH w SELECT a.id FROM t a                        SHOW w   UNWATCH w
INDEX i ON t (r) TREE, or HASH                      SCAN INDEX i   DROP INDEX i
BEGIN   COMMIT   ROLLBACK                           SAVEPOINT s   ROLLBACK TO s
TABLES                                              EXPLAIN SELECT .."""


class DotCommand(NamedTuple):
    """A command of the shell itself: its arguments, its effect, and whether the timer measures it."""

    usage: str
    help: str
    is_timed: bool = False


# The command .dump is the method do_dump of the shell, and so on.
DOT_COMMANDS = {
    ".dump": DotCommand("FILE", "write a script that rebuilds the database", True),
    ".export": DotCommand("QUERY-or-TABLE FILE.csv [--header]", "write rows to a CSV file", True),
    ".help": DotCommand("", "list these commands"),
    ".import": DotCommand("TABLE FILE.csv [--header]", "insert the rows of a CSV file, all or none", True),
    ".mode": DotCommand("csv|lines|table", "how rows are shown; lines: as the program mmdb writes them"),
    ".plan": DotCommand("QUERY", "show the plan of a SELECT or a standing query"),
    ".quit": DotCommand("", "end the shell; the database is lost"),
    ".read": DotCommand("FILE", "run a script", True),
    ".tables": DotCommand("", "list tables, indexes and standing queries"),
    ".timer": DotCommand("on|off", "show the time of each command"),
}


class Shell:
    """Executes the lines that a user types, and writes replies to a text stream."""

    def __init__(self, database: Database, out: TextIO, shows_progress: bool = False) -> None:
        self.session = Session(database)
        self.is_over = False
        self._out = out
        self._shows_progress = shows_progress
        self._mode = "table"
        self._has_timer = False

    def answer(self, line: str) -> None:
        """Executes a command of the language or a dot command, and writes its reply or its error."""
        try:
            if line.lstrip(" \t").startswith("."):
                self._dot(line.strip())
            else:
                self._command(encoded(line))
        except Failure as failure:
            self._say(str(failure))
        except Refused as refused:
            self._say(str(refused))
        except OSError as error:
            self._say(f"{error.filename or 'a file'}: {error.strerror or error}")
        except UnicodeEncodeError:
            self._say("the line is not UTF-8")
        except MemoryError:
            self._say("out of memory")
        except KeyboardInterrupt:
            self._say("interrupted")

    def _say(self, words: str) -> None:
        print(words, file=self._out)

    def _say_all(self, lines: Iterable[str]) -> None:
        self._out.writelines(line + "\n" for line in lines)

    def _say_time(self, begin: float, end: float) -> None:
        self._say(f"{(end - begin) * 1000:.3f} ms")

    def _command(self, line: bytes) -> None:
        """Executes a command of the language."""
        begin = time.perf_counter()
        status = self.session.execute(line)
        end = time.perf_counter()
        self._reply(line, status)
        if self._has_timer and status != NOTHING:
            self._say_time(begin, end)

    def _reply(self, line: bytes, status: int) -> None:
        """Shows the reply to a line with a status."""
        if status >= LEAST_REFUSAL:
            self._refusal(line, status)
        elif status == ROWS:
            self._rows(line)
        elif status != NOTHING:
            self._out.write(decoded(self.session.database.text()))

    def _refusal(self, line: bytes, status: int, origin: str = "") -> None:
        """Shows a refused line and its origin, with a mark under the place of the error, if there is one."""
        place = self.session.database.place(line, status)
        has_place = place > 0 or status == SYNTAX
        shown_line, mark = marked(line, place, shutil.get_terminal_size().columns)
        if has_place or origin:
            self._say(shown_line)
        if has_place:
            self._say(mark)
        self._say(f"{origin}error {status} {words_of(status)}")

    def _rows(self, line: bytes) -> None:
        """Shows the rows of the reply to a line."""
        database = self.session.database
        if self._mode == "lines":
            self._out.write(decoded(database.text()))
            return
        columns = database.columns(line)
        names, types = [name for name, _ in columns], [its_type for _, its_type in columns]
        rows = database.read(line)
        if self._mode == "csv":
            self._say_all(csv_line.removesuffix("\r\n") for csv_line in csv_lines([names, *rows]))
        else:
            self._table(names, types, rows, count_of(len(rows), "row"))

    def _table(self, names: Sequence[str], types: Sequence[type], rows: Sequence[Row], end: str) -> None:
        self._say_all(aligned(names, types, rows))
        self._say(end)

    def _dot(self, line: str) -> None:
        """Executes a dot command."""
        word, rest = [*line.split(None, 1), ""][:2]
        command = DOT_COMMANDS.get(word)
        if command is None:
            raise Failure(f"unknown command {word}; .help lists all commands")
        usage = f"usage: {word} {command.usage}".rstrip()
        begin = time.perf_counter()
        getattr(self, f"do_{word[1:]}")(rest, usage)
        if self._has_timer and command.is_timed:
            self._say_time(begin, time.perf_counter())

    def do_help(self, rest: str, usage: str) -> None:
        """Lists the commands."""
        words_after(rest, usage, 0)
        forms = {f"{name} {command.usage}": command.help for name, command in DOT_COMMANDS.items()}
        width = max(map(len, forms))
        self._say_all(f"{form:{width}}  {words}" for form, words in forms.items())
        self._say(LANGUAGE)

    def do_quit(self, rest: str, usage: str) -> None:
        """Ends the shell."""
        words_after(rest, usage, 0)
        self.is_over = True

    def do_timer(self, rest: str, usage: str) -> None:
        """Turns the timer on or off."""
        if rest not in ("on", "off"):
            raise Failure(usage)
        self._has_timer = rest == "on"

    def do_mode(self, rest: str, usage: str) -> None:
        """Sets the format of rows."""
        if rest not in MODES:
            raise Failure(usage)
        self._mode = rest

    def do_tables(self, rest: str, usage: str) -> None:
        """Lists the catalog."""
        words_after(rest, usage, 0)
        catalog = self.session.catalog()
        names, types = ("kind", "name", "rows", "definition"), (str, str, int, str)
        self._table(names, types, self._listing(catalog), count_of(len(catalog.tables), "table"))

    def _listing(self, catalog: Catalog) -> list[Row]:
        """Yields a row for each table, followed by rows for its indexes, and then a row for each standing query."""
        rows: list[Row] = []
        for table in catalog.tables.values():
            rows.append(("table", table.name, table.rows, ", ".join(table.columns)))
            indexes = [index for index in catalog.indexes.values() if index.table == table.name]
            rows += [("index", index.name, "", f"ON {index.table} {index.rest}") for index in indexes]
        for standing in catalog.standing.values():
            query = decoded(self.session.query(standing.name))
            rows.append(("standing query", standing.name, standing.rows, query))
        return rows

    def do_plan(self, rest: str, usage: str) -> None:
        """Shows the plan of a SELECT, or of a standing query by its name."""
        if not rest:
            raise Failure(usage)
        line = b"EXPLAIN " + (encoded(rest) if rest.startswith("SELECT") else self.session.query(rest))
        status = self.session.execute(line)
        if status >= LEAST_REFUSAL:
            self._refusal(line, status)
            return
        steps = [STEP.fullmatch(step) for step in decoded(self.session.database.text()).splitlines()[:-1]]
        rows: list[Row] = [(number, *step.groups()) for number, step in enumerate(steps, 1) if step]
        self._table(("step", "alias", "rows are reached by"), (int, str, str), rows, count_of(len(rows), "step"))

    def do_read(self, rest: str, usage: str) -> None:
        """Runs a script: shows rows and refusals, and at the end the number of refused lines."""
        path = os.path.expanduser(words_after(rest, usage, 1)[0])
        lines = refused = 0
        with open(path, "rb") as file:
            for line in lines_of(file):
                lines += 1
                status = self.session.execute(line)
                if status >= LEAST_REFUSAL:
                    refused += 1
                    self._refusal(line, status, f"{path}:{lines}: ")
                elif status not in (DONE, COUNT):
                    self._reply(line, status)
        self._say(f"{count_of(lines, 'line')}, {refused:,} refused")

    def do_import(self, rest: str, usage: str) -> None:
        """Inserts the rows of a CSV file into a table."""
        rest, has_header = without_header(rest)
        table, path = words_after(rest, usage, 2)
        progress = Progress(self._out if self._shows_progress else None)
        rows = import_csv(self.session, table, os.path.expanduser(path), has_header, progress)
        self._say(f"ok {rows}")

    def do_export(self, rest: str, usage: str) -> None:
        """Writes the rows of a query or a table to a CSV file."""
        rest, has_header = without_header(rest)
        found = QUERY_AND_FILE.fullmatch(rest)
        if found is None:
            raise Failure(usage)
        path = os.path.expanduser(found[2].strip('"'))
        rows = export_csv(self.session, self._query_of(found[1]), path, has_header)
        self._say(f"rows {rows}")

    def _query_of(self, words: str) -> bytes:
        """Returns a query for a query, or for the name of a table or a standing query."""
        if QUERY.fullmatch(words):
            return encoded(words)
        catalog = self.session.catalog()
        if words in catalog.tables:
            return b"SCAN " + encoded(words)
        if words in catalog.standing:
            return b"SHOW " + encoded(words)
        raise Failure(f"no table or standing query {words}")

    def do_dump(self, rest: str, usage: str) -> None:
        """Writes a script that rebuilds the database."""
        catalog = dump(self.session, os.path.expanduser(words_after(rest, usage, 1)[0]))
        told = (
            count_of(len(catalog.tables), "table"),
            count_of(sum(table.rows for table in catalog.tables.values()), "row"),
            count_of(len(catalog.indexes), "index", "indexes"),
            count_of(len(catalog.standing), "standing query", "standing queries"),
        )
        self._say(", ".join(told))


def words_after(rest: str, usage: str, count: int) -> list[str]:
    """Returns the arguments of a dot command; quotes enclose blanks. Raises Failure (the usage) for another count."""
    try:
        words = shlex.split(rest)
    except ValueError:
        raise Failure(usage) from None
    if len(words) != count:
        raise Failure(usage)
    return words


def without_header(rest: str) -> tuple[str, bool]:
    """Returns the arguments of a dot command without the option for a header, and whether the option was there."""
    left = rest.removesuffix(HEADER)
    return (left.rstrip(), True) if left.endswith((" ", "\t")) else (rest, False)
