"""Files of the shell: CSV files with the rows of a table or a query, and scripts that rebuild a database."""

from __future__ import annotations

import contextlib
import csv
import os
import re
import shutil
import time
from collections.abc import Iterable, Iterator
from typing import BinaryIO, NamedTuple, TextIO

from mmdb._library import DONE, NO_SUCH_TABLE, TEXT_BYTES, Refused, Row, Value, encoded, words_of
from mmdb.shell_catalog import Catalog, Failure, Session
from mmdb.shell_tables import count_of, csv_lines, literal_row

LEAST_NUMBER, GREATEST_NUMBER, MOST_DIGITS = -(2**63), 2**63 - 1, 19
ROWS_AT_ONCE = 500
SAVEPOINT = "shell_import"
BYTE_ORDER_MARK = "\ufeff"
SECONDS_BETWEEN_REPORTS = 0.25
NUMBER = re.compile(r"[ \t]*([+-]?)0*([0-9]+)[ \t]*")


@contextlib.contextmanager
def written(path: str) -> Iterator[BinaryIO]:
    """Writes a file. An existing file is replaced only when everything is on its device, and has its mode from the start."""
    path = os.path.realpath(path)
    if os.path.exists(path) and not os.path.isfile(path):
        with open(path, "wb") as device:
            yield device
        return
    part = f"{path}.part-{os.getpid()}"
    try:
        with open(part, "wb") as file:
            if os.path.exists(path):
                shutil.copymode(path, part)
            yield file
            file.flush()
            os.fsync(file.fileno())
        os.replace(part, path)
    except BaseException as error:
        with contextlib.suppress(OSError):
            os.remove(part)
        if isinstance(error, OSError):
            raise OSError(error.errno, error.strerror, path) from None
        raise


class Progress:
    """Shows the progress of a long import on a terminal."""

    def __init__(self, out: TextIO | None) -> None:
        self._out = out
        self._due = time.monotonic() + SECONDS_BETWEEN_REPORTS
        self._width = 0

    def tell(self, rows: int, file: TextIO) -> None:
        """Shows the number of rows read so far."""
        if self._out is None or time.monotonic() < self._due:
            return
        words = count_of(rows, "row")
        if file.seekable():
            words += f", {file.buffer.tell() / max(os.fstat(file.fileno()).st_size, 1):.0%} of the file"
        self._write(words)
        self._width = len(words)
        self._due = time.monotonic() + SECONDS_BETWEEN_REPORTS

    def clear(self) -> None:
        """Clears the progress."""
        if self._width:
            self._write("")

    def _write(self, words: str) -> None:
        if self._out is not None:
            print("\r" + words.ljust(self._width), end="\r", file=self._out, flush=True)


class Record(NamedTuple):
    """Fields of a CSV file, and the line of the file on which they begin."""

    line: int
    fields: list[str]


def records_of(file: TextIO, path: str) -> Iterator[Record]:
    """Yields the records of a CSV file, without empty lines."""
    reader = csv.reader(file, strict=True)
    line = 1
    try:
        for fields in reader:
            if fields:
                yield Record(line, fields)
            line = reader.line_num + 1
    except csv.Error as error:
        raise Failure(f"{path}:{line}: {error}") from None


def number_of(field: str) -> int:
    """Returns a field as a number. Raises Failure if it is not one."""
    found = NUMBER.fullmatch(field)
    if found is None:
        raise Failure(f"{field!r} is not a number")
    sign, digits = found.groups()
    if len(digits) > MOST_DIGITS or not LEAST_NUMBER <= int(sign + digits) <= GREATEST_NUMBER:
        raise Failure(f"{sign}{digits} does not fit 64 bits")
    return int(sign + digits)


def text_of(field: str) -> str:
    """Returns a field as a text. Raises Failure if a table cannot store it."""
    if "\n" in field:
        raise Failure(f"the text {field!r} contains a line feed")
    if (length := len(encoded(field))) > TEXT_BYTES:
        raise Failure(f"the text {field!r} has {length} bytes; the limit is {TEXT_BYTES}")
    return field


def value_of(field: str, its_type: type) -> Value:
    """Returns a field as a value of a column's type."""
    return number_of(field) if its_type is int else text_of(field)


class Importer:
    """Reads a CSV file into a table. Raises Refused if the table does not exist."""

    def __init__(self, session: Session, table: str, path: str, progress: Progress) -> None:
        self._database = session.database
        self._path = path
        self._progress = progress
        self._columns = session.database.columns(b"SCAN " + encoded(table))
        if not self._columns:
            raise Refused(NO_SUCH_TABLE)
        holes = ", ".join("?" for _ in self._columns)
        self._insert = f"INSERT {table} ({holes})".encode()

    def order_of(self, header: Record) -> list[int]:
        """Returns for each column the position of its field in the header."""
        names = [name for name, _ in self._columns]
        given = [field.strip() for field in header.fields]
        if sorted(given) != sorted(names):
            told = f"the header names {', '.join(given) or 'nothing'}, but the columns are {', '.join(names)}"
            raise Failure(f"{self._path}:{header.line}: {told}")
        return [given.index(name) for name in names]

    def row_of(self, record: Record, order: list[int]) -> Row:
        """Returns the row of a record."""
        if len(record.fields) != len(order):
            told = f"{count_of(len(record.fields), 'field')}, but {count_of(len(order), 'column')} in the table"
            raise Failure(f"{self._path}:{record.line}: {told}")
        try:
            return tuple(value_of(record.fields[place], its_type) for place, (_, its_type) in zip(order, self._columns))
        except Failure as failure:
            raise Failure(f"{self._path}:{record.line}: {failure}") from None

    def batches(self, records: Iterable[Record], order: list[int]) -> Iterator[list[tuple[int, Row]]]:
        """Yields some rows at a time, with their lines. Raises Failure for a bad record, after the rows before it."""
        batch: list[tuple[int, Row]] = []
        try:
            for record in records:
                batch.append((record.line, self.row_of(record, order)))
                if len(batch) == ROWS_AT_ONCE:
                    yield batch
                    batch = []
        except Failure:
            yield batch
            raise
        yield batch

    def insert(self, file: TextIO, has_header: bool) -> int:
        """Inserts a row for each record, and returns their number. Raises Failure with the line of a refused row."""
        records = records_of(file, self._path)
        order = list(range(len(self._columns)))
        if has_header:
            order = self.order_of(next(records, Record(1, [])))
        done = 0
        try:
            for batch in self.batches(records, order):
                runs, status = self._database.run_many(self._insert, [row for _, row in batch])
                if status != DONE:
                    line, row = batch[runs]
                    raise Failure(f"{self._path}:{line}: error {status} {words_of(status)}: {literal_row(row)}")
                done += runs
                self._progress.tell(done, file)
        finally:
            self._progress.clear()
        return done


def import_csv(session: Session, table: str, path: str, has_header: bool, progress: Progress) -> int:
    """Reads a CSV file into a table, all rows or none, and returns the number of rows."""
    importer = Importer(session, table, path, progress)
    with open(path, encoding="utf-8-sig", errors="surrogateescape", newline="") as file:
        with session.database.all_or_none(SAVEPOINT):
            return importer.insert(file, has_header)


def export_csv(session: Session, query: bytes, path: str, has_header: bool) -> int:
    """Writes the rows of a query to a CSV file, and returns their number."""
    session.demand(query)
    columns = session.database.columns(query)
    rows = session.database.read(query)
    header = [tuple(name for name, _ in columns)] if has_header else []
    with written(path) as file:
        for number, line in enumerate(csv_lines([*header, *rows])):
            # Who reads the file takes this character at its beginning for a mark of UTF-8, so there it is doubled.
            is_mark = number == 0 and line.startswith(BYTE_ORDER_MARK)
            file.write(encoded(BYTE_ORDER_MARK * is_mark + line))
    return len(rows)


def dump(session: Session, path: str) -> Catalog:
    """Writes a script that rebuilds the database, and returns the catalog."""
    catalog = session.catalog()
    with written(path) as file:
        file.writelines(session.database.dump())
    return catalog
