"""The catalog of a database, as the reply to TABLES lists it, and the queries of its standing queries, which the reply only names."""

from __future__ import annotations

import re
from typing import NamedTuple

from mmdb._library import LEAST_REFUSAL, NO_SUCH_STANDING_QUERY, SYNTAX, TEXT, Database, Refused

TABLE_LINE = re.compile(r"TABLE (\w+) \((.*)\) rows (\d+)")
INDEX_LINE = re.compile(r"INDEX (\w+) ON (\w+) (\(\w+\) \w+)")
WATCH_LINE = re.compile(r"WATCH (\w+) rows (\d+)")


class Failure(Exception):
    """A command of the shell failed. The message says why."""


class Table(NamedTuple):
    """A table: its columns, as in its TABLE command, and its number of rows."""

    name: str
    columns: list[str]
    rows: int

    def column_names(self) -> list[str]:
        """The names of the columns, from left to right."""
        return [column.split()[0] for column in self.columns]


class Index(NamedTuple):
    """An index: its table, and its column and kind, as in its INDEX command."""

    name: str
    table: str
    rest: str


class Standing(NamedTuple):
    """A standing query, and its current number of rows."""

    name: str
    rows: int


class Catalog(NamedTuple):
    """The catalog of a database, by name and in order of creation; indexes are grouped by table."""

    tables: dict[str, Table]
    indexes: dict[str, Index]
    standing: dict[str, Standing]


def catalog_of(listing: str) -> Catalog:
    """Returns the catalog that a reply to TABLES lists."""
    catalog = Catalog({}, {}, {})
    for line in listing.splitlines():
        if found := TABLE_LINE.fullmatch(line):
            catalog.tables[found[1]] = Table(found[1], found[2].split(", "), int(found[3]))
        elif found := INDEX_LINE.fullmatch(line):
            catalog.indexes[found[1]] = Index(found[1], found[2], found[3])
        elif found := WATCH_LINE.fullmatch(line):
            catalog.standing[found[1]] = Standing(found[1], int(found[2]))
    return catalog


class Session:
    """A database whose catalog can be asked for."""

    def __init__(self, database: Database) -> None:
        self.database = database

    def execute(self, line: bytes) -> int:
        """Executes a line, and returns its status."""
        return self.database.execute(line)

    def demand(self, line: bytes) -> int:
        """Executes a line. Raises Refused if it is refused."""
        status = self.execute(line)
        if status >= LEAST_REFUSAL:
            raise Refused(status)
        return status

    def query(self, name: str) -> bytes:
        """Returns the SELECT of a standing query. Raises Failure if there is none, and Refused if an allocation fails."""
        try:
            return self.database.definition(name, "watch").split(b" ", 2)[2]
        except Refused as refused:
            if refused.status in (NO_SUCH_STANDING_QUERY, SYNTAX):
                raise Failure(f"no standing query {name}") from None
            raise

    def catalog(self) -> Catalog:
        """Returns the current catalog. Raises Refused if an allocation fails."""
        status = self.database.execute(b"TABLES")
        if status != TEXT:
            raise Refused(status)
        return catalog_of(self.database.text().decode())
