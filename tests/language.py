"""A second implementation of the command language, written from docs/LANGUAGE.md alone and as simple as possible.

`read` returns the command of a line, and `Database.answer` returns its whole reply, also a refusal. Nothing is copied from the program. An
index is only a declaration, a query tests all combinations of its tables' rows, and SHOW evaluates its query again.
"""

import itertools
import math
import re
from typing import NamedTuple, Optional

LONGEST_LINE = 4096
LONGEST_TEXT = 64
LEAST, GREATEST = -(2**63), 2**63 - 1
MOST_TABLES, MOST_COLUMNS, MOST_INDEXES, MOST_STANDING, MOST_SAVEPOINTS = 64, 16, 16, 32, 64
MOST_ITEMS, MOST_FIELDS, MOST_TESTS, MOST_PLACES = 4, 16, 16, 16
MOST_ROWS = MOST_COMBINATIONS = 1048576

TEXTS = {
    10: "line too long", 11: "syntax", 12: "number out of range", 13: "text too long", 20: "no such table", 21: "no such column",
    22: "no such index", 23: "no such standing query", 24: "name taken", 25: "alias taken", 26: "no such alias", 30: "type mismatch",
    31: "wrong number of values", 32: "arithmetic out of range", 40: "duplicate key", 41: "no target row", 42: "row is referenced",
    43: "in use", 45: "table full", 46: "result too large", 47: "standing list too large", 48: "too many", 50: "transaction open",
    51: "no transaction", 52: "not in a transaction", 53: "no such savepoint",
}  # fmt: skip
KEYWORDS = frozenset(
    b"AND BEGIN CASCADE COMMIT DELETE DISTINCT DROP EXPLAIN FROM HASH INDEX INSERT INT KEY ON ORDER REF ROLLBACK SAVEPOINT SCAN SELECT"
    b" SET SHOW TABLE TABLES TEXT TO TREE UNWATCH UPDATE WATCH WHERE".split()
)
TOKEN = re.compile(rb"[ \t]*(?:([A-Za-z0-9_]+)|('(?:[^'\n]|'')*'(?!'))|(<=|>=|[(),.=<>+-]))")
NAME = re.compile(rb"[a-z][a-z0-9_]{0,31}")
DIGITS = re.compile(rb"[0-9]+")
OPERATORS = {
    b"=": lambda left, right: left == right,
    b"<": lambda left, right: left < right,
    b"<=": lambda left, right: left <= right,
    b">": lambda left, right: left > right,
    b">=": lambda left, right: left >= right,
}


class Refused(Exception):
    """A refusal, by its number."""

    def __init__(self, number):
        super().__init__(number)
        self.number = number

    def reply(self):
        return f"error {self.number} {TEXTS[self.number]}\n".encode()


def refuse(number, holds):
    """Raises a refusal if its condition holds. The calls for a command follow the order of its refusals."""
    if holds:
        raise Refused(number)


class Column(NamedTuple):
    """A column of a TABLE command."""

    name: bytes
    type: bytes
    is_key: bool
    target: Optional[bytes]
    cascades: bool

    def role(self):
        """Returns the words after the column's type in the TABLE command."""
        if self.is_key:
            return b" KEY"
        return b" REF " + self.target + b" CASCADE" * self.cascades if self.target else b""


class Field(NamedTuple):
    """A column of a table of FROM. In an UPDATE and a DELETE the table has the empty alias."""

    alias: bytes
    column: bytes


class Value(NamedTuple):
    """The right side of a test or an assignment: a literal, or a field, perhaps with a shift."""

    literal: object
    field: Optional[Field] = None
    shift: Optional[int] = None


class Test(NamedTuple):
    """A test; an assignment is a test with `=`."""

    left: Field
    operator: bytes
    right: Value


class Query(NamedTuple):
    """A SELECT; an item is a table and its alias."""

    is_distinct: bool
    fields: list
    items: list
    tests: list
    order: list


class Token(NamedTuple):
    """A token of a line, with its kind and its start and end."""

    kind: str
    text: bytes
    start: int
    end: int


def kind_of_word(word):
    if word in KEYWORDS:
        return "fixed"
    if DIGITS.fullmatch(word):
        return "digits"
    refuse(11, not NAME.fullmatch(word))
    return "name"


def tokens_of(line):
    """Returns the tokens of a line, and a last token for its end."""
    tokens, place, end = [], 0, len(line.rstrip(b" \t"))
    while place < end:
        found = TOKEN.match(line, place)
        refuse(11, not found)
        word, text, symbol = found.groups()
        kind = "fixed" if symbol else "text" if text else kind_of_word(word)
        place = found.end()
        tokens.append(Token(kind, word or text or symbol, place - len(word or text or symbol), place))
    return [*tokens, Token("end", b"", place, place)]


class Reader:
    """Reads the tokens of a line from left to right. A token that the grammar does not allow is a syntax error."""

    def __init__(self, line):
        self.tokens, self.at = tokens_of(line), 0
        self.faults = []

    def next_is(self, *texts):
        token = self.tokens[self.at]
        return token.kind == "fixed" and token.text in texts

    def takes(self, text):
        """Consumes this keyword or symbol if it is next, and returns whether it was."""
        found = self.next_is(text)
        self.at += found
        return found

    def take(self, *texts):
        refuse(11, not self.next_is(*texts))
        self.at += 1
        return self.tokens[self.at - 1].text

    def take_kind(self, kind):
        refuse(11, self.tokens[self.at].kind != kind)
        self.at += 1
        return self.tokens[self.at - 1].text

    def name(self):
        return self.take_kind("name")

    def listed(self, read, between=b","):
        """Reads one or more phrases, separated by a symbol or a keyword."""
        found = [read()]
        while self.takes(between):
            found.append(read())
        return found

    def number(self, sign):
        """Reads the next digits as a number with this sign. A number beyond its limit is refused only after the whole line is read."""
        number = int(sign + self.take_kind("digits"))
        if not LEAST <= number <= GREATEST:
            self.faults.append(12)
        return number

    def literal(self):
        if self.next_is(b"-"):
            minus = self.tokens[self.at]
            self.at += 1
            refuse(11, self.tokens[self.at].start != minus.end)
            return self.number(b"-")
        if self.tokens[self.at].kind == "digits":
            return self.number(b"")
        text = self.take_kind("text")[1:-1].replace(b"''", b"'")
        if len(text) > LONGEST_TEXT:
            self.faults.append(13)
        return text

    def value(self, field):
        if self.tokens[self.at].kind != "name":
            return Value(self.literal())
        named = field()
        return Value(None, named, self.number(self.take(b"+", b"-")) if self.next_is(b"+", b"-") else None)

    def own_field(self):
        return Field(b"", self.name())

    def field(self):
        alias = self.name()
        self.take(b".")
        return Field(alias, self.name())

    def test(self, field):
        return Test(field(), self.take(*OPERATORS), self.value(field))

    def assign(self):
        return Test(self.own_field(), self.take(b"="), self.value(self.own_field))

    def where(self, field):
        return self.listed(lambda: self.test(field), b"AND") if self.takes(b"WHERE") else []

    def column(self):
        name, kind = self.name(), self.take(b"INT", b"TEXT")
        is_key = self.takes(b"KEY")
        target = self.name() if not is_key and self.takes(b"REF") else None
        return Column(name, kind, is_key, target, target is not None and self.takes(b"CASCADE"))

    def row(self):
        self.take(b"(")
        values = self.listed(self.literal)
        self.take(b")")
        return values

    def query(self):
        self.take(b"SELECT")
        is_distinct = self.takes(b"DISTINCT")
        fields = self.listed(self.field)
        self.take(b"FROM")
        items = self.listed(lambda: (self.name(), self.name()))
        tests = self.where(self.field)
        return Query(is_distinct, fields, items, tests, self.listed(lambda: self.number(b"")) if self.takes(b"ORDER") else [])

    def columns(self):
        self.take(b"(")
        columns = self.listed(self.column)
        self.take(b")")
        refuse(11, sum(column.is_key for column in columns) != 1)
        return columns

    def index(self):
        name = self.name()
        self.take(b"ON")
        table = self.name()
        self.take(b"(")
        column = self.name()
        self.take(b")")
        return name, table, column, self.take(b"TREE", b"HASH")

    def update(self):
        table = self.name()
        self.take(b"SET")
        return table, self.listed(self.assign), self.where(self.own_field)

    def command(self):
        """Reads the command, and returns its keywords and its arguments."""
        word = self.take_kind("fixed")
        if word in (b"DROP", b"SCAN") and self.takes(b"INDEX"):
            return word + b" INDEX", self.name()
        if word == b"DROP":
            return word + b" " + self.take(b"TABLE"), self.name()
        if word == b"ROLLBACK" and self.takes(b"TO"):
            return word + b" TO", self.name()
        if word in (b"SAVEPOINT", b"SCAN", b"SHOW", b"UNWATCH"):
            return word, self.name()
        if word in (b"BEGIN", b"COMMIT", b"ROLLBACK", b"TABLES"):
            return (word,)
        if word == b"TABLE":
            return word, self.name(), self.columns()
        if word == b"INDEX":
            return word, *self.index()
        if word == b"INSERT":
            return word, self.name(), self.listed(self.row)
        if word == b"UPDATE":
            return word, *self.update()
        if word == b"DELETE":
            return word, self.name(), self.where(self.own_field)
        if word == b"SELECT":
            self.at -= 1
            return word, self.query()
        if word == b"EXPLAIN":
            return word, self.query()
        refuse(11, word != b"WATCH")
        return word, self.name(), self.query()


def read(line):
    """Returns the command of a line, or None for a comment or an empty line. Raises the refusal 10, 11, 12 or 13."""
    line = line.removesuffix(b"\r")
    refuse(10, len(line) > LONGEST_LINE)
    if line.startswith(b"--") or not line.strip(b" \t"):
        return None
    reader = Reader(line)
    command = reader.command()
    refuse(11, reader.tokens[reader.at].kind != "end")
    for fault in reader.faults:
        raise Refused(fault)
    return command


def type_of(literal):
    return b"INT" if isinstance(literal, int) else b"TEXT"


def shown(value):
    return b"%d" % value if isinstance(value, int) else b"'" + value.replace(b"'", b"''") + b"'"


def shown_rows(rows):
    return b"".join(b"(" + b", ".join(map(shown, row)) + b")\n" for row in rows) + b"rows %d\n" % len(rows)


class Table(NamedTuple):
    """An immutable table: its columns, its rows by key, and its indexes. A change creates a new table."""

    columns: tuple
    rows: dict
    indexes: tuple

    def place(self, name):
        """Returns the position of a column, or None."""
        return next((place for place, column in enumerate(self.columns) if column.name == name), None)

    def column(self, name):
        return self.columns[self.place(name)]

    def key(self):
        return next(place for place, column in enumerate(self.columns) if column.is_key)

    def in_order(self):
        return [self.rows[key] for key in sorted(self.rows)]

    def index_on(self, name, kind):
        """Returns the name of the oldest index of a kind on a column, or None."""
        indexes = ((b"#key", self.columns[self.key()].name, b"TREE"), *self.indexes)
        return next((index for index, column, its_kind in indexes if (column, its_kind) == (name, kind)), None)


def aliases_of(test):
    return {field.alias for field in (test.left, test.right.field) if field}


def joins_of(query, place):
    """Returns the tests that join a table of FROM: its own field, the field of an earlier table, and whether the test has no shift."""
    alias, earlier = query.items[place][1], [alias for _, alias in query.items[:place]]
    joins = []
    for left, operator, right in query.tests:
        for own, other in ((left, right.field), (right.field, left)):
            if operator == b"=" and right.field and own.alias == alias and other.alias in earlier:
                joins.append((own, other, right.shift is None))
    return joins


class Database:
    """The tables, the standing queries, and in a transaction the rows at BEGIN and at each savepoint."""

    def __init__(self):
        self.tables, self.standing = {}, {}
        self.saved, self.savepoints = None, ()

    def copy(self):
        other = Database()
        other.tables, other.standing = dict(self.tables), dict(self.standing)
        other.saved, other.savepoints = self.saved, self.savepoints
        return other

    def is_as(self, other):
        kept, others = ((one.tables, one.standing, one.saved, one.savepoints) for one in (self, other))
        return kept == others

    def answer(self, line):
        """Executes a line, and returns its reply."""
        try:
            command = read(line)
            if command is None:
                return b""
            word, *said = command
            return getattr(self, "do_" + word.decode().lower().replace(" ", "_"))(*said)
        except Refused as refused:
            return refused.reply()

    def do_begin(self):
        refuse(50, self.saved is not None)
        self.saved = self.rows()
        return b"ok\n"

    def do_commit(self):
        refuse(51, self.saved is None)
        self.saved, self.savepoints = None, ()
        return b"ok\n"

    def do_rollback(self):
        refuse(51, self.saved is None)
        self.go_back(self.saved)
        self.saved, self.savepoints = None, ()
        return b"ok\n"

    def do_savepoint(self, name):
        refuse(51, self.saved is None)
        refuse(48, len(self.savepoints) == MOST_SAVEPOINTS)
        self.savepoints = (*self.savepoints, (name, self.rows()))
        return b"ok\n"

    def do_rollback_to(self, name):
        refuse(51, self.saved is None)
        places = [place for place, (other, _) in enumerate(self.savepoints) if other == name]
        refuse(53, not places)
        self.savepoints = self.savepoints[: places[-1] + 1]
        self.go_back(self.savepoints[-1][1])
        return b"ok\n"

    def rows(self):
        """Returns the rows of each table. Later changes do not alter them."""
        return {name: table.rows for name, table in self.tables.items()}

    def go_back(self, rows):
        """Restores the rows of each table, but not its indexes."""
        self.tables = {name: table._replace(rows=rows[name]) for name, table in self.tables.items()}

    def is_mismatch(self, tables, test):
        """Returns whether the sides of a test or an assignment differ in type, or a text has a shift."""
        left = tables[test.left.alias].column(test.left.column).type
        named = test.right.field
        right = tables[named.alias].column(named.column).type if named else type_of(test.right.literal)
        return left != right or (test.right.shift is not None and left == b"TEXT")

    def do_table(self, name, columns):
        refuse(52, self.saved is not None)
        references = [column for column in columns if column.target is not None]
        refuse(20, any(column.target not in self.tables for column in references))
        refuse(24, name in self.tables or len({column.name for column in columns}) < len(columns))
        targets = [self.tables[column.target] for column in references]
        refuse(30, any(target.columns[target.key()].type != column.type for column, target in zip(references, targets)))
        refuse(48, len(columns) > MOST_COLUMNS or len(self.tables) == MOST_TABLES)
        self.tables[name] = Table(tuple(columns), {}, ())
        return b"ok\n"

    def do_drop_table(self, name):
        refuse(52, self.saved is not None)
        refuse(20, name not in self.tables)
        refuse(43, any(column.target == name for table in self.tables.values() for column in table.columns))
        refuse(43, any(name in dict(query.items) for query in self.standing.values()))
        del self.tables[name]
        return b"ok\n"

    def owner(self, index):
        """Returns the name of the table that has an index, or None."""
        return next((name for name, table in self.tables.items() if index in [named for named, _, _ in table.indexes]), None)

    def do_index(self, index, name, column, kind):
        refuse(20, name not in self.tables)
        table = self.tables[name]
        refuse(21, table.place(column) is None)
        refuse(24, self.owner(index) is not None)
        refuse(48, len(table.indexes) == MOST_INDEXES)
        self.tables[name] = table._replace(indexes=(*table.indexes, (index, column, kind)))
        return b"ok\n"

    def do_drop_index(self, index):
        name = self.owner(index)
        refuse(22, name is None)
        table = self.tables[name]
        self.tables[name] = table._replace(indexes=tuple(other for other in table.indexes if other[0] != index))
        return b"ok\n"

    def do_insert(self, name, rows):
        refuse(20, name not in self.tables)
        columns = self.tables[name].columns
        refuse(30, any(type_of(value) != column.type for row in rows for value, column in zip(row, columns)))
        refuse(31, any(len(row) != len(columns) for row in rows))
        return self.change(name, [(None, tuple(row)) for row in rows])

    def do_update(self, name, assigns, tests):
        table = self.checked_table(name, assigns, tests)
        met = self.rows_that_meet(name, tests)
        pairs = []
        for row in met:
            values = list(row)
            for left, _, right in assigns:
                values[table.place(left.column)] = self.value(right, {b"": table}, {b"": row})
            pairs.append((row, tuple(values)))
        refuse(32, any(isinstance(value, int) and not LEAST <= value <= GREATEST for _, row in pairs for value in row))
        return self.change(name, pairs)

    def do_delete(self, name, tests):
        table = self.checked_table(name, [], tests)
        met = {row[table.key()] for row in self.rows_that_meet(name, tests)}
        gone = self.with_referring(name, met)
        refuse(42, any(gone[target] & self.referred_keys(target, gone) for target in self.tables))
        self.put({other: self.rows_without(other, keys) for other, keys in gone.items() if keys})
        return b"ok %d\n" % len(met)

    def checked_table(self, name, assigns, tests):
        """Returns the table of an UPDATE or a DELETE. Raises the refusals for its names and types."""
        refuse(20, name not in self.tables)
        table, every = self.tables[name], [*assigns, *tests]
        fields = [test.left for test in every] + [test.right.field for test in every if test.right.field]
        refuse(21, any(table.place(field.column) is None for field in fields))
        refuse(24, len({test.left for test in assigns}) < len(assigns))
        refuse(30, any(self.is_mismatch({b"": table}, test) for test in every))
        refuse(48, len(tests) > MOST_TESTS)
        return table

    def rows_that_meet(self, name, tests):
        query = Query(False, [], [(name, b"")], tests, [])
        return [combination[b""] for combination in self.combinations(query)]

    def change(self, name, pairs):
        """Replaces old rows with new ones. If an old row is None, inserts the new one."""
        table = self.tables[name]
        key, old_keys = table.key(), {old[table.key()] for old, _ in pairs if old}
        new = [row for _, row in pairs]
        rows = self.rows_without(name, old_keys)
        refuse(40, len({*rows, *(row[key] for row in new)}) < len(rows) + len(new))
        rows |= {row[key]: row for row in new}
        for place, column in enumerate(table.columns):
            refuse(41, column.target and any(row[place] not in self.tables[column.target].rows for row in new))
        moved = {old[key] for old, row in pairs if old and row[key] != old[key]}
        refuse(42, moved & self.referred_keys(name, {}))
        refuse(45, len(rows) > MOST_ROWS)
        self.put({name: rows})
        return b"ok %d\n" % len(pairs)

    def put(self, rows):
        """Replaces the rows of some tables, unless a standing query would become too large."""
        before = self.tables
        self.tables = {name: table._replace(rows=rows.get(name, table.rows)) for name, table in before.items()}
        if any(self.is_too_large(query) for query in self.standing.values() if rows.keys() & dict(query.items).keys()):
            self.tables = before
            raise Refused(47)

    def rows_without(self, name, keys):
        """Returns the rows of a table by key, without some keys."""
        return {key: row for key, row in self.tables[name].rows.items() if key not in keys}

    def referred_keys(self, name, gone):
        """Returns the keys of a table that rows of other tables refer to, ignoring the rows with the keys in `gone`."""
        keys = set()
        for other, table in self.tables.items():
            places = [place for place, column in enumerate(table.columns) if column.target == name]
            keys |= {row[place] for place in places for key, row in table.rows.items() if key not in gone.get(other, ())}
        return keys

    def with_referring(self, name, keys):
        """Returns, for each table, the keys of the rows deleted with those of one table: rows whose CASCADE columns refer to a deleted row."""
        gone = {other: set(keys if other == name else ()) for other in self.tables}
        while more := [(other, key) for other in self.tables for key in self.referring_keys(other, gone) - gone[other]]:
            for other, key in more:
                gone[other].add(key)
        return gone

    def referring_keys(self, name, gone):
        """Returns the keys of a table's rows that refer to a row in `gone` by a CASCADE column."""
        table = self.tables[name]
        targets = [(place, gone[column.target]) for place, column in enumerate(table.columns) if column.cascades]
        return {key for key, row in table.rows.items() if any(row[place] in keys for place, keys in targets)}

    def do_scan(self, name):
        refuse(20, name not in self.tables)
        return shown_rows(self.tables[name].in_order())

    def do_scan_index(self, index):
        name = self.owner(index)
        refuse(22, name is None)
        table = self.tables[name]
        place = table.place(next(column for other, column, _ in table.indexes if other == index))
        return shown_rows(sorted(table.in_order(), key=lambda row: row[place]))

    def check_query(self, query, is_taken=False, is_one_too_many=False):
        """Raises the refusals of a query, and those of a new standing query's name and number."""
        refuse(20, any(name not in self.tables for name, _ in query.items))
        tables = {alias: self.tables[name] for name, alias in reversed(query.items)}
        fields = [*query.fields, *(test.left for test in query.tests), *(test.right.field for test in query.tests if test.right.field)]
        refuse(21, any(alias in tables and tables[alias].place(column) is None for alias, column in fields))
        refuse(21, any(not 1 <= place <= len(query.fields) for place in query.order))
        refuse(24, is_taken)
        refuse(25, len(tables) < len(query.items))
        refuse(26, any(field.alias not in tables for field in fields))
        refuse(30, any(self.is_mismatch(tables, test) for test in query.tests))
        refuse(48, is_one_too_many or len(query.items) > MOST_ITEMS or len(query.fields) > MOST_FIELDS)
        refuse(48, len(query.tests) > MOST_TESTS or len(query.order) > MOST_PLACES)

    def value(self, value, tables, rows):
        """Returns the value of the right side of a test or an assignment, with a row for each alias."""
        if value.field is None:
            return value.literal
        found = rows[value.field.alias][tables[value.field.alias].place(value.field.column)]
        return found if value.shift is None else found + value.shift

    def holds(self, test, tables, rows):
        left = self.value(Value(None, test.left), tables, rows)
        return OPERATORS[test.operator](left, self.value(test.right, tables, rows))

    def combinations(self, query):
        """Returns the combinations of rows that satisfy the tests of a query. A combination has a row for each alias."""
        tables = {alias: self.tables[name] for name, alias in query.items}
        found = iter([{}])
        for place, (name, alias) in enumerate(query.items):
            earlier, known = ({alias for _, alias in query.items[:behind]} for behind in (place, place + 1))
            tests = [test for test in query.tests if aliases_of(test) <= known and not aliases_of(test) <= earlier]
            found = self.extended(found, alias, tables, tests)
        return found

    def extended(self, combinations, alias, tables, tests):
        """Yields the combinations extended by each row of one more table that satisfies these tests."""
        for combination in combinations:
            for row in tables[alias].in_order():
                rows = {**combination, alias: row}
                if all(self.holds(test, tables, rows) for test in tests):
                    yield rows

    def is_too_large(self, query):
        if not query.tests:
            return math.prod(len(self.tables[name].rows) for name, _ in query.items) > MOST_COMBINATIONS
        return next(itertools.islice(self.combinations(query), MOST_COMBINATIONS, None), None) is not None

    def rows_of(self, query):
        tables = {alias: self.tables[name] for name, alias in query.items}
        rows = [tuple(self.value(Value(None, field), tables, found) for field in query.fields) for found in self.combinations(query)]
        return sorted(set(rows) if query.is_distinct else rows, key=lambda row: ([row[place - 1] for place in query.order], row))

    def do_select(self, query):
        self.check_query(query)
        refuse(46, self.is_too_large(query))
        return shown_rows(self.rows_of(query))

    def do_watch(self, name, query):
        refuse(52, self.saved is not None)
        self.check_query(query, name in self.standing, len(self.standing) == MOST_STANDING)
        refuse(47, self.is_too_large(query))
        self.standing[name] = query
        return b"ok\n"

    def do_unwatch(self, name):
        refuse(52, self.saved is not None)
        refuse(23, name not in self.standing)
        del self.standing[name]
        return b"ok\n"

    def do_show(self, name):
        refuse(23, name not in self.standing)
        return shown_rows(self.rows_of(self.standing[name]))

    def do_tables(self):
        told = b""
        for name, table in self.tables.items():
            columns = b", ".join(c.name + b" " + c.type + c.role() for c in table.columns)
            told += b"TABLE %s (%s) rows %d\n" % (name, columns, len(table.rows))
            told += b"".join(b"INDEX %s ON %s (%s) %s\n" % (index, name, column, kind) for index, column, kind in table.indexes)
        told += b"".join(b"WATCH %s rows %d\n" % (name, len(self.rows_of(query))) for name, query in self.standing.items())
        return told + b"tables %d\n" % len(self.tables)

    def do_explain(self, query):
        self.check_query(query)
        steps = [self.first_access(query)]
        steps += [self.next_access(query, place, steps[0] == b"scan") for place in range(1, len(query.items))]
        return b"".join(alias + b" " + step + b"\n" for (_, alias), step in zip(query.items, steps)) + b"steps %d\n" % len(steps)

    def first_access(self, query):
        """Returns the access path of the first table of a query."""
        name, alias = query.items[0]
        constants = [(test.operator == b"=", test.left.column) for test in query.tests if test.left.alias == alias and not test.right.field]
        for is_equality, kind, step in ((True, b"HASH", b"hash %s"), (True, b"TREE", b"tree %s ="), (False, b"TREE", b"tree %s range")):
            for is_one, column in constants:
                index = self.tables[name].index_on(column, kind)
                if index and is_one == is_equality:
                    return step % index
        return b"scan"

    def next_access(self, query, place, is_first_scanned):
        """Returns the join method of a further table of a query."""
        names = {alias: name for name, alias in query.items}
        first, name = query.items[0][0], query.items[place][0]
        table, joins = self.tables[name], joins_of(query, place)
        for own, other, is_plain in joins:
            if is_plain and table.column(own.column).is_key and self.tables[names[other.alias]].column(other.column).target == name:
                return b"precomputed %s.%s" % other
        for own, other, _ in joins:
            index, others = table.index_on(own.column, b"TREE"), self.tables[first].index_on(other.column, b"TREE")
            if place == 1 and is_first_scanned and index and others:
                return b"tree merge %s %s" % (others, index)
        for own, _, _ in joins:
            index = table.index_on(own.column, b"TREE")
            if place == 1 and index and 2 * len(self.tables[first].rows) < len(table.rows):
                return b"tree join %s" % index
        for own, _, _ in joins:
            if index := table.index_on(own.column, b"HASH"):
                return b"hash join %s" % index
        return b"built hash %s" % joins[0][0].column if joins else b"nested loops"
