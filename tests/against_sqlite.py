#!/usr/bin/env python3
"""Runs random scripts through the program and through SQLite, and compares rows and counts.

    tests/against_sqlite.py [PROGRAM [FIRST_SEED [SEEDS]]]

Each seed creates tables with integers, texts, foreign keys and cascading foreign keys, and indexes of both kinds. The seed changes rows and
runs queries over one to four tables. Some queries become standing queries. SHOW, after a change or later, is compared with SQLite's result
of the query at that time. Transactions commit, roll back, or roll back to a savepoint, and several savepoints may have the same name. After
that, all tables and indexes are scanned, and all standing queries are shown.

The compared commands have the same meaning in both languages: no sum exceeds 64 bits, and each result is sorted by all its columns. The
script itself predicts the replies to TABLES and the refusals of definitions and transactions. The script also tracks indexes, since
transactions create and drop them and no rollback restores them. SQLite has no indexes here, and sorts its rows. The exit status is 0 if
every reply is as expected.
"""

import os
import random
import sqlite3
import subprocess
import sys

TABLES = 4
COMMANDS = 50
OPERATORS = ["=", "=", "=", "<", "<=", ">", ">="]
LETTERS = ["a", "b", "'", " ", "\u00e9"]


def text(rng):
    return "".join(rng.choice(LETTERS) for _ in range(rng.choice([0, 1, 1, 1, 2, 20])))


def quoted(value):
    return str(value) if isinstance(value, int) else "'" + value.replace("'", "''") + "'"


def shown(rows):
    """Returns the reply with these rows."""
    lines = ["(" + ", ".join(quoted(value) for value in row) + ")\n" for row in rows]
    return "".join(lines) + f"rows {len(rows)}\n"


class Column:
    def __init__(self, name, kind, target=None, cascades=False):
        self.name, self.kind, self.target, self.cascades = name, kind, target, cascades

    def role(self):
        """Returns the foreign key of the column in the program's language, or nothing if there is none."""
        return f" REF {self.target.name}" + (" CASCADE" if self.cascades else "") if self.target else ""

    def constraint(self):
        """Returns the foreign key of the column in SQL. Without CASCADE, SQLite checks the key at the end of the statement."""
        if not self.target:
            return ""
        key = self.target.columns[self.target.key].name
        return f" REFERENCES {self.target.name}({key})" + (" ON DELETE CASCADE" if self.cascades else "")


class Table:
    """A table's declaration and the keys of its rows."""

    def __init__(self, name, columns, key):
        self.name, self.columns, self.key = name, columns, key
        self.keys = []

    def refers_to(self, other):
        return any(column.target is other for column in self.columns)

    def told(self):
        """Returns the line that creates the table."""
        roles = [" KEY" if place == self.key else column.role() for place, column in enumerate(self.columns)]
        return f"TABLE {self.name} (" + ", ".join(f"{c.name} {c.kind}{role}" for c, role in zip(self.columns, roles)) + ")"

    def column(self, rng, kind=None):
        fitting = [c for c in self.columns if kind in (None, c.kind)]
        return rng.choice(fitting) if fitting else None


class Index:
    """An index's declaration."""

    def __init__(self, name, table, column, kind):
        self.name, self.table, self.column, self.kind = name, table, column, kind

    def told(self):
        """Returns the line that creates the index."""
        return f"INDEX {self.name} ON {self.table.name} ({self.column.name}) {self.kind}"


class Query:
    """A query over some tables, in both languages."""

    def __init__(self, tables, ours, theirs):
        self.tables, self.ours, self.theirs = tables, ours, theirs


class Script:
    """The lines of one seed, and the expected reply to each."""

    def __init__(self, seed):
        self.rng = random.Random(seed)
        self.peer = sqlite3.connect(":memory:", isolation_level=None)
        self.peer.execute("PRAGMA foreign_keys = ON")
        self.lines, self.replies, self.tables, self.indexes = [], [], [], []
        self.standing = {}
        self.made = 0
        self.savepoints = []
        for _ in range(TABLES):
            self.add_table()
        for _ in range(self.rng.randrange(6)):
            self.add_index()
        for _ in range(self.rng.randrange(4)):
            self.watch()
        changes = [*[self.insert] * 4, *[self.update] * 4, *[self.move] * 4, *[self.delete] * 5]
        others = [self.add_index, self.drop_index, self.scan, self.tell, self.drop_table, self.watch, self.watch, self.unwatch]
        others += [*[self.control] * 4, *[self.divide] * 6]
        for _ in range(COMMANDS):
            self.rng.choice([*changes, *others, *[self.show] * 4, *[self.select] * 10])()
        self.show_all()
        self.tell()

    def say(self, line, reply):
        self.lines.append(line)
        self.replies.append(reply)

    def value(self, kind):
        return self.rng.randrange(-2, 6) if kind == "INT" else text(self.rng)

    def new_name(self, letter):
        self.made += 1
        return f"{letter}{self.made}"

    def add_table(self):
        rng = self.rng
        columns = [Column("k", rng.choice(["INT", "INT", "TEXT"]))]
        for number in range(rng.randrange(1, 4)):
            target = rng.choice([None, None, *self.tables]) if self.tables else None
            kind = target.columns[target.key].kind if target else rng.choice(["INT", "TEXT", "INT"])
            columns.append(Column(f"c{number}", kind, target, rng.random() < 0.6))
        key = columns[0]
        rng.shuffle(columns)
        table = Table(self.new_name("t"), columns, columns.index(key))
        self.tables.append(table)
        theirs = [f"{column.name} {column.kind}" + (" PRIMARY KEY" if column is key else column.constraint()) for column in columns]
        self.peer.execute(f"CREATE TABLE {table.name} ({', '.join(theirs)})")
        self.say(table.told(), "ok\n")
        for _ in range(rng.choice([0, 1, 2, 2, 3])):
            self.insert(table)

    def add_index(self):
        table = self.rng.choice(self.tables)
        index = Index(self.new_name("i"), table, table.column(self.rng), self.rng.choice(["TREE", "HASH"]))
        if sum(other.table is table for other in self.indexes) == 16:
            self.say(index.told(), "error 48 too many\n")
            return
        self.say(index.told(), "ok\n")
        self.indexes.append(index)

    def drop_index(self):
        if self.indexes and self.rng.random() < 0.8:
            index = self.rng.choice(self.indexes)
            self.say(f"DROP INDEX {index.name}", "ok\n")
            self.indexes.remove(index)
        else:
            self.say("DROP INDEX nope", "error 22 no such index\n")

    def define(self, line, refusal=None):
        """Adds a definition, but not of an index. Returns whether the definition succeeds: it fails in a transaction, or with `refusal`."""
        refusal = "52 not in a transaction" if self.peer.in_transaction else refusal
        self.say(line, f"error {refusal}\n" if refusal else "ok\n")
        return not refusal

    def drop_table(self):
        """Drops a table without references and standing queries, and adds a new one."""
        table = self.rng.choice(self.tables)
        is_read = any(table in query.tables for query in self.standing.values())
        in_use = is_read or any(other.refers_to(table) for other in self.tables)
        if self.define(f"DROP TABLE {table.name}", "43 in use" if in_use else None):
            self.peer.execute(f"DROP TABLE {table.name}")
            self.tables.remove(table)
            self.indexes = [index for index in self.indexes if index.table is not table]
            self.add_table()

    def insert(self, table=None):
        rng, table = self.rng, table or self.rng.choice(self.tables)
        rows = []
        for _ in range(rng.randrange(1, 5)):
            row = []
            for place, column in enumerate(table.columns):
                if column.target:
                    if not column.target.keys:
                        return
                    row.append(rng.choice(column.target.keys))
                else:
                    row.append(rng.randrange(-2, 20) if place == table.key and column.kind == "INT" else self.value(column.kind))
            if row[table.key] in table.keys or row[table.key] in [other[table.key] for other in rows]:
                continue
            rows.append(row)
        if not rows:
            return
        for row in rows:
            self.peer.execute(f"INSERT INTO {table.name} VALUES ({', '.join('?' * len(row))})", row)
            table.keys.append(row[table.key])
        tuples = ", ".join("(" + ", ".join(quoted(value) for value in row) + ")" for row in rows)
        self.say(f"INSERT {table.name} {tuples}", f"ok {len(rows)}\n")
        self.show_some(table)

    def tests(self, table):
        """Returns a WHERE over one table with at most two tests."""
        found = []
        for _ in range(self.rng.choice([0, 1, 1, 2])):
            left = table.column(self.rng)
            found.append(f"{left.name} {self.rng.choice(OPERATORS)} " + self.operand(table, left.kind, ""))
        return " WHERE " + " AND ".join(found) if found else ""

    def operand(self, table, kind, prefix):
        right = table.column(self.rng, kind) if self.rng.random() < 0.4 else None
        if right is None:
            return quoted(self.value(kind))
        return prefix + right.name + (self.shift() if kind == "INT" else "")

    def shift(self):
        return self.rng.choice(["", "", " + 1", " - 2", " + 0", "-1"])

    def update(self):
        rng, table = self.rng, self.rng.choice(self.tables)
        free = [c for place, c in enumerate(table.columns) if place != table.key and not c.target]
        if not free:
            return
        column = rng.choice(free)
        change = f"{column.name} = {self.operand(table, column.kind, '')}" + self.tests(table)
        count = self.peer.execute(f"UPDATE {table.name} SET {change}").rowcount
        self.say(f"UPDATE {table.name} SET {change}", f"ok {count}\n")
        self.show_some(table)

    def move(self):
        """Changes the key and the foreign keys of an unreferenced row."""
        rng, table = self.rng, self.rng.choice(self.tables)
        key = table.columns[table.key]
        others = [value for value in (rng.randrange(-2, 20) if key.kind == "INT" else text(rng) for _ in range(3)) if value not in table.keys]
        if not table.keys or not others or any(other.refers_to(table) for other in self.tables):
            return
        old = rng.choice(table.keys)
        values = [(key.name, others[0])] + [(c.name, rng.choice(c.target.keys)) for c in table.columns if c.target]
        change = ", ".join(f"{name} = {quoted(value)}" for name, value in values) + f" WHERE {key.name} = {quoted(old)}"
        self.peer.execute(f"UPDATE {table.name} SET {change}")
        table.keys[table.keys.index(old)] = others[0]
        self.say(f"UPDATE {table.name} SET {change}", "ok 1\n")
        self.show_some(table)

    def delete(self):
        """Deletes rows of a table, with cascades. Deletes none if a remaining row refers to a deleted one."""
        rng = self.rng
        referred = [table for table in self.tables if any(other.refers_to(table) for other in self.tables)]
        table = rng.choice(referred if referred and rng.random() < 0.6 else self.tables)
        if rng.random() < 0.3:
            return
        tests = self.tests(table)
        try:
            reply = f"ok {self.peer.execute(f'DELETE FROM {table.name}{tests}').rowcount}\n"
        except sqlite3.IntegrityError:
            reply = "error 42 row is referenced\n"
        self.say(f"DELETE {table.name}{tests}", reply)
        for changed in self.tables:
            self.read_keys(changed)
            self.show_some(changed)

    def control(self):
        """Adds BEGIN, COMMIT or ROLLBACK, mostly a command that is valid now."""
        is_open = self.peer.in_transaction
        word = self.rng.choice(["BEGIN", "COMMIT", "COMMIT", "ROLLBACK", "ROLLBACK"] if is_open else ["BEGIN"] * 6 + ["COMMIT", "ROLLBACK"])
        if (word == "BEGIN") == is_open:
            self.say(word, "error 50 transaction open\n" if is_open else "error 51 no transaction\n")
            return
        self.peer.execute(word)
        self.say(word, "ok\n")
        self.savepoints = []
        if word != "BEGIN":
            self.look_at_all()

    def divide(self):
        """Adds SAVEPOINT or ROLLBACK TO; outside a transaction mostly BEGIN."""
        if not self.peer.in_transaction and self.rng.random() < 0.8:
            self.control()
        elif self.rng.random() < (0.4 if self.savepoints else 0.8):
            self.savepoint()
        else:
            self.roll_back_to()

    def savepoint(self):
        """Adds a savepoint, mostly with a new name. The command is refused outside a transaction, and if there are 64 savepoints."""
        name = self.rng.choice(self.savepoints) if self.savepoints and self.rng.random() < 0.3 else self.new_name("s")
        if not self.peer.in_transaction or len(self.savepoints) == 64:
            self.say(f"SAVEPOINT {name}", "error 48 too many\n" if self.peer.in_transaction else "error 51 no transaction\n")
            return
        self.peer.execute(f"SAVEPOINT {name}")
        self.say(f"SAVEPOINT {name}", "ok\n")
        self.savepoints.append(name)

    def roll_back_to(self):
        """Adds ROLLBACK TO the latest savepoint with a name, which is refused if there is none."""
        name = self.rng.choice(self.savepoints) if self.savepoints and self.rng.random() < 0.9 else "nope"
        if name not in self.savepoints:
            self.say(f"ROLLBACK TO {name}", "error 53 no such savepoint\n" if self.peer.in_transaction else "error 51 no transaction\n")
            return
        self.peer.execute(f"ROLLBACK TO {name}")
        self.say(f"ROLLBACK TO {name}", "ok\n")
        while self.savepoints[-1] != name:
            self.savepoints.pop()
        self.look_at_all()

    def look_at_all(self):
        """Reads all rows in all ways, after a transaction has ended or has been partly rolled back."""
        for table in self.tables:
            self.read_keys(table)
        self.scan_all()
        self.show_all()

    def read_keys(self, table):
        table.keys = [row[0] for row in self.peer.execute(f"SELECT {table.columns[table.key].name} FROM {table.name}")]

    def scan(self):
        """Scans a table in key order, or in the order of an index."""
        if self.indexes and self.rng.random() < 0.7:
            self.scan_index(self.rng.choice(self.indexes))
        else:
            self.scan_table(self.rng.choice(self.tables))

    def scan_all(self):
        for table in self.tables:
            self.scan_table(table)
        for index in self.indexes:
            self.scan_index(index)

    def scan_table(self, table):
        self.ask(f"SCAN {table.name}", table, [table.columns[table.key].name])

    def scan_index(self, index):
        table = index.table
        self.ask(f"SCAN INDEX {index.name}", table, [index.column.name, table.columns[table.key].name])

    def ask(self, line, table, order):
        """Adds a line whose reply is the rows of a table, sorted by these columns."""
        self.say(line, shown(self.peer.execute(f"SELECT * FROM {table.name} ORDER BY {', '.join(order)}").fetchall()))

    def atom(self, items):
        rng = self.rng
        alias, table = rng.choice(items)
        left = table.column(rng)
        if left.target and rng.random() < 0.5:
            others = [(a, t) for a, t in items if t is left.target]
            if others:
                other, target = rng.choice(others)
                sides = [f"{alias}.{left.name}", f"{other}.{target.columns[target.key].name}"]
                rng.shuffle(sides)
                return " = ".join(sides)
        other, right = rng.choice(items)
        return f"{alias}.{left.name} {rng.choice(OPERATORS)} " + self.operand(right, left.kind, other + ".")

    def query(self):
        """Returns a query over one to four tables. A table may occur several times."""
        rng = self.rng
        items = [(f"a{place}", rng.choice(self.tables)) for place in range(rng.choice([1, 1, 2, 2, 2, 3, 4]))]
        if rng.random() < 0.2:
            items = [(alias, items[0][1]) for alias, _ in items]
        fields = []
        for _ in range(rng.randrange(1, 4)):
            alias, table = rng.choice(items)
            fields.append(f"{alias}.{table.column(rng).name}")
        atoms = [self.atom(items) for _ in range(rng.randrange(0, len(items) + 1))]
        order = [rng.randrange(1, len(fields) + 1) for _ in range(rng.randrange(0, 3))]
        query = "SELECT " + ("DISTINCT " if rng.random() < 0.3 else "") + ", ".join(fields)
        query += " FROM " + ", ".join(f"{table.name} {alias}" for alias, table in items)
        query += " WHERE " + " AND ".join(atoms) if atoms else ""
        by = [str(place) for place in [*order, *range(1, len(fields) + 1)]]
        ours = query + (" ORDER " + ", ".join(map(str, order)) if order else "")
        return Query([table for _, table in items], ours, f"{query} ORDER BY {', '.join(by)}")

    def rows_of(self, query):
        return self.peer.execute(query.theirs).fetchall()

    def select(self):
        query = self.query()
        if len(query.ours.encode()) <= 4096:
            self.say(query.ours, shown(self.rows_of(query)))

    def watch(self):
        """Creates a standing query. At most 32 are allowed; a taken name is refused first."""
        query, is_full = self.query(), len(self.standing) == 32
        is_taken = self.standing and self.rng.random() < 0.1
        name = self.rng.choice(list(self.standing)) if is_taken else self.new_name("w")
        line = f"WATCH {name} {query.ours}"
        if len(line.encode()) > 4096:
            return
        if self.define(line, "24 name taken" if is_taken else "48 too many" if is_full else None):
            self.standing[name] = query

    def unwatch(self):
        if self.standing and self.rng.random() < 0.8:
            name = self.rng.choice(list(self.standing))
            if self.define(f"UNWATCH {name}"):
                del self.standing[name]
        else:
            self.define("UNWATCH nope", "23 no such standing query")

    def show(self):
        if self.standing:
            self.show_one(self.rng.choice(list(self.standing)))
        else:
            self.say("SHOW nope", "error 23 no such standing query\n")

    def show_some(self, table):
        """Shows some of the standing queries over a changed table."""
        for name, query in self.standing.items():
            if table in query.tables and self.rng.random() < 0.6:
                self.show_one(name)

    def show_all(self):
        for name in self.standing:
            self.show_one(name)

    def show_one(self, name):
        self.say(f"SHOW {name}", shown(self.rows_of(self.standing[name])))

    def tell(self):
        """Adds TABLES and its reply."""
        told = ""
        for table in self.tables:
            told += f"{table.told()} rows {len(table.keys)}\n"
            told += "".join(index.told() + "\n" for index in self.indexes if index.table is table)
        for name, query in self.standing.items():
            told += f"WATCH {name} rows {len(self.rows_of(query))}\n"
        self.say("TABLES", told + f"tables {len(self.tables)}\n")


def differs(program, seed):
    """Returns whether a reply to the script of a seed differs from the expected one. Prints the first such line."""
    script = Script(seed)
    ran = subprocess.run([program], input="".join(line + "\n" for line in script.lines).encode(), stdout=subprocess.PIPE, check=False)
    rest = ran.stdout
    for line, reply in zip(script.lines, script.replies):
        wanted = reply.encode()
        if not rest.startswith(wanted):
            print(f"failed: seed {seed}: {line}\nexpected:\n{reply}actual:\n{rest[: len(wanted) + 80].decode(errors='replace')}")
            return True
        rest = rest[len(wanted) :]
    if rest or ran.returncode:
        print(f"failed: seed {seed}: output after the last reply, or exit status {ran.returncode}")
        return True
    return False


def main():
    top = os.path.dirname(os.path.dirname(os.path.abspath(__file__)))
    program = os.path.abspath(sys.argv[1]) if len(sys.argv) > 1 else f"{top}/crates/mmdb/out/mmdb"
    first = int(sys.argv[2]) if len(sys.argv) > 2 else 1
    seeds = int(sys.argv[3]) if len(sys.argv) > 3 else 200
    failed = sum(differs(program, seed) for seed in range(first, first + seeds))
    print(f"{seeds - failed} passed, {failed} failed")
    return 1 if failed else 0


if __name__ == "__main__":
    sys.exit(main())
