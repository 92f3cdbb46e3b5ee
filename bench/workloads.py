"""The workloads that bench/all measures, in the command language and in SQL.

One process of a system runs all phases of a Workload in order. Equal seeds generate equal lines.
"""
import functools
import random
import re
from dataclasses import dataclass

SEED = 1986
LETTERS = "abcdefghijklmnopqrstuvwxyz"
MAX_LINE_BYTES = 4096  # without the line feed
T = "TABLE t (id INT KEY, k INT, name TEXT)"
T_INDEXES = ["INDEX i ON t (k) TREE", "INDEX h ON t (k) HASH"]


@dataclass
class Phase:
    """Lines that are sent together. `name` is the work's name in figures.md, or empty if the phase is not measured."""

    lines: list
    name: str = ""
    unit: str = ""
    units: int = 0
    plan: str = ""  # words that the first line's plan must contain in mmdb


@dataclass
class Workload:
    name: str
    phases: list
    at_end: list  # queries that read the tables after all phases
    most_rows: int = 1_000_000


def long_lines(table, rows):
    """Yields INSERT lines of the maximum length."""
    line = ""
    for row in rows:
        if line and len(line) + 2 + len(row) <= MAX_LINE_BYTES:
            line += ", " + row
            continue
        if line:
            yield line
        line = f"INSERT {table} {row}"
    if line:
        yield line


def text_of(values):
    return "(" + ", ".join(map(str, values)) + ")"


@functools.cache
def rows_of_t(rows):
    """Returns rows with ascending keys, numbers below the number of rows, and texts of ten letters."""
    rng = random.Random(SEED)
    return [f"({key}, {rng.randrange(rows)}, '{''.join(rng.choices(LETTERS, k=10))}')" for key in range(1, rows + 1)]


def filled_t(rows, indexes=()):
    return Phase([T, *long_lines("t", rows_of_t(rows)), *indexes, "ANALYZE"])


def loads(rows):
    ascending = rows_of_t(rows)
    shuffled = list(ascending)
    random.Random(SEED).shuffle(shuffled)
    single = [f"INSERT t {row}" for row in ascending]
    return [
        Workload(
            "load",
            [
                Phase([T]),
                Phase(list(long_lines("t", ascending)), "load, long lines, ascending keys", "row", rows),
                Phase(["INDEX i ON t (k) TREE"], "`INDEX .. TREE` over all rows", "row", rows),
                Phase(["INDEX h ON t (k) HASH"], "`INDEX .. HASH` over all rows", "row", rows),
            ],
            ["SCAN INDEX h"],
        ),
        loaded("load shuffled", [T], long_lines("t", shuffled), "load, long lines, shuffled keys", rows),
        loaded("load indexed", [T, *T_INDEXES], long_lines("t", ascending), "load, long lines, with TREE and HASH index", rows),
        loaded("load single", [T], single, "load, one row per line", rows),
        loaded("load in one", [T], ["BEGIN", *single, "COMMIT"], "load, one row per line, in one transaction", rows),
    ]


def loaded(name, before, lines, work, rows):
    return Workload(name, [Phase(before), Phase(list(lines), work, "row", rows)], ["SCAN t"])


def questions(rows):
    rng = random.Random(SEED + 1)
    keys = [rng.randint(1, rows) for _ in range(10_000)]
    ten, hundred = ([rng.randrange(max(1, rows - width)) for _ in range(2_000)] for width in (10, 100))
    by_k = [f"SELECT a.id, a.name FROM t a WHERE a.k = {key - 1}" for key in keys]
    phases = [
        filled_t(rows, ["INDEX i ON t (k) TREE"]),
        Phase([f"SELECT a.k, a.name FROM t a WHERE a.id = {key}" for key in keys], "`SELECT` by key", "query", len(keys), "tree #key ="),
        Phase(by_k, "`SELECT` by a value, TREE", "query", len(keys), "tree i ="),
        Phase(ranges("id", keys[:2_000], 10), "range of 10 keys", "query", 2_000, "tree #key range"),
        Phase(ranges("k", ten, 10), "range of 10 values, TREE", "query", 2_000, "tree i range"),
        Phase(ranges("k", hundred, 100), "range of 100 values, TREE", "query", 2_000, "tree i range"),
        Phase(["SCAN t"], "`SCAN`", "row", rows),
        Phase(["SCAN INDEX i"], "`SCAN INDEX`", "row", rows),
        Phase(["SELECT a.id FROM t a WHERE a.name < 'b'"], "`SELECT` without an index", "row read", rows, "scan"),
        Phase(["DROP INDEX i", "INDEX h ON t (k) HASH", "ANALYZE"]),
        Phase(by_k, "`SELECT` by a value, HASH", "query", len(keys), "hash h"),
    ]
    return [Workload("questions", phases, [])]


def ranges(column, starts, width):
    return [f"SELECT a.id, a.name FROM t a WHERE a.{column} >= {start} AND a.{column} < {start + width}" for start in starts]


def joins(rows):
    rng, few = random.Random(SEED + 2), rows // 10
    v, w, u = (rng.sample(range(rows), few) for _ in range(3))
    d = [text_of(row) for row in zip(range(1, few + 1), v, w, u)]
    e = [text_of((key, rng.randint(1, few), rng.randrange(rows), rng.randrange(rows))) for key in range(1, rows + 1)]
    one = [f"SELECT a.id, b.v FROM e a, d b WHERE a.id = {rng.randint(1, rows)} AND a.d = b.id" for _ in range(5_000)]
    loops = f"SELECT a.id, b.id FROM e a, d b WHERE a.id <= 10 AND a.h < b.u - {rows - rows // 100}"
    filled = [
        "TABLE d (id INT KEY, v INT, w INT, u INT)",
        "TABLE e (id INT KEY, d INT REF d, k INT, h INT)",
        *long_lines("d", d),
        *long_lines("e", e),
        "INDEX ek ON e (k) TREE",
        "INDEX dv ON d (v) TREE",
        "INDEX dw ON d (w) HASH",
        "ANALYZE",
    ]
    every = "SELECT a.id, b.id FROM e a, d b WHERE "
    phases = [
        Phase(filled),
        Phase(one, "join of one row by a foreign key", "query", len(one), "precomputed"),
        Phase([every + "a.d = b.id"], "join by a foreign key (`precomputed`)", "outer row", rows, "precomputed"),
        Phase([every + "a.k = b.v"], "join along two trees (`tree merge`)", "outer row", rows, "tree merge"),
        Phase(["SELECT a.id, b.id FROM d a, e b WHERE a.u = b.k"], "join by a TREE index (`tree join`)", "outer row", few, "tree join"),
        Phase([every + "a.h = b.w"], "join by a HASH index (`hash join`)", "outer row", rows, "hash join"),
        Phase([every + "a.h = b.u"], "join by a hash table built for it (`built hash`)", "outer row", rows, "built hash"),
        Phase([loops], "join by `nested loops`", "pair of rows", few * 10, "nested loops"),
    ]
    return [Workload("joins", phases, [])]


def changes(rows):
    rng, number = random.Random(SEED + 3), min(rows, 20_000)
    of_k = [f"UPDATE t SET k = {rng.randrange(rows)} WHERE id = {rng.randint(1, rows)}" for _ in range(number)]
    of_name = [f"UPDATE t SET name = '{rng.randrange(10**9):010}' WHERE id = {rng.randint(1, rows)}" for _ in range(number)]
    gone = [f"DELETE t WHERE id = {key}" for key in rng.sample(range(1, rows + 1), number // 4)]
    left = rows - len(gone)
    phases = [
        filled_t(rows, T_INDEXES),
        Phase(of_k, "`UPDATE` of an indexed column, by key", "line", number),
        Phase(of_name, "`UPDATE` of another column, by key", "line", number),
        Phase(gone, "`DELETE` by key", "line", len(gone)),
        Phase(["UPDATE t SET k = k + 1"], "`UPDATE` of an indexed column, all rows", "row", left),
    ]
    all_gone = [filled_t(rows, T_INDEXES), Phase(["DELETE t"], "`DELETE` of all rows", "row", rows)]
    return [Workload("changes", phases, ["SCAN t", "SCAN INDEX i"]), Workload("all gone", all_gone, ["SCAN t"])]


class Keys:
    """The keys of a table, for drawing random changes."""

    def __init__(self, rows):
        self.there, self.next = list(range(1, rows + 1)), rows + 1

    def drawn(self, rng):
        return rng.choice(self.there)

    def taken(self, rng):
        place = rng.randrange(len(self.there))
        self.there[place], self.there[-1] = self.there[-1], self.there[place]
        return self.there.pop()

    def made(self):
        self.there.append(self.next)
        self.next += 1
        return self.next - 1


def mixed_change(rng, keys, rows):
    """Returns a random change. Of ten changes, six are an UPDATE of the indexed column, two an INSERT and two a DELETE."""
    kind = rng.random()
    if kind < 0.6:
        return f"UPDATE t SET k = {rng.randrange(rows)} WHERE id = {keys.drawn(rng)}"
    if kind < 0.8:
        return f"INSERT t ({keys.made()}, {rng.randrange(rows)}, 'abcdefghij')"
    return f"DELETE t WHERE id = {keys.taken(rng)}"


def with_savepoints(rng, keys, rows):
    """Returns a transaction with ten savepoints and ten changes after each. Rolls back every third group, and the last four groups together."""
    lines, marks = ["BEGIN"], []
    for place in range(10):
        lines.append(f"SAVEPOINT s{place}")
        marks.append(list(keys.there))
        lines += [mixed_change(rng, keys, rows) for _ in range(10)]
        back = 6 if place == 9 else place if place % 3 == 2 else None
        if back is not None:
            lines.append(f"ROLLBACK TO s{back}")
            keys.there = list(marks[back])
    return lines


def transactions(rows):
    rng, keys, number = random.Random(SEED + 4), Keys(rows), min(rows // 4, 10_000)
    before = list(keys.there)
    taken_back = [mixed_change(rng, keys, rows) for _ in range(number)]
    keys.there = before
    kept = [mixed_change(rng, keys, rows) for _ in range(number)]
    marked = []
    for which in range(10):
        at_begin = list(keys.there)
        marked += [*with_savepoints(rng, keys, rows), "COMMIT" if which % 2 else "ROLLBACK"]
        keys.there = keys.there if which % 2 else at_begin
    phases = [
        filled_t(rows, T_INDEXES),
        Phase(["BEGIN", *taken_back], "change in a transaction", "line", number),
        Phase(["ROLLBACK"], "`ROLLBACK`", "change", number),
        Phase(["BEGIN", *kept]),
        Phase(["COMMIT"], "`COMMIT`", "change", number),
        Phase(["BEGIN", "COMMIT"] * 5_000, "empty transaction", "pair of lines", 5_000),
        Phase(marked, "change between savepoints", "line", 1_000),
    ]
    return [Workload("transactions", phases, ["SCAN t", "SCAN INDEX i"])]


def cascades(rows):
    """Returns workloads with cascading deletes. Table a has a hundredth of the rows. Ten rows of b refer to each row of a, and ten rows of c
    to each row of b."""
    rng, most = random.Random(SEED + 5), rows // 100
    lines = ["TABLE a (id INT KEY)", "TABLE b (id INT KEY, r INT REF a CASCADE)", "TABLE c (id INT KEY, r INT REF b CASCADE)"]
    lines += long_lines("a", (f"({key})" for key in range(1, most + 1)))
    for name, number in (("b", most * 10), ("c", most * 100)):
        targets = list(range(1, number // 10 + 1)) * 10
        rng.shuffle(targets)
        lines += long_lines(name, map(text_of, zip(range(1, number + 1), targets)))
    lines += ["INDEX br ON b (r) HASH", "INDEX cr ON c (r) HASH", "ANALYZE"]
    half = most // 2
    singly = [f"DELETE a WHERE id = {key}" for key in rng.sample(range(1, half + 1), half)]
    phases = [
        Phase(lines),
        Phase(singly, "cascading `DELETE`, 111 rows per line", "deleted row", half * 111),
        Phase([f"DELETE a WHERE id > {half}"], "cascading `DELETE`, one line", "deleted row", (most - half) * 111),
    ]
    return [Workload("cascades", phases, ["SCAN a", "SCAN b", "SCAN c"])]


JOINED = "a.d = b.id"


def rows_of_lists(rows):
    """Returns the lines that create and fill d and e. Table d has a tenth of the rows, and e refers to d."""
    rng, few = random.Random(SEED + 6), rows // 10
    return [
        "TABLE d (id INT KEY, v INT)",
        "TABLE e (id INT KEY, d INT REF d, k INT)",
        *long_lines("d", (text_of((key, rng.randrange(100))) for key in range(1, few + 1))),
        *long_lines("e", (text_of((key, rng.randint(1, few), rng.randrange(rows))) for key in range(1, rows + 1))),
        "INDEX ed ON e (d) HASH",
        "INDEX ek ON e (k) TREE",
        "ANALYZE",
    ]


def changes_of_lists(rows, number):
    """Returns random changes. Of 20, twelve are an UPDATE in e, three an INSERT, three a DELETE, and two an UPDATE in d. About 100 of
    `number` changes draw a k below 100."""
    rng, few, keys = random.Random(SEED + 7), rows // 10, Keys(rows)
    near = min(0.2, 100 / number)
    lines = []
    for _ in range(number):
        k = rng.randrange(100) if rng.random() < near else rng.randrange(100, rows)
        kind = rng.random()
        if kind < 0.6:
            lines.append(f"UPDATE e SET k = {k} WHERE id = {keys.drawn(rng)}")
        elif kind < 0.75:
            lines.append(f"INSERT e ({keys.made()}, {rng.randint(1, few)}, {k})")
        elif kind < 0.9:
            lines.append(f"DELETE e WHERE id = {keys.taken(rng)}")
        else:
            lines.append(f"UPDATE d SET v = {rng.randrange(100)} WHERE id = {rng.randint(1, few)}")
    return lines


def each_followed(lines, follower):
    return [line for one in lines for line in (one, follower)]


def standing_queries(rows):
    many, some = changes_of_lists(rows, min(rows // 2, 5_000)), changes_of_lists(rows, min(rows // 2, 1_000))
    e_with_d, d_with_e = "SELECT a.id, b.v FROM e a, d b WHERE ", "SELECT a.id, b.v FROM d b, e a WHERE "
    ranged, compared, narrow = f"a.k < 50 AND {JOINED}", f"{JOINED} AND a.k < b.v", "b.v < 3 AND a.k < b.v"

    def filled():
        return Phase(rows_of_lists(rows))

    def watched(name, query, *phases, most_rows=1_000_000):
        watch = f"WATCH q {query}"
        first = Phase([watch], "`WATCH` of a join of all rows", "row of the list", rows) if name == "big" else Phase([watch])
        return Workload(name, [filled(), first, *phases], ["SHOW q"], most_rows)

    by_range, by_both = "change and `SHOW`, 50 rows by a range", "change and `SHOW`, 50 rows by both tables"
    shown = Phase(["SHOW q"], "`SHOW` of the standing join", "row", rows)
    asked_again = Phase(each_followed(some[:20], e_with_d + compared), "change and the `SELECT` for 50 rows by both tables", "pair of lines", 20)
    return [
        Workload("none", [filled(), Phase(many, "change without a standing query", "line", len(many))], ["SCAN e"]),
        watched("big", e_with_d + JOINED, Phase(many, "change under a standing join", "line", len(many)), shown),
        watched("range", e_with_d + ranged, Phase(each_followed(some, "SHOW q"), by_range, "pair of lines", len(some))),
        watched("compared", e_with_d + compared, Phase(each_followed(some, "SHOW q"), by_both, "pair of lines", len(some))),
        Workload("again", [filled(), asked_again], ["SCAN e"]),
        watched("narrow", d_with_e + narrow, Phase(some, "change under a standing query without an equality", "line", len(some)), most_rows=100_000),
    ]


GROUPS = [
    ("Loading", loads),
    ("Queries", questions),
    ("Joins", joins),
    ("Changes", changes),
    ("Transactions", transactions),
    ("Cascades", cascades),
    ("Standing queries", standing_queries),
]


# Tables whose memory is measured: the columns after the key, and the indexes on the first of them.
SHAPES = [
    ("", ""),
    ("INT", ""),
    ("INT", "TREE"),
    ("INT", "HASH"),
    ("INT", "TREE, HASH"),
    ("TEXT", ""),
    ("TEXT", "TREE"),
    ("INT, TEXT", ""),
    ("INT, TEXT", "TREE"),
    ("INT, TEXT", "TREE, HASH"),
    (", ".join(["INT"] * 7), ""),
]


def shaped(columns, indexes, rows):
    """Returns the lines that create a table of this shape, and its rows: ascending keys, numbers below the number of rows, texts of ten
    letters."""
    rng = random.Random(SEED + 10)
    types = columns.split(", ") if columns else []
    values = {"INT": lambda: str(rng.randrange(rows)), "TEXT": lambda: f"'{''.join(rng.choices(LETTERS, k=10))}'"}
    named = "".join(f", c{place} {name}" for place, name in enumerate(types))
    made = [f"TABLE s (id INT KEY{named})", *(f"INDEX {kind.lower()} ON s (c0) {kind}" for kind in indexes.split(", ") if kind)]
    return made, [f"({', '.join([str(key), *(values[name]() for name in types)])})" for key in range(1, rows + 1)]


def shown(columns):
    """Returns the name of the columns with the key for figures.md."""
    types = ["INT", *(columns.split(", ") if columns else [])]
    return f"({', '.join(types)})" if len(types) < 5 else f"{len(types)} columns of {types[0]}"


def kept(rows):
    """Returns works that retain memory: the work, its unit, its number of units, the lines before the work, and its lines.

    The lines before the work include some rows or a change, so that one-time costs, such as pages of code, do not count.
    """
    few = 300
    t, wide = [T, *T_INDEXES], rows_of_t(rows)
    rng = random.Random(SEED + 9)
    changed = [f"UPDATE t SET k = {rng.randrange(rows)} WHERE id = {key}" for key in rng.sample(range(1, rows + 1), rows)]
    # Indexes come before rows, since building an index over rows allocates temporary memory.
    lists = sorted(in_mmdb(rows_of_lists(rows)), key=lambda line: ["TABLE", "INDEX", "INSERT"].index(line.split()[0]))
    watch = f"WATCH q SELECT a.id, b.v FROM e a, d b WHERE {JOINED}"

    def filled(name, rows):
        return list(long_lines(name, rows))

    def weighed(columns, indexes):
        made, own = shaped(columns, indexes, rows)
        kind = shown(columns) + (f", {indexes.replace(', ', ' and ')}" if indexes else "")
        return (kind, "row", rows - few, [*made, *filled("s", own[:few])], filled("s", own[few:]))

    return [
        *(weighed(columns, indexes) for columns, indexes in SHAPES),
        ("`UPDATE` of an indexed column, in an open transaction", "change", rows - 1, [*t, *filled("t", wide), "BEGIN", changed[0]], changed[1:]),
        ("standing query with two numbers per row", "row of the list", rows, lists, [watch]),
    ]


def operations(rows, lines):
    """Returns the operations: a name, the lines that fill the tables, and the lines of the operation.

    t has a TREE and a HASH index on k. e refers to d, which has a tenth of the rows.
    """
    rng = random.Random(SEED + 8)

    def some():
        return rng.randint(1, rows)

    t, e = [T, *T_INDEXES, *long_lines("t", rows_of_t(rows))], rows_of_lists(rows)
    of_k = [f"UPDATE t SET k = {some()} WHERE id = {some()}" for _ in range(lines)]
    list_of_all = f"WATCH q SELECT a.id, b.v FROM e a, d b WHERE {JOINED}"
    list_of_e = f"WATCH q SELECT a.id, b.v FROM e a, d b WHERE {JOINED} AND a.k < {rows // 100}"
    return [
        ("refused `SELECT`", t, ["SELECT a.k FROM nope a WHERE a.id = 1"] * lines),
        ("`SELECT` by key", t, [f"SELECT a.k, a.name FROM t a WHERE a.id = {some()}" for _ in range(lines)]),
        ("`SELECT` by a value, HASH", t, [f"SELECT a.id, a.name FROM t a WHERE a.k = {some()}" for _ in range(lines)]),
        ("`SELECT` of a range of ten, TREE", t, ranges("k", [some() for _ in range(lines)], 10)),
        ("`SELECT` along a foreign key", e, [f"SELECT a.k, b.v FROM e a, d b WHERE a.id = {some()} AND {JOINED}" for _ in range(lines)]),
        ("`INSERT`, three indexes", t, [f"INSERT t ({rows + place}, {some()}, 'abcdefghij')" for place in range(1, lines + 1)]),
        ("`UPDATE` of an indexed column", t, of_k),
        ("`UPDATE` of another column", t, [f"UPDATE t SET name = 'klmnopqrst' WHERE id = {some()}" for _ in range(lines)]),
        ("`DELETE` of one row", t, [f"DELETE t WHERE id = {key}" for key in rng.sample(range(1, rows + 1), lines)]),
        ("`DELETE` of no row", t, ["DELETE t WHERE id = -1"] * lines),
        ("change in a transaction, and its `ROLLBACK`", t, ["BEGIN", *of_k, "ROLLBACK"]),
        ("change of a table with a standing query", [*e, list_of_e], [f"UPDATE e SET k = {some()} WHERE id = {some()}" for _ in range(lines)]),
        ("`SHOW` of about ten rows of a list that had all", [*e, list_of_all, "DELETE e WHERE k >= 10"], ["SHOW q"] * lines),
    ]


# ---- the same work in SQL

LIST = "shown"
CHOSEN = f"INSERT INTO {LIST} SELECT a.id, b.id, b.v FROM e a, d b WHERE {{tests}}"
FORGOTTEN = f"DELETE FROM {LIST} WHERE"
TRIGGERS = f"""
CREATE TABLE {LIST} (e INTEGER {{key}}, d INTEGER NOT NULL, v INTEGER NOT NULL)
CREATE INDEX {LIST}_d ON {LIST} (d)
{{more}}
{CHOSEN}
CREATE TRIGGER e_comes AFTER INSERT ON e BEGIN {CHOSEN} AND a.id = NEW.id; END
CREATE TRIGGER e_goes AFTER DELETE ON e BEGIN {FORGOTTEN} e = OLD.id; END
CREATE TRIGGER e_changes AFTER UPDATE ON e BEGIN {FORGOTTEN} e = OLD.id; {CHOSEN} AND a.id = NEW.id; END
CREATE TRIGGER d_changes AFTER UPDATE ON d BEGIN {FORGOTTEN} d = OLD.id; {CHOSEN} AND b.id = NEW.id; END
"""


def in_sql(lines, columns):
    """Yields lines as statements of SQLite. A standing query over e and d becomes a table that triggers maintain. ANALYZE is unchanged.

    `columns` maps each index to its table and column. These lines' indexes are added to it.
    """
    for line in lines:
        word = line.split(" ", 1)[0]
        index = re.fullmatch(r"INDEX (\w+) ON (\w+) \((\w+)\) \w+", line)
        if index:
            columns[index[1]] = index[2], index[3]
        yield from IN_SQL.get(word, lambda line, _: [line])(line, columns)


def table_in_sql(line, _):
    name, columns = re.fullmatch(r"TABLE (\w+) \((.*)\)", line).groups()
    described = []
    for column in columns.split(", "):
        column = column.replace(" INT", " INTEGER")
        if column.endswith(" KEY"):
            described.append(column.replace(" KEY", " PRIMARY KEY"))
        else:
            described.append(re.sub(r" REF (\w+)", r" REFERENCES \1 (id)", column).replace(" CASCADE", " ON DELETE CASCADE") + " NOT NULL")
    return [f"CREATE TABLE {name} ({', '.join(described)})"]


def scan_in_sql(line, columns):
    words = line.split()
    table, column = columns[words[2]] if words[1] == "INDEX" else (words[1], None)
    return [f"SELECT * FROM {table} ORDER BY " + (f"{column}, id" if column else "id")]


def watch_in_sql(line, _):
    tests = line.split(" WHERE ", 1)[1]
    # A join with the row that it refers to contains a row of e at most once.
    key, more = ("PRIMARY KEY", "") if JOINED in tests else ("NOT NULL", f"CREATE INDEX {LIST}_e ON {LIST} (e)")
    return [statement for statement in TRIGGERS.format(tests=tests, key=key, more=more).split("\n") if statement]


IN_SQL = {
    "TABLE": table_in_sql,
    "INDEX": lambda line, _: ["CREATE " + re.sub(r" (TREE|HASH)$", "", line)],
    "INSERT": lambda line, _: [re.sub(r"^INSERT (\w+) ", r"INSERT INTO \1 VALUES ", line)],
    "DELETE": lambda line, _: ["DELETE FROM " + line.removeprefix("DELETE ")],
    "SCAN": scan_in_sql,
    "WATCH": watch_in_sql,
    "SHOW": lambda line, _: [f"SELECT e, v FROM {LIST} ORDER BY e, v"],
}


def in_mmdb(lines):
    """Returns the lines without those for SQLite only."""
    return [line for line in lines if line != "ANALYZE"]
