#!/usr/bin/env python3
"""Runs random scripts by kept templates and without them, and compares the replies.

    tests/templates.py [PROGRAM [FIRST_SEED [SEEDS]]]

The program keeps the template of a SELECT, an INSERT, an UPDATE or a DELETE that occurs more than once with other literals, and runs its
bound form.

Each seed produces a script that repeats some forms with other literals. Numbers are small, negative or very large, have leading zeros, or
exceed the limit. Texts contain quotes, question marks and minus signs, have the maximum length, or are longer. Some values have the wrong
type. In between, the script creates and drops indexes, standing queries and a table whose columns change. Transactions commit, roll back,
and roll back to savepoints. Some seeds have many more forms than the program keeps.

Each script runs three times: unchanged, with different blanks at the end of each line, and with many blanks at the end of each line. With
different blanks, no template occurs twice. With many blanks, each line is too long for a kept template. All replies must be those of
tests/language.py. The exit status is 0 if they are.
"""

import multiprocessing
import os
import random
import re
import sys

sys.dont_write_bytecode = True
import hostile  # noqa: E402

SEEDS = 40
BURSTS = 400
BLANKS_THAT_DIFFER = 14
LENGTH_BEYOND_TEMPLATES = 513

TABLES = b"""
TABLE t (id INT KEY, k INT, s TEXT)
TABLE u (id INT KEY, r INT REF t, x INT)
TABLE c (id INT KEY, r INT REF u CASCADE)
TABLE w (s TEXT KEY, n INT)
INDEX i ON t (k) TREE
INDEX h ON u (r) HASH
INDEX g ON t (s) HASH
INSERT t (1, 5, 'a'), (2, -7, 'it''s'), (3, 5, ''), (4, 0, '?'), (5, -1, '--'), (6, 9, 'a')
INSERT u (1, 1, 5), (2, 3, 0), (3, 3, -1), (4, 2, 9)
INSERT c (1, 1), (2, 1), (3, 4)
INSERT w ('a', 1), ('it''s', 2), ('?', -3)
"""

# The forms of lines. A literal number replaces each #, and a literal text each $.
QUERIES = b"""
SELECT a.k FROM t a WHERE a.id = #
SELECT a.k, a.s FROM t a WHERE a.id = # AND a.s >= $
SELECT a.id FROM t a WHERE a.k >= # AND a.k < #
SELECT a.id, a.k FROM t a WHERE a.k>=#
SELECT a.id FROM t a WHERE a.k<# AND a.id<=# ORDER 1
SELECT a.id FROM t a WHERE a.s = $
SELECT a.id FROM t a WHERE a.s > $ AND a.s <= $
SELECT DISTINCT a.k FROM t a WHERE a.k > # ORDER 1
SELECT a.k, a.s FROM t a WHERE a.id < # ORDER 2, 1
SELECT a.k, a.s FROM t a WHERE a.id < # ORDER 3
SELECT\ta.k\tFROM\tt\ta\tWHERE\ta.id\t=\t#
SELECT a.n FROM w a WHERE a.s = $
SELECT a.s FROM w a WHERE a.n < # AND a.s <= $
SELECT a.id, b.id FROM t a, u b WHERE a.id = b.r AND b.x = #
SELECT a.id, b.id FROM t a, u b WHERE a.id = b.r AND a.s = $ AND b.x > #
SELECT a.id FROM t a, u b WHERE b.r = a.id AND a.k <= b.x + #
SELECT a.id FROM t a, u b WHERE b.r = a.id AND a.k <= b.x-#
SELECT a.id FROM t a, u b WHERE b.r = a.id AND a.k = b.x - # AND b.id = #
SELECT a.id FROM t a, u b, c d WHERE b.r = a.id AND d.r = b.id AND d.id > #
SELECT a.id FROM t a WHERE a.k = a.id + #
SELECT a.id FROM t a WHERE a.k < a.id -#
SELECT a.id FROM t a WHERE a.k = a.s AND a.id = #
SELECT a.k FROM zz a WHERE a.id = #
SELECT a.zz FROM t a WHERE a.id = #
SELECT a.id FROM v a WHERE a.k = #
SELECT a.k FROM v a WHERE a.id = #
SELECT a.k FROM v a WHERE a.id = $
SELECT a.id, b.k FROM v a, t b WHERE a.id = b.id AND b.k = #
SELECT a.id FROM t a WHERE a.id > # AND a.id > # AND a.id > # AND a.id > # AND a.id > # AND a.id > # AND a.id > # AND a.s >= $
SELECT a.id FROM t a WHERE a.s = $ AND
SELECT a.id FROM t a WHERE a.s = # ORDER 1 1
SELECT a.id FROM t a WHERE a.id = ?
"""
CHANGES = b"""
UPDATE t SET k = # WHERE id = #
UPDATE t SET k=# WHERE id=#
UPDATE t SET k = k + # WHERE id = #
UPDATE t SET k = k - #, s = $ WHERE k > #
UPDATE t SET k = k-# WHERE id > #
UPDATE t SET s = $ WHERE s = $
UPDATE t SET s = $, k = # WHERE id >= # AND id < #
UPDATE t SET id = # WHERE id = #
UPDATE t SET id = id + # WHERE id = #
UPDATE t SET k = #
UPDATE u SET r = # WHERE id = #
UPDATE u SET x = x + # WHERE r = #
UPDATE w SET n = # WHERE s = $
UPDATE w SET s = $ WHERE n = #
UPDATE v SET k = # WHERE id = #
UPDATE v SET k = # WHERE id = $
DELETE t WHERE id = #
DELETE t WHERE k = # AND s < $
DELETE u WHERE id = #
DELETE u WHERE x > # AND id > #
DELETE c WHERE id = #
DELETE w WHERE s = $
DELETE v WHERE id = #
DELETE v WHERE id = $
"""
INSERTS = b"""
INSERT t (#, #, $)
INSERT u (#, #, #)
INSERT c (#, #)
INSERT w ($, #)
INSERT v (#, #)
INSERT v ($, #)
INSERT v ($, #, #)
INSERT t (#, #, $), (#, #, $)
INSERT t(#,#,$)
INSERT u (#, #, #), (#, #, #), (#, #, #)
INSERT w ($, #), ($, #), ($, #), ($, #), ($, #), ($, #), ($, #), ($, #)
INSERT w ($, #), ($, #), ($, #), ($, #), ($, #), ($, #), ($, #), ($, #), ($, #)
INSERT t (#, #)
INSERT zz (#)
"""
OTHERS = b"""
TABLES
SCAN t
SCAN u
SCAN w
SCAN v
SCAN INDEX i
SHOW q
EXPLAIN SELECT a.k FROM t a WHERE a.k = #
EXPLAIN SELECT a.id FROM t a, u b WHERE a.id = b.r AND b.x = #

-- SELECT a.k FROM t a WHERE a.id = #
SELECTa.k FROM t a WHERE a.id = #
select a.k FROM t a WHERE a.id = #
"""
DEFINITIONS = b"""
DROP INDEX i
INDEX i ON t (k) TREE
INDEX i ON t (k) HASH
DROP INDEX h
INDEX h ON u (r) HASH
INDEX h ON u (r) TREE
DROP INDEX g
INDEX g ON t (s) HASH
DROP TABLE v
TABLE v (id INT KEY, k INT)
TABLE v (k INT, id INT KEY)
TABLE v (id TEXT KEY, k INT)
TABLE v (id TEXT, k INT, n INT KEY)
WATCH q SELECT a.id, a.k FROM t a WHERE a.k < #
WATCH q SELECT a.s, b.id FROM t a, u b WHERE b.r = a.id AND b.x >= #
WATCH q SELECT a.id FROM v a
UNWATCH q
"""
TRANSACTIONS = [b"BEGIN", b"BEGIN", b"COMMIT", b"ROLLBACK", b"SAVEPOINT p", b"ROLLBACK TO p"]
NUMBERS = [b"-0", b"007", b"-07", b"9223372036854775807", b"-9223372036854775808", b"9223372036854775808", b"-9223372036854775809"]
NUMBERS += [b"9" * 30, b"-1", b"-2", b"1-1", b"1 1", b"- 1"]
TEXTS = [b"", b"a", b"it's", b"'", b"''", b"?", b"--", b"1", b"\xff\0", b"x" * 64, b"y" * 65, b"-- ?'"]
PLACES = re.compile(rb"[#$]")
FORMS = {name: hostile.lines_of(text) for name, text in [("query", QUERIES), ("change", CHANGES), ("insert", INSERTS), ("other", OTHERS),
                                                         ("definition", DEFINITIONS)]}


def number(rng):
    """Returns a number, mostly a number that some rows contain."""
    kind = rng.random()
    if kind < 0.8:
        return b"%d" % rng.randrange(10)
    return b"%d" % -rng.randrange(10) if kind < 0.92 else rng.choice(NUMBERS)


def text(rng):
    return hostile.quoted(rng.choice(TEXTS))


def filled(rng, form):
    """Returns the form with literals, few of which have the wrong type."""
    of_type = {b"#": number, b"$": text}

    def literal(place):
        make = of_type[place.group()] if rng.random() < 0.96 else rng.choice([number, text])
        return make(rng)

    return PLACES.sub(literal, form)


def renamed(rng, form):
    """Returns the form with another alias, so that its template differs."""
    return re.sub(rb"\ba\b(?!')", b"a%d" % rng.randrange(9), form)


def burst(rng, has_many_forms):
    """Returns lines of one kind: mostly one form, several times, with different literals."""
    kind = rng.choices(["query", "change", "insert", "other", "definition", "transaction"], [36, 20, 18, 8, 12, 6])[0]
    if kind == "transaction":
        return [rng.choice(TRANSACTIONS)]
    form = rng.choice(FORMS[kind])
    if kind == "query" and has_many_forms:
        form = renamed(rng, form)
    times = 1 if kind in ("definition", "other") else rng.choice([1, 2, 3, 6])
    return [filled(rng, form) for _ in range(times)]


def script_of(seed):
    """Returns the script of a seed, with the replies of tests/language.py."""
    rng = random.Random(seed)
    script = hostile.Script("", hostile.lines_of(TABLES))
    recent = []
    for _ in range(BURSTS):
        lines = burst(rng, seed % 3 == 0)
        # Some lines occur again later, between others.
        for line in [*lines, *rng.sample(recent, min(len(recent), rng.randrange(3)))]:
            script.say(line)
        recent = [*recent, *lines][-20:]
    script.probe()
    return script


def with_other_blanks(place, line):
    """Returns the line with blanks at its end that encode its place, so that no two lines are equal."""
    spelled = bin(place)[2:].rjust(BLANKS_THAT_DIFFER, "0")
    return line + spelled.replace("0", " ").replace("1", "\t").encode()


def with_many_blanks(_, line):
    """Returns the line with blanks at its end, so long that its template is not kept."""
    return line.ljust(LENGTH_BEYOND_TEMPLATES)


def as_it_is(_, line):
    return line


def fault_of(task):
    """Returns the first fault in the three runs of a seed's script, or None, and the number of lines of the script."""
    program, seed = task
    script = script_of(seed)
    lines = script.lines
    for name, change in [("with templates", as_it_is), ("with other blanks", with_other_blanks), ("with many blanks", with_many_blanks)]:
        script.lines = [change(place, line) for place, line in enumerate(lines)]
        fault = script.fault(program)
        if fault:
            return f"seed {seed}, {name}: {fault}", len(lines)
    return None, len(lines)


def main():
    path = os.path.abspath(sys.argv[1]) if len(sys.argv) > 1 else f"{hostile.TOP}/crates/mmdb/out/mmdb"
    first = int(sys.argv[2]) if len(sys.argv) > 2 else 1
    seeds = int(sys.argv[3]) if len(sys.argv) > 3 else SEEDS
    if not os.access(path, os.X_OK):
        sys.exit(f"No program at {path}. 'tools/build' builds it.")
    lines, failed = 0, 0
    with multiprocessing.Pool(os.cpu_count()) as pool:
        for fault, count in pool.imap(fault_of, [(path, seed) for seed in range(first, first + seeds)]):
            lines += count
            if fault:
                failed += 1
                print(f"failed: {fault}")
    print(f"{lines} lines in {seeds} scripts, each run 3 times")
    print(f"{seeds - failed} passed, {failed} failed")
    return 1 if failed or not lines else 0


if __name__ == "__main__":
    sys.exit(main())
