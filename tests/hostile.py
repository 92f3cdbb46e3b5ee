#!/usr/bin/env python3
"""Runs hostile input for the whole language through the program, and compares each reply.

    tests/hostile.py [PROGRAM]

- Each form of each command is changed at each byte. The line is cut there, the byte is removed, and other bytes are inserted before it and
  replace it. The form is also changed at each token. The token is removed, repeated and exchanged with the next one, and each keyword, each
  symbol and some other tokens are inserted before it and replace it.
- Each form is also cut at each byte by the end of the input, without a line feed.
- Numbers of 4,000 digits, and names and texts that are too long or contain odd bytes, occur wherever the language allows one. Lines have
  the maximum length and more. Each limit is reached and exceeded by one.
- Transactions set and roll back to savepoints, many with one name, and create and drop indexes, and then commit or roll back.
- Each byte occurs alone on a line, in a text and between two words, and lines consist of random tokens and of random bytes.
- Commands and refused lines are sent one at a time, each after the reply to the one before.

The expected replies are those of tests/language.py, which is written from docs/LANGUAGE.md and shares no code with the program. If a line is
meant for a particular refusal, tests/language.py must return that refusal. After each line that changes something, and after some others, the
script reads the whole database. The exit status is 0 if all replies are right and each run ends with status 0.

A run has 1 GiB of memory. A query over four tables of 1,025 rows with a test on the last table may need more. Such a query may fail with
`error 90` instead of the refusal for its size. No other line may.
"""

import multiprocessing
import os
import random
import resource
import select
import subprocess
import sys
from typing import NamedTuple

sys.dont_write_bytecode = True
import language  # noqa: E402

TOP = os.path.dirname(os.path.dirname(os.path.abspath(__file__)))
MEMORY = b"error 90 memory\n"
MOST_MEMORY = 1 << 30
SECONDS = 60
LINES_BETWEEN_PROBES = 100
RANDOM_LINES = 3000

TABLES = b"""
TABLE t (id INT KEY, k INT, s TEXT)
TABLE u (id INT KEY, r INT REF t)
TABLE s (x TEXT KEY)
TABLE c (id INT KEY, r INT REF u CASCADE)
INDEX i ON t (k) TREE
INDEX h ON u (r) HASH
INSERT t (1, 5, 'a'), (2, -7, 'it''s'), (3, 5, '')
INSERT u (1, 1), (2, 3)
INSERT s ('x'), ('''')
INSERT c (10, 1), (11, 1)
WATCH w SELECT a.s, b.id FROM t a, u b WHERE b.r = a.id
WATCH d SELECT DISTINCT a.k FROM t a WHERE a.k < 7 ORDER 1
"""
FORMS = b"""
TABLE v (id INT KEY)
TABLE v (x TEXT, n INT KEY, r INT REF t)
TABLE v (n INT KEY, r INT REF u CASCADE, q INT REF t)
DROP TABLE s
DROP INDEX i
INDEX j ON t (k) TREE
INDEX j ON u (r) HASH
INSERT t (4, -7, 'it''s')
INSERT t (4, 007, ''), (5, -0, '''')
INSERT u (4, 1), (5, 2)
INSERT u (4, 9)
INSERT s ('-- (,)'), ('y')
UPDATE t SET k = 5
UPDATE t SET k = k + 1, s = 'x''y' WHERE id >= 2 AND k < id - 1
UPDATE t SET k = k + 9223372036854775807
UPDATE u SET id = id+10, r = 1 WHERE r = 3
UPDATE t SET id = 9 WHERE s = 'a'
UPDATE u SET id = 9 WHERE r = 1
DELETE u
DELETE t WHERE k <= 7 AND s > 'a'
DELETE u WHERE id = 1
DELETE c WHERE id = 11
SCAN t
SCAN INDEX h
SELECT a.id FROM t a
SELECT DISTINCT a.k, a.s FROM t a WHERE a.k >= -5 ORDER 2, 1
SELECT a.id, b.id FROM t a, u b WHERE b.r = a.id AND a.k < b.id + 9 ORDER 2
SELECT a.s FROM t a, t b, u c WHERE a.k = b.k - 0 AND b.id = c.r AND a.s <= 'it''s'
EXPLAIN SELECT a.id FROM t a WHERE a.k = 7
EXPLAIN SELECT DISTINCT b.id FROM u b, t a WHERE b.r = a.id AND a.s > '' ORDER 1
WATCH v SELECT a.k FROM t a
WATCH v SELECT DISTINCT a.s, b.id FROM t a, u b WHERE a.id = b.r AND a.k > -2 ORDER 1
SHOW w
UNWATCH w
TABLES
BEGIN
SAVEPOINT p
ROLLBACK TO p
COMMIT
ROLLBACK

-- a comment, 'and' more
"""
FORMS_IN_A_TRANSACTION = b"""
BEGIN
COMMIT
ROLLBACK
SAVEPOINT p
ROLLBACK TO p
INSERT s ('it''s')
INDEX j ON t (k) HASH
DROP INDEX i
DROP TABLE s
"""
OPENED = b"""
BEGIN
INSERT t (7, 7, 'seven')
SAVEPOINT p
DELETE u WHERE id = 1
"""

PLACES_OF_NUMBERS = b"""
INSERT t (%s, 1, 'x')
INSERT t (8, 1, ''), (9, -%s, 'x')
UPDATE t SET k = %s
UPDATE t SET s = '', k = -%s
UPDATE t SET k = k + %s
UPDATE t SET k = k - %s, s = 'x'
UPDATE t SET k = 1 WHERE id = %s
UPDATE t SET k = 1 WHERE id < k + %s AND s < 'b'
UPDATE t SET k = 1 WHERE id < k - %s
DELETE t WHERE id = %s
DELETE t WHERE k = -%s AND id > 0
DELETE t WHERE k > id + %s
DELETE t WHERE k >= id-%s
SELECT a.k FROM t a WHERE a.k = %s
SELECT a.k FROM t a WHERE a.k > -%s AND a.id < 3
SELECT a.k FROM t a , t b WHERE a.k < b.id + %s
SELECT a.k FROM t a , u b WHERE b.id >= a.id - %s ORDER 1
SELECT a.k FROM t a ORDER %s
SELECT a.k, a.s FROM t a ORDER 2, %s, 1
EXPLAIN SELECT a.k FROM t a WHERE a.k <= %s
EXPLAIN SELECT a.k FROM t a ORDER %s
WATCH v SELECT a.k FROM t a WHERE a.k <= -%s
WATCH v SELECT a.k FROM t a , t b WHERE a.k = b.k - %s
WATCH v SELECT a.k FROM t a ORDER %s
"""
PLACES_OF_TEXTS = b"""
INSERT s (%s)
INSERT t (8, 1, ''), (9, 1, %s)
UPDATE t SET k = 1, s = %s
UPDATE t SET k = 1 WHERE s = %s
UPDATE t SET k = 1 WHERE s >= %s AND id > 0
DELETE s WHERE x < %s
DELETE t WHERE id > 0 AND s = %s
SELECT a.k FROM t a WHERE a.s >= %s
SELECT a.k FROM t a , s b WHERE b.x = %s AND a.s = b.x ORDER 1
EXPLAIN SELECT a.k FROM t a WHERE a.s > %s
WATCH v SELECT a.k FROM t a WHERE a.s <= %s
"""
PLACES_OF_NAMES = b"""
TABLE %s (id INT KEY)
TABLE v (%s INT KEY)
TABLE v (id INT KEY, %s TEXT)
TABLE v (id INT KEY, r INT REF %s)
TABLE v (id INT KEY, r INT REF %s CASCADE)
DROP TABLE %s
INDEX %s ON t (k) TREE
INDEX j ON %s (k) TREE
INDEX j ON t (%s) HASH
DROP INDEX %s
INSERT %s (1)
UPDATE %s SET k = 1
UPDATE t SET %s = 1
UPDATE t SET k = %s
UPDATE t SET k = %s + 1
UPDATE t SET k = 1 WHERE %s = 1
UPDATE t SET k = 1 WHERE k = %s - 1 AND id = 1
DELETE %s WHERE k = 1
DELETE t WHERE id = 1 AND %s > 1
SCAN %s
SCAN INDEX %s
SELECT %s.k FROM t a
SELECT a.%s FROM t a
SELECT a.k FROM %s a
SELECT a.k FROM t a, t %s
SELECT a.k FROM t a WHERE %s.k = 1
SELECT a.k FROM t a WHERE a.%s = a.k
SELECT a.k FROM t a WHERE a.k < %s.k
SELECT a.k FROM t a WHERE a.k = a.%s + 1 ORDER 1
EXPLAIN SELECT a.k FROM t a, %s b
WATCH %s SELECT a.k FROM t a
WATCH v SELECT a.%s FROM t a
UNWATCH %s
SHOW %s
SAVEPOINT %s
ROLLBACK TO %s
"""

BYTES_PUT_IN = [bytes([byte]) for byte in b"\0\t\n\r '(),-.7Aa_\x80\xff"]
SYMBOLS = [b"(", b")", b",", b".", b"=", b"<", b"<=", b">", b">=", b"+", b"-"]
TOKENS_PUT_IN = [*sorted(language.KEYWORDS), *SYMBOLS, b"t", b"k", b"1", b"-1", b"'x'", b"''"]


def lines_of(text):
    return text[1:-1].split(b"\n")


def reply_of(number):
    return language.Refused(number).reply()


def shown(value):
    """Returns the start of a line or a reply, for messages."""
    return f"{str(value)[1:120]}.. ({len(value)} bytes)" if len(value) > 120 else str(value)[1:]


class Script:
    """Lines and their expected replies, starting with the tables above or an empty database."""

    def __init__(self, name, lines=()):
        self.name, self.lines, self.replies, self.faults = name, [], [], []
        self.database, self.end, self.wanting = language.Database(), b"\n", set()
        for line in lines:
            self.say(line)

    def copy(self, name=None):
        other = Script(name or self.name)
        other.lines, other.replies, other.faults = self.lines[:], self.replies[:], self.faults[:]
        other.database = self.database.copy()
        return other

    def say(self, text, wanted=None):
        """Adds a line, or several separated by line feeds. `wanted` is the expected reply or the number of a refusal, if the caller knows it."""
        reply = b"".join(map(self.database.answer, text.split(b"\n")))
        wanted = reply_of(wanted) if isinstance(wanted, int) else wanted
        if wanted is not None and wanted != reply:
            self.faults.append(f"{shown(text)} must get {shown(wanted)}, but tests/language.py returns {shown(reply)}")
        self.lines.append(text)
        self.replies.append(reply)

    def may_want_memory(self):
        """Allows the last line to fail with `error 90`, since the line may need more memory than a run has."""
        self.wanting.add(len(self.lines) - 1)

    def probe(self):
        """Reads the whole database."""
        self.say(b"TABLES")
        for name, table in list(self.database.tables.items()):
            self.say(b"SCAN " + name)
            for index, _, _ in table.indexes:
                self.say(b"SCAN INDEX " + index)
        for name in self.database.standing:
            self.say(b"SHOW " + name)

    def fault(self, program):
        """Returns the fault of the program's run, or None."""
        if self.faults:
            return self.faults[0]
        given = b"\n".join(self.lines) + self.end
        try:
            ran = subprocess.run([program], input=given, stdout=subprocess.PIPE, timeout=SECONDS, check=False)
        except subprocess.TimeoutExpired:
            return f"the run did not end within {SECONDS} seconds"
        return self.difference(ran.stdout) or (f"the run ended with status {ran.returncode}" if ran.returncode else None)

    def difference(self, written):
        """Returns the first line with a wrong reply, or None."""
        at = 0
        for place, (line, reply) in enumerate(zip(self.lines, self.replies)):
            if place in self.wanting and written.startswith(MEMORY, at):
                reply = MEMORY
            if not written.startswith(reply, at):
                got = written[at : at + max(len(reply), 80)]
                return f"line {place + 1}, {shown(line)}: expected {shown(reply)}, got {shown(got)}"
            at += len(reply)
        return f"output after the last reply: {shown(written[at:])}" if at < len(written) else None


class Dialogue(Script):
    """A script whose lines are sent one at a time, each after the reply to the one before."""

    def fault(self, program):
        with subprocess.Popen([program], stdin=subprocess.PIPE, stdout=subprocess.PIPE, bufsize=0) as run:
            for line, reply in zip(self.lines, self.replies):
                run.stdin.write(line + b"\n")
                got = b""
                while len(got) < len(reply) and select.select([run.stdout], [], [], SECONDS)[0] and (more := run.stdout.read(1 << 16)):
                    got += more
                if got != reply:
                    run.kill()
                    return f"{shown(line)}: expected {shown(reply)}, got {shown(got)}"
            run.stdin.close()
            rest = run.stdout.read()
            return f"the run ended with status {run.returncode} and output {shown(rest)}" if run.wait(SECONDS) or rest else None


class Changed:
    """Scripts of changed lines. Lines that change nothing share one script, and each other line has a script of its own."""

    def __init__(self, start):
        self.start, self.quiet, self.others = start, start.copy(), []

    def say(self, text, wanted=None):
        self.quiet.say(text, wanted)
        if not self.quiet.database.is_as(self.start.database):
            self.take_back(text)
        elif len(self.quiet.lines) % LINES_BETWEEN_PROBES == 0:
            self.quiet.probe()

    def take_back(self, text):
        """Moves the last line from the shared script to a script of its own. That script rolls back a transaction that the line leaves open."""
        self.quiet.lines.pop()
        self.quiet.replies.pop()
        self.quiet.database = self.start.database.copy()
        other = self.start.copy()
        other.say(text)
        other.probe()
        if other.database.saved is not None:
            other.say(b"ROLLBACK", b"ok\n")
            other.probe()
        self.others.append(other)

    def scripts(self):
        self.quiet.probe()
        return [self.quiet, *self.others]


def with_changed_bytes(line):
    """Yields a line with a change at each of its bytes."""
    for place in range(len(line) + 1):
        yield line[:place]
        yield line[:place] + line[place + 1 :]
        for byte in BYTES_PUT_IN:
            yield line[:place] + byte + line[place:]
            yield line[:place] + byte + line[place + 1 :]


def with_changed_tokens(line):
    """Yields a line with a change at each of its tokens and after the last."""
    tokens = [] if language.read(line) is None else language.tokens_of(line)[:-1]
    for token, following in zip(tokens, [*tokens[1:], None]):
        before, behind = line[: token.start], line[token.end :]
        yield before + behind
        yield before + token.text + b" " + token.text + behind
        if following:
            yield before + following.text + line[token.end : following.start] + token.text + line[following.end :]
        for other in TOKENS_PUT_IN:
            yield before + other + behind
            yield before + other + b" " + token.text + behind
    yield from (line + b" " + other for other in TOKENS_PUT_IN)


def form_scripts(line, opening):
    """Yields scripts with a form that is changed at each byte and token, has other line ends, or is cut by the end of the input."""
    start = Script("", lines_of(TABLES + opening))
    changed = Changed(start)
    for text in [line, line + b"\r", line + b"\r\r", *with_changed_bytes(line), *with_changed_tokens(line)]:
        changed.say(text)
    yield from changed.scripts()
    for last in [*(line[:place] for place in range(len(line) + 1)), line + b"\r"]:
        script = start.copy()
        script.say(last)
        script.end = b""
        yield script


def quoted(text):
    return b"'" + text.replace(b"'", b"''") + b"'"


def number_scripts():
    """Returns scripts with too large numbers and numbers with thousands of leading zeros, wherever the language allows a number."""
    changed = Changed(Script("", lines_of(TABLES)))
    nines, just, past, far_past = b"9" * 4000, b"9223372036854775807", b"9223372036854775808", b"9223372036854775809"
    for place in lines_of(PLACES_OF_NUMBERS):
        has_minus = b"-%s" in place or b"- %s" in place
        changed.say(place % nines, 12)
        changed.say(place.replace(b" t ", b" nope ") % nines, 12)
        changed.say(place % nines + b" (", 11)
        changed.say(place % far_past, 12)
        changed.say(place % past, None if has_minus else 12)
        changed.say(place % just)
        for number in (just, past, b"7", b"1", b""):
            changed.say(place % number.rjust(4000, b"0"), 12 if number == past and not has_minus else None)
    too_long = quoted(b"x" * 65)
    changed.say(b"INSERT t (%s, 1, %s)" % (nines[:3900], too_long), 12)
    changed.say(b"INSERT t (4, 1, %s), (%s, 1, 'x')" % (too_long, nines[:3900]), 13)
    changed.say(b"SELECT a.k FROM t a WHERE a.s = %s ORDER %s" % (too_long, nines[:3900]), 13)
    changed.say(b"SELECT a.k FROM t a WHERE a.k < a.id - %s AND a.s = %s" % (nines[:3900], too_long), 12)
    return changed.scripts()


def text_scripts():
    """Returns scripts with texts of the maximum length and longer ones, wherever the language allows a text."""
    changed = Changed(Script("", lines_of(TABLES)))
    for place in lines_of(PLACES_OF_TEXTS):
        for byte in (b"a", b"'", b"\0", b"\xff", b" ", b"-"):
            changed.say(place % quoted(byte * 64))
            changed.say(place % quoted(byte * 65), 13)
            changed.say(place.replace(b" t ", b" nope ") % quoted(byte * 1900), 13)
            changed.say(place % quoted(byte * 64)[:-1], 11)
            changed.say(place % quoted(byte * 65)[1:], 11)
            changed.say(place % quoted(byte * 1900) + b" (", 11)
    return changed.scripts()


def name_scripts():
    """Returns scripts with names of the maximum length, longer ones, and words that are not names, wherever the language allows a name."""
    changed = Changed(Script("", lines_of(TABLES)))
    for place in lines_of(PLACES_OF_NAMES):
        for name in (b"n" * 32, b"z_9" + b"0" * 29, b"x"):
            changed.say(place % name)
        for word in (b"n" * 33, b"n" * 4000, b"N", b"nN", b"9n", b"_n", b"", b"7", b"TABLE", b"INT", b"\xc3\xa9", b"n\0", b"n'", b"'n'"):
            changed.say(place % word, None if word in (b"7", b"'n'", b"") else 11)
    return changed.scripts()


def line_scripts():
    """Returns scripts with forms in lines of the maximum length, and in longer ones."""
    changed = Changed(Script("", lines_of(TABLES)))
    for line in lines_of(FORMS):
        reply = changed.start.database.copy().answer(line)
        blanks = b" " * (language.LONGEST_LINE - len(line))
        in_front = blanks.replace(b" ", b"\t") + line if reply else line
        for text in (line + blanks, line + blanks + b"\r", in_front, line.replace(b" ", b" " + blanks, 1)):
            changed.say(text, reply)
        for text in (line + blanks + b" ", line + blanks + b" \r", line + blanks + b"\r\r", b" " + blanks + line):
            changed.say(text, 10)
    for byte in (b"x", b"'", b"-", b" ", b"\0", b"\xff", b"\r", b"7", b"("):
        for length in (4098, 5000, 8192, 65536, 1000000):
            changed.say(byte * length, 10)
    changed.say(b"'" * (1 << 23), 10)
    return changed.scripts()


def byte_scripts():
    """Returns scripts with each byte alone on a line, before, after and between words, and in texts."""
    changed = Changed(Script("", lines_of(TABLES)))
    texts = Script("", [b"TABLE b (x TEXT KEY)"])
    for byte in (bytes([number]) for number in range(256)):
        for text in (b"#", b"##", b"#SCAN t", b"SCAN#t", b"SCAN t#", b"SELECT a#k FROM t a", b"SELECT a.k FROM t a WHERE a.k #5", b"-- #"):
            changed.say(text.replace(b"#", byte))
        is_text = byte not in (b"\n", b"'")
        texts.say(b"INSERT b ('" + byte + b"')", b"ok 1\n" if is_text else None)
        texts.say(b"UPDATE b SET x = '" + byte + b"y' WHERE x = '" + byte + b"'", b"ok 1\n" if is_text else None)
    texts.probe()
    return [*changed.scripts(), texts]


def random_scripts(seed):
    """Returns scripts with lines of random tokens and of random bytes, and with the start of one form before the end of another."""
    rng = random.Random(seed)
    changed = Changed(Script("", lines_of(TABLES)))
    forms = lines_of(FORMS)
    for _ in range(RANDOM_LINES):
        one, other = rng.choice(forms), rng.choice(forms)
        changed.say(one[: rng.randrange(len(one) + 1)] + other[rng.randrange(len(other) + 1) :])
        changed.say(rng.choice([b" ", b"", b"\t"]).join(rng.choices(TOKENS_PUT_IN, k=rng.randrange(1, 20))))
        changed.say(rng.randbytes(rng.randrange(60)))
    return changed.scripts()


def many(text, count, between=b", "):
    """Returns `count` copies of a text. The number of the copy, from 1, replaces each #."""
    return between.join(text.replace(b"#", b"%d" % number) for number in range(1, count + 1))


def table_scripts():
    """Returns scripts with the maximum number of tables and columns, and one more."""
    tables, columns = Script(""), Script("")
    for number in range(64):
        tables.say(b"TABLE n%d (id INT KEY)" % number, b"ok\n")
    for _ in range(2):
        tables.say(b"TABLE more (id INT KEY)", 48)
        tables.say(b"TABLE n5 (id INT KEY)", 24)
        tables.say(b"TABLE more (id INT KEY, r INT REF nope)", 20)
        tables.probe()
        tables.say(b"DROP TABLE n7", b"ok\n")
        tables.say(b"TABLE n7 (id INT KEY, r INT REF n8)", b"ok\n")
    for count, wanted in ((15, b"ok\n"), (16, 48), (17, 48), (350, 48)):
        columns.say(b"TABLE n%d (id INT KEY, %s)" % (count, many(b"c# INT", count)), wanted)
        columns.say(b"TABLE m (id INT KEY, %s, id TEXT)" % many(b"c# INT", count), 24)
    columns.say(b"INSERT n15 (1, %s)" % many(b"#", 15), b"ok 1\n")
    for count in (14, 16, 500):
        columns.say(b"INSERT n15 (2, %s)" % many(b"#", count), 31)
    columns.say(b"UPDATE n15 SET id = 2, %s" % many(b"c# = id + #", 15), b"ok 1\n")
    columns.say(b"UPDATE n15 SET id = 2, %s" % many(b"c# = id + #", 16), 21)
    columns.say(b"UPDATE n15 SET %s" % many(b"c1 = #", 300), 24)
    columns.probe()
    return [tables, columns]


def index_scripts():
    """Returns scripts with the maximum number of indexes of a table, and one more."""
    script = Script("", lines_of(TABLES))
    for number in range(15):
        script.say(b"INDEX n%d ON t (%s) %s" % (number, (b"id", b"k", b"s")[number % 3], (b"TREE", b"HASH")[number % 2]), b"ok\n")
    for _ in range(2):
        script.say(b"INDEX more ON t (k) HASH", 48)
        script.say(b"INDEX h ON t (k) HASH", 24)
        script.say(b"INDEX more ON t (nope) HASH", 21)
        script.probe()
        script.say(b"DROP INDEX n3", b"ok\n")
        script.say(b"INDEX n3 ON t (s) HASH", b"ok\n")
    script.say(b"INDEX more ON u (id) TREE", b"ok\n")
    script.say(b"UPDATE t SET k = id, s = 'x', id = id - 0", b"ok 3\n")
    script.probe()
    return [script]


def standing_scripts():
    """Returns scripts with the maximum number of standing queries, and one more."""
    script = Script("", lines_of(TABLES))
    for number in range(30):
        script.say(b"WATCH n%d SELECT a.k, b.id FROM t a, t b WHERE a.k = b.k - %d" % (number, number), b"ok\n")
    for _ in range(2):
        script.say(b"WATCH more SELECT a.k FROM t a", 48)
        script.say(b"WATCH n5 SELECT a.k FROM t a", 24)
        script.say(b"WATCH more SELECT a.k FROM t a WHERE a.k = 'x'", 30)
        script.say(b"UPDATE t SET k = k + 1 WHERE id = 1", b"ok 1\n")
        script.probe()
        script.say(b"UNWATCH n7", b"ok\n")
        script.say(b"WATCH n7 SELECT DISTINCT a.s FROM t a", b"ok\n")
    return [script]


def savepoint_scripts():
    """Returns scripts with the maximum number of savepoints, and one more. Some of the 64 have names of earlier ones."""
    script = Script("", lines_of(TABLES))
    for end in (b"ROLLBACK", b"COMMIT"):
        script.say(b"SAVEPOINT n0", 51)
        script.say(b"ROLLBACK TO n0", 51)
        script.say(b"BEGIN", b"ok\n")
        script.say(b"ROLLBACK TO n0", 53)
        for number in range(64):
            script.say(b"UPDATE t SET k = %d WHERE id < 3" % number, b"ok 2\n")
            script.say(b"SAVEPOINT n%d" % (number % 50), b"ok\n")
        # The 64th savepoint is the second n13, the 63rd is the second n12, and the 50th is n49.
        for name, room in ((b"n13", 0), (b"n12", 1), (b"n49", 14)):
            script.say(b"DELETE u", b"ok 2\n")
            script.say(b"ROLLBACK TO " + name, b"ok\n")
            script.probe()
            script.say(b"ROLLBACK TO more", 53)
            for number in range(room):
                script.say(b"SAVEPOINT n%d" % number, b"ok\n")
            script.say(b"SAVEPOINT n0", 48)
            script.say(b"SAVEPOINT more", 48)
            script.probe()
        for _ in range(2):
            script.say(b"INSERT u (9, 1)", b"ok 1\n")
            script.say(b"ROLLBACK TO n20", b"ok\n")
            script.say(b"ROLLBACK TO n21", 53)
            script.probe()
        script.say(b"SAVEPOINT n21", b"ok\n")
        script.say(end, b"ok\n")
        script.probe()
    return [script]


def rolled_back_index_scripts():
    """Returns scripts that create and drop indexes in a transaction, between changes of rows that are rolled back or committed."""
    scripts = []
    for ends in ((b"COMMIT",), (b"ROLLBACK",), (b"ROLLBACK TO p", b"COMMIT"), (b"ROLLBACK TO q", b"ROLLBACK TO p", b"ROLLBACK")):
        script = Script("", lines_of(TABLES + OPENED))
        for kind, other in ((b"TREE", b"HASH"), (b"HASH", b"TREE")):
            script.say(b"INDEX j ON t (s) " + kind, b"ok\n")
            script.say(b"INDEX j ON t (k) " + other, 24)
            script.say(b"INDEX g ON u (nope) " + other, 21)
            script.say(b"INDEX g ON nope (id) " + other, 20)
            script.say(b"UPDATE t SET s = 'new', k = k - 1 WHERE id < 3", b"ok 2\n")
            script.say(b"SAVEPOINT q", b"ok\n")
            script.say(b"DROP INDEX i", b"ok\n")
            script.say(b"DROP INDEX i", 22)
            script.say(b"DELETE t WHERE id = 7", b"ok 1\n")
            script.say(b"INDEX i ON t (id) " + other, b"ok\n")
            script.say(b"INSERT t (7, 8, 'again')", b"ok 1\n")
            script.say(b"DROP INDEX j", b"ok\n")
            script.say(b"INDEX g ON u (id) " + kind, b"ok\n")
            script.probe()
            script.say(b"DROP INDEX g", b"ok\n")
        script.say(b"INDEX j ON t (s) TREE", b"ok\n")
        for end in ends:
            script.say(end, b"ok\n")
            script.probe()
        script.say(b"INSERT t (8, 5, 'new')", b"ok 1\n")
        script.say(b"DELETE t WHERE s = 'new' AND id > 7", b"ok 1\n")
        script.probe()
        scripts.append(script)
    return scripts


def query_scripts():
    """Returns scripts with the maximum numbers of tables, fields, tests and positions in queries and changes, and with more."""
    changed = Changed(Script("", lines_of(TABLES)))

    def say(wanted, fields, items, tests, order):
        query = b"%s FROM %s" % (fields, items) + (b" WHERE " + tests if tests else b"") + (b" ORDER " + order if order else b"")
        for front in (b"SELECT ", b"SELECT DISTINCT ", b"EXPLAIN SELECT ", b"WATCH v SELECT "):
            changed.say(front + query, wanted)

    tests = b"a1.k <= a2.k + # AND a2.k = a3.k AND a3.id >= a4.id - # AND a1.id > -#"
    most = [many(b"a1.k, a2.k, a3.s, a4.id", 4), many(b"t a#", 4), many(tests, 4, b" AND "), many(b"16, 1, 5, 2", 4)]
    say(None, *most)
    more = [most[0] + b", a1.k", most[1] + b", s a5", most[2] + b" AND a1.id = a1.id", most[3] + b", 1"]
    much = [many(b"a1.k", 300), many(b"t a#", 300), many(b"a1.k <= #", 150, b" AND "), many(b"1", 300)]
    for place in range(4):
        for part in (more[place], much[place]):
            say(48, *(part if other == place else most[other] for other in range(4)))
    say(21, most[0], *most[1:3], b"17")
    say(48, more[0], *most[1:3], b"17")
    say(21, more[0], *most[1:3], b"18")
    say(25, most[0], most[1] + b", t a1", *most[2:])
    say(26, most[0] + b", b.k", *most[1:])
    say(30, more[0], most[1], most[2] + b" AND a1.k = a1.s", most[3])
    for front in (b"UPDATE t SET k = 1", b"DELETE u"):
        changed.say(front + b" WHERE " + many(b"id > -#", 16, b" AND "))
        for count in (17, 250):
            changed.say(front + b" WHERE " + many(b"id > -#", count, b" AND "), 48)
        changed.say(front + b" WHERE " + many(b"id > -#", 17, b" AND ") + b" AND id = ''", 30)
    return changed.scripts()


def combination_scripts():
    """Returns scripts with self-joins of the maximum number of combinations, and of one row more. The first three of four tables have 1,025
    cubed combinations. If a test names the fourth table, the program stores them as far as memory allows, since only some may pass the test."""
    script = Script("", [b"TABLE n (id INT KEY)", b"TABLE none (id INT KEY)", *(b"INSERT n (%d)" % number for number in range(1, 1026))])
    four = b"n a, n b, n c, n d"
    products = [(b"a.id", b"n a, n b"), (b"DISTINCT b.id", b"n a, n b"), (b"c.id", b"n a, n b, n c"), (b"a.id", four)]
    products += [(b"d.id", four + b" WHERE b.id >= a.id AND c.id > 0"), (b"a.id", four + b" WHERE d.id < a.id + 1025")]
    for fields, items in products:
        query = b"SELECT " + fields + b" FROM " + items + b" ORDER 1"
        script.say(b"EXPLAIN " + query)
        for front, refusal in ((b"", 46), (b"WATCH w ", 47)):
            script.say(front + query, refusal)
            if b"d.id < " in items:
                script.may_want_memory()
    script.say(b"SELECT b.id FROM n a, n b WHERE a.id > 1023")
    script.say(b"SELECT b.id FROM none c, n a, n b", b"rows 0\n")
    script.say(b"SELECT b.id FROM n a, n b, none c", b"rows 0\n")
    script.say(b"DELETE n WHERE id = 1025", b"ok 1\n")
    script.say(b"WATCH w SELECT a.id FROM n a, n b", b"ok\n")
    script.say(b"INSERT n (1025)", 47)
    script.say(b"BEGIN", b"ok\n")
    script.say(b"DELETE n WHERE id = 1", b"ok 1\n")
    script.say(b"INSERT n (1025)", b"ok 1\n")
    script.say(b"INSERT n (1)", 47)
    script.say(b"ROLLBACK", b"ok\n")
    script.say(b"INSERT n (1025)", 47)
    script.say(b"UNWATCH w", b"ok\n")
    script.say(b"INSERT n (1025)", b"ok 1\n")
    script.probe()
    return [script]


def dialogue_scripts():
    """Returns scripts with forms and refused lines that are sent one at a time."""
    dialogue = Dialogue("", lines_of(TABLES))
    for line in lines_of(FORMS):
        for text in (line, line[:-1], line + b"'", b"\0" + line, b"x" * 5000, b"-- " + line, line + b"\r"):
            dialogue.say(text)
    dialogue.probe()
    return [dialogue]


def cases():
    """Yields the test cases: a name, the function that creates the scripts, and its arguments."""
    for line in lines_of(FORMS):
        yield f"{shown(line)} changed", form_scripts, (line, b"")
    for line in lines_of(FORMS_IN_A_TRANSACTION):
        yield f"{shown(line)} changed, in a transaction", form_scripts, (line, OPENED)
    yield "long numbers", number_scripts, ()
    yield "long texts", text_scripts, ()
    yield "long names", name_scripts, ()
    yield "long lines", line_scripts, ()
    yield "each byte", byte_scripts, ()
    for seed in range(1, 5):
        yield f"random lines, seed {seed}", random_scripts, (seed,)
    yield "many tables and columns", table_scripts, ()
    yield "many indexes", index_scripts, ()
    yield "many standing queries", standing_scripts, ()
    yield "many savepoints", savepoint_scripts, ()
    yield "indexes in a transaction", rolled_back_index_scripts, ()
    yield "large queries", query_scripts, ()
    yield "many combinations", combination_scripts, ()
    yield "one line at a time", dialogue_scripts, ()


class Tried(NamedTuple):
    """The result of a case."""

    name: str
    faults: list
    lines: int
    runs: int


def tried(task):
    """Runs the scripts of a case."""
    program, (name, make, said) = task
    faults, lines, runs = [], 0, 0
    for script in make(*said):
        fault = script.fault(program)
        faults += [fault] if fault else []
        lines, runs = lines + len(script.lines), runs + 1
    return Tried(name, faults, lines, runs)


def main():
    path = os.path.abspath(sys.argv[1]) if len(sys.argv) > 1 else f"{TOP}/crates/mmdb/out/mmdb"
    if not os.access(path, os.X_OK):
        sys.exit(f"No program at {path}. 'tools/build' builds it.")
    # The program inherits the limit, so it cannot exhaust the memory of the machine.
    resource.setrlimit(resource.RLIMIT_AS, (MOST_MEMORY, MOST_MEMORY))
    found = []
    with multiprocessing.Pool(os.cpu_count()) as pool:
        for one in pool.imap(tried, [(path, case) for case in cases()]):
            found.append(one)
            if one.faults:
                print(f"failed: {one.name}: {one.faults[0]}" + (f" (and {len(one.faults) - 1} more)" if one.faults[1:] else ""))
    failed = sum(1 for one in found if one.faults)
    print(f"{sum(one.lines for one in found)} lines in {sum(one.runs for one in found)} runs")
    print(f"{len(found) - failed} passed, {failed} failed")
    return 1 if failed else 0


if __name__ == "__main__":
    sys.exit(main())
