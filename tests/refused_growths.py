#!/usr/bin/env python3
"""Runs scripts and typed tests with failing allocations: in each run, one allocation fails.

    tests/refused_growths.py [PROGRAM]
    tests/refused_growths.py --scripts PROGRAM
    tests/refused_growths.py --tests CRATE..

The second form runs only the scripts, and the third only the typed tests of some crates. A reallocation to a larger block counts as an
allocation (refuse_growth.c). In names, a growth is such an allocation.

Scripts. The scripts are those of tests/rows and examples, and generated ones with transactions and standing queries. Each script runs once
for each allocation of its run, and the nth allocation fails in the nth run. The replies must be those of the run without failures. Only the
line whose allocation failed may get 'error 90 memory', and only if its command may allocate. Then

- the later lines must get the replies that they get without the failed line, since a failed line changes nothing;
- in another run, the failed line occurs twice, and all replies except the 90 must be correct, since the line can be repeated.

If no reply shows the failure, because the program retries or does not need the allocation, another run fails all allocations from the nth
up to the reply, and the same must hold. If the buffer of the output cannot be allocated, the run must end with status 2 and write nothing.

Transactions. Each transaction is also cut after each of its lines. The shorter script is tested in the same way, with the allocations from
BEGIN on, since the runs of the whole script cover the earlier ones. If the cut transaction ends with ROLLBACK, scans, queries and standing
queries must then return the rows from before BEGIN, except by indexes that the transaction created or dropped. If it ends with COMMIT,
another transaction must be able to begin. The generated scripts also set a savepoint in the middle of the shorter transaction and end with
ROLLBACK TO. Then the same queries must return the rows from the savepoint. A program without transactions fails.

Typed tests. These are the #[test] functions whose names end in _growths. 'rt ci' leaves the test program CRATE_tests in a crate's out/. The
program runs each test alone, once for each allocation of its run, and the nth allocation fails in the nth run. The program itself allocates
nothing. Each run must pass. If the call under test fails, the test prints the line 'refused', checks that nothing has changed, and repeats
the call. If no such line is printed, because a list retries or the call does not need the allocation, another run fails all allocations
from the nth up to that line. A test that prints the line in no run proves nothing, and fails. A test that is missing in its crate's program
also fails.

The C compiler, cc, builds the library that fails allocations, refuse_growth.c, in a temporary folder. The exit status is 0 if there were
scripts and tests to run, and all passed.
"""

import glob
import io
import itertools
import multiprocessing
import os
import re
import resource
import select
import subprocess
import sys
import tempfile

TOP = os.path.dirname(os.path.dirname(os.path.abspath(__file__)))
LONGEST_LINE = 4096
MEMORY = b"error 90 memory\n"
NO_SUCH_SAVEPOINT = b"error 53 no such savepoint\n"
BEGINS_OR_ENDS = [b"BEGIN", b"COMMIT", b"ROLLBACK"]
GOES_BACK = re.compile(rb"ROLLBACK[ \t]+TO[ \t]+[a-z][a-z0-9_]{0,31}")
LAST_LINE_OF_REPLY = re.compile(rb"(ok( \d+)?|error \d+ .*|(rows|steps|tables) \d+)\n")
DEFINITION = re.compile(rb"[ \t]*(TABLE|INDEX|WATCH)[ \t]+([a-z][a-z0-9_]*)")
INDEX_COMMAND = re.compile(rb"[ \t]*(?:DROP[ \t]+)?INDEX[ \t]+([a-z][a-z0-9_]*)")
QUESTION = {b"TABLE": b"SCAN ", b"INDEX": b"SCAN INDEX ", b"WATCH": b"SHOW "}
SECONDS = 60

# A typed test in a source file and in the list of a test program, and its output after a failed call and at its end.
TYPED_TEST = re.compile(r"#\[test\]\s+(?:#\[[^{}]*?\]\s+)*fn (\w+_growths)\(")
LISTED_TEST = re.compile(r"^(\S+_growths): test$", re.MULTILINE)
WAS_REFUSED = b"refused\n"
TEST_PASSED = b"\ntest result: ok\n"

# If a run has very many allocations, each of the first ones fails, and then one in THEN_ONE_IN.
EACH_OF_THE_FIRST = 2000
THEN_ONE_IN = 37
GROWTHS_OF_A_TASK = 25


def rows(first, last):
    """Returns rows with the keys from first to last, whose numbers and texts repeat."""
    return ", ".join(f"({key}, {key * 7 % 23}, 'text {key % 9}')" for key in range(first, last + 1))


# A table with an index of each kind. Rows are inserted, get other keys and other indexed values, and are deleted.
INDEXED = f"""
TABLE t (id INT KEY, k INT, s TEXT)
INDEX by_k ON t (k) TREE
INDEX by_s ON t (s) HASH
INSERT t {rows(1, 20)}
INSERT t {rows(21, 40)}
BEGIN
INSERT t {rows(41, 60)}
INSERT t {rows(61, 80)}
UPDATE t SET id = id + 1000 WHERE k > 10
UPDATE t SET k = id, s = 'changed' WHERE id < 70
DELETE t
INSERT t {rows(11, 30)}
INSERT t {rows(101, 130)}
ROLLBACK
"""
INDEXED_QUERIES = """
SELECT x.id FROM t x WHERE x.s = 'text 4'
SELECT x.id FROM t x WHERE x.k >= 5 AND x.k < 9
SELECT x.k FROM t x WHERE x.id = 17
"""

# Two tables, one of which refers to the other. The queries follow the references. Because of references, the lines after them are refused
# before BEGIN, so they must also be refused after ROLLBACK.
REFERRING = f"""
TABLE a (id INT KEY, k INT, name TEXT)
TABLE b (id INT KEY, r INT REF a)
INDEX by_name ON a (name) TREE
INDEX by_r ON b (r) HASH
INSERT a {rows(1, 8)}
INSERT b (1, 1), (2, 2), (3, 2), (4, 3), (5, 4), (6, 8), (7, 8)
BEGIN
INSERT a {rows(9, 30)}
INSERT b (8, 9), (9, 1), (10, 10), (11, 30), (12, 30)
UPDATE b SET r = 5 WHERE r < 5
UPDATE b SET id = id + 100 WHERE r >= 8
DELETE a WHERE id < 5
UPDATE a SET id = id + 1
DELETE b
DELETE a
INSERT a {rows(4, 12)}
INSERT b (1, 4), (2, 12), (21, 11)
ROLLBACK
"""
REFERRING_QUERIES = """
SELECT x.id, y.name FROM b x, a y WHERE x.r = y.id
SELECT x.id FROM a y, b x WHERE y.name = 'text 8' AND x.r = y.id
DELETE a WHERE id = 8
UPDATE a SET id = 9 WHERE id = 4
INSERT b (8, 9)
INSERT a (8, 1, 'again')
"""

# Standing queries over one table, over two, and over one table twice. Most changes affect several lists, and insert rows that were deleted.
STANDING = f"""
TABLE t (id INT KEY, k INT, s TEXT)
TABLE u (id INT KEY, r INT REF t)
INDEX by_k ON t (k) TREE
WATCH low SELECT a.id, a.s FROM t a WHERE a.k < 12
WATCH joined SELECT a.s, b.id FROM t a, u b WHERE b.r = a.id
INSERT t {rows(1, 10)}
WATCH twice SELECT DISTINCT a.k, b.s FROM t a, t b WHERE a.k = b.k AND a.id < b.id
INSERT u (1, 1), (2, 2), (3, 2)
INSERT t {rows(24, 26)}
UPDATE t SET s = 'other' WHERE id = 24
BEGIN
INSERT t {rows(11, 23)}
UPDATE t SET k = 3, s = 'changed' WHERE id < 9
INSERT u (4, 11), (5, 3)
UPDATE u SET r = r + 1
UPDATE t SET k = 14 WHERE id < 9
DELETE u WHERE id < 3
DELETE t WHERE k > 15
INSERT t {rows(40, 45)}
ROLLBACK
"""
STANDING_QUERIES = """
SELECT a.s, b.id FROM t a, u b WHERE b.r = a.id
SELECT DISTINCT a.k, b.s FROM t a, t b WHERE a.k = b.k AND a.id < b.id
"""

# Savepoints, two of which have one name, and indexes created and dropped between them. A new index must reserve capacity for rows that were
# deleted before it was created, since a rollback may restore them.
DIVIDED = f"""
TABLE t (id INT KEY, k INT, s TEXT)
TABLE u (id INT KEY, r INT REF t)
INDEX by_k ON t (k) TREE
WATCH joined SELECT a.s, b.id FROM t a, u b WHERE b.r = a.id
INSERT t {rows(1, 20)}
INSERT u (1, 1), (2, 2), (3, 20)
BEGIN
DELETE t WHERE id > 2 AND id < 20
SAVEPOINT few
INDEX by_s ON t (s) TREE
INDEX by_r ON u (r) HASH
INSERT t {rows(41, 60)}
UPDATE u SET r = id + 40
SAVEPOINT more
DROP INDEX by_k
UPDATE t SET s = 'changed', id = id + 1000 WHERE id < 30
SAVEPOINT few
DELETE u
DELETE t
INDEX by_k ON t (k) HASH
ROLLBACK TO few
INSERT u (4, 1001)
ROLLBACK TO more
DELETE u WHERE id = 3
ROLLBACK TO few
INSERT t {rows(3, 19)}
ROLLBACK
"""
DIVIDED_QUERIES = """
SELECT a.id FROM t a WHERE a.s = 'text 4'
SELECT a.id FROM t a WHERE a.k >= 5 AND a.k < 9
SELECT b.id FROM u b WHERE b.r = 2
SELECT a.s, b.id FROM t a, u b WHERE b.r = a.id
"""


def lines_of(text):
    return text.strip().encode().split(b"\n")


def words(line):
    """Returns a line without a final carriage return and without the blanks around it."""
    return line.removesuffix(b"\r").strip(b" \t")


def takes_no_memory(line):
    """Returns whether the line never allocates: it begins or ends a transaction, or rolls back to a savepoint."""
    return words(line) in BEGINS_OR_ENDS or GOES_BACK.fullmatch(words(line)) is not None


def is_too_long(line):
    return len(line.removesuffix(b"\r")) > LONGEST_LINE


def has_reply(line):
    return is_too_long(line) or not (line.startswith(b"--") or not words(line))


def replies_in(written):
    """Returns the complete replies in the output, and the rest after them."""
    replies, reply = [], b""
    for line in io.BytesIO(written):
        reply += line
        if LAST_LINE_OF_REPLY.fullmatch(line):
            replies.append(reply)
            reply = b""
    return replies, reply


def shown(value):
    """Returns the start of a line or a reply, for messages."""
    return str(value)[1:160]


def difference(lines, wanted, replies):
    """Returns the first line of a script with a wrong reply, or None."""
    answered = [line for line in lines if has_reply(line)]
    for line, one, other in itertools.zip_longest(answered, wanted, replies, fillvalue=b"(nothing)"):
        if one != other:
            return f"{shown(line)}: expected {shown(one)}, got {shown(other)}"
    return None


class Run:
    """The output of a run, and its progress when the allocation failed."""

    def __init__(self, written, ended, report):
        self.growths, self.bytes_read, bytes_written = map(int, report.split() or [0, -1, -1])
        self.lines_answered = len(replies_in(written[: max(bytes_written, 0)])[0])
        self.replies, rest = replies_in(written)
        # An incomplete reply and an exit status other than 0 count as replies, so comparisons find them.
        self.replies += [rest] if rest else []
        self.replies += [ended] if ended != b"status 0" else []


def file_in_memory():
    return open(os.memfd_create("file"), "w+b")


def ended_within(process, seconds):
    """Waits until a process ends, and returns whether it has. Popen.wait would look for the end at intervals, which grow longer than a run."""
    descriptor = os.pidfd_open(process.pid)
    try:
        return bool(select.select([descriptor], [], [], seconds)[0])
    finally:
        os.close(descriptor)


def ran(command, library, refused="0", given=b"", stderr=None):
    """Runs a command. Returns its output, how it ended, and the library's report. `refused` is the number of the allocation that fails; with
    a final '+', all allocations from there to the next output fail."""
    with file_in_memory() as script, file_in_memory() as written, file_in_memory() as report:
        script.write(given)
        script.seek(0)
        names = {"LD_PRELOAD": library, "REFUSE_GROWTH": refused, "REFUSE_GROWTH_REPORT": str(report.fileno())}
        files = {"stdin": script, "stdout": written, "stderr": stderr, "pass_fds": [report.fileno()]}
        with subprocess.Popen(command, env=names, **files) as process:
            in_time = ended_within(process, SECONDS)
            if not in_time:
                process.kill()
        ended = b"status %d" % process.returncode if in_time else b"did not end within %d seconds" % SECONDS
        written.seek(0)
        report.seek(0)
        return written.read(), ended, report.read()


class Program:
    def __init__(self, path, library):
        self.path, self.library = path, library
        self.knows_transactions = self.run([b"BEGIN", b"ROLLBACK"]).replies != [b"error 11 syntax\n"] * 2

    def run(self, lines, refused="0"):
        """Returns the run of some lines in which an allocation fails; with a final '+', all allocations from there to the reply fail."""
        return Run(*ran([self.path], self.library, refused, b"\n".join(lines)))


class Script:
    """A script and its replies. `granted` are the numbers of the lines that must get `ok`. `same` are pairs of numbers of lines that must get
    the same reply. Allocations fail from the line `start` on."""

    def __init__(self, program, name, lines, granted=(), same=(), start=0):
        self.program, self.name, self.lines = program, name, lines
        self.granted, self.same = granted, same
        self.growths_before = program.run(lines[:start]).growths if start else 0
        self.answered = [place for place, line in enumerate(lines) if has_reply(line)]
        run = program.run(lines)
        self.replies, self.growths = run.replies, run.growths
        self.replies_without = {}

    def chosen_growths(self):
        each = self.growths_before + EACH_OF_THE_FIRST
        behind = range(each + THEN_ONE_IN, self.growths + 1, THEN_ONE_IN)
        return [*range(self.growths_before + 1, min(self.growths, each) + 1), *behind]

    def fault(self):
        """Returns the fault of the run without failures, or None."""
        if not self.growths:
            return "the run ended early, or the library was not loaded"
        if len(self.replies) != len(self.answered):
            return f"{len(self.answered)} lines got {len(self.replies)} replies"
        return self.broken_promise(self.replies)

    def fault_where_refused(self, refused):
        """Returns the fault of the run in which an allocation fails, or None."""
        run = self.program.run(self.lines, refused)
        if run.bytes_read == 0:
            return None if run.replies == [b"status 2"] else f"the output has no buffer, but the run wrote {run.replies}"
        if run.bytes_read < 0:
            return difference(self.lines, self.replies, run.replies) or "the run has no such allocation"
        if run.replies == self.replies:
            return None if refused.endswith("+") else self.fault_where_refused(refused + "+")
        at = run.lines_answered
        if run.replies[at : at + 1] != [MEMORY] or not self.may_want_memory(at):
            wrong = difference(self.lines, self.replies, run.replies)
        else:
            wrong = self.fault_behind(run.replies, at) or self.fault_given_twice(refused, at) or self.broken_promise(run.replies)
        return wrong and f"at {shown(self.line_of_reply(at))}: {wrong}"

    def line_of_reply(self, at):
        return self.lines[self.answered[at]] if at < len(self.answered) else b"(nothing)"

    def may_want_memory(self, at):
        line = self.line_of_reply(at)
        takes_none = self.program.knows_transactions and takes_no_memory(line)
        return not takes_none and not is_too_long(line)

    def fault_behind(self, replies, at):
        """Returns the fault in the replies after a 90, whose line must have changed nothing, or None."""
        if at not in self.replies_without:
            place = self.answered[at]
            self.replies_without[at] = self.program.run(self.lines[:place] + self.lines[place + 1 :]).replies
        others = self.replies_without[at]
        return difference(self.lines, others[:at] + [MEMORY] + others[at:], replies)

    def fault_given_twice(self, refused, at):
        """Returns the fault of the run in which the failed line occurs twice, or None."""
        place = self.answered[at]
        lines = self.lines[: place + 1] + self.lines[place:]
        wrong = difference(lines, self.replies[:at] + [MEMORY] + self.replies[at:], self.program.run(lines, refused).replies)
        return wrong and f"with the line repeated: {wrong}"

    def broken_promise(self, replies):
        """Returns the first line that did not get the required `ok` or the required repeated reply, or None."""
        reply_to = dict(zip(self.answered, replies))
        for place in self.granted:
            # If SAVEPOINT failed, there is no savepoint to roll back to.
            if reply_to[place] != b"ok\n" and not (reply_to[place] == NO_SUCH_SAVEPOINT and MEMORY in replies):
                return f"{shown(self.lines[place])} got {shown(reply_to[place])}"
        # If no table refers to a row, the lines before BEGIN can change it. Then there is nothing to compare.
        if any(reply_to[place].startswith(b"ok") for place, _ in self.same):
            return None
        for place, other in self.same:
            both = reply_to[place], reply_to[other]
            if MEMORY not in both and both[0] != both[1]:
                return f"{shown(self.lines[place])} got {shown(both[0])} before and {shown(both[1])} after the rollback"
        return None


def transactions(script):
    """Yields the places of each successful BEGIN and of the end of its transaction or of the script."""
    begin = None
    for place, reply in zip(script.answered, script.replies):
        if reply == b"ok\n" and words(script.lines[place]) in BEGINS_OR_ENDS:
            if begin is not None:
                yield begin, place
            begin = place if words(script.lines[place]) == b"BEGIN" else None
    if begin is not None:
        yield begin, len(script.lines)


def questions(before, queries=()):
    """Returns lines that read all tables, indexes and standing queries that the lines before them have defined."""
    defined = dict.fromkeys(found.groups() for found in map(DEFINITION.match, before) if found)
    return [*(QUESTION[kind] + name for kind, name in defined), b"TABLES", *queries]


def compared(asked, first, then, inside):
    """Returns the pairs of places of queries that run twice, before and after some lines, and must get the same reply. Excludes queries about
    an index that these lines create or drop."""
    indexes = [found.group(1) for found in map(INDEX_COMMAND.match, inside) if found]
    left_out = [QUESTION[b"INDEX"] + name for name in indexes] + ([b"TABLES"] if indexes else [])
    return [(first + number, then + number) for number, line in enumerate(asked) if line not in left_out]


def cuts(script, queries=()):
    """Yields two scripts for each line of a script's transactions, which end the transaction after that line."""
    for begin, end in transactions(script):
        before = script.lines[:begin]
        asked = questions(before, queries)
        for behind in filter(lambda place: has_reply(script.lines[place]), range(begin + 1, end)):
            inside = script.lines[begin + 1 : behind + 1]
            name = f"{script.name} up to line {behind + 1}"
            opened = begin + len(asked)
            closed = opened + 1 + len(inside)
            lines = before + asked + [b"BEGIN"] + inside + [b"ROLLBACK"] + asked
            same = compared(asked, begin, closed + 1, inside)
            yield Script(script.program, f"{name}, ROLLBACK", lines, (opened, closed), same, opened)
            closed = begin + 1 + len(inside)
            lines = before + [b"BEGIN"] + inside + [b"COMMIT", b"BEGIN", b"COMMIT"] + asked
            yield Script(script.program, f"{name}, COMMIT", lines, (begin, closed, closed + 1, closed + 2), (), begin)


def divisions(script, queries):
    """Yields a script for each line of a script's transactions. The script sets a savepoint in the middle of the lines up to that line, and
    rolls back to it after them. Skips lines that roll back in between, since they may remove the savepoint."""
    for begin, end in transactions(script):
        asked = questions(script.lines[:begin], queries)
        for behind in range(begin + 1, end):
            middle = (begin + behind) // 2 + 1
            then = script.lines[middle : behind + 1]
            if any(GOES_BACK.fullmatch(words(line)) for line in then):
                continue
            lines = script.lines[:middle] + [b"SAVEPOINT middle"] + asked + then + [b"ROLLBACK TO middle"] + asked
            start = middle + 1 + len(asked)
            back = start + len(then)
            same = compared(asked, middle + 1, back + 1, then)
            name = f"{script.name} up to line {behind + 1}, ROLLBACK TO"
            yield Script(script.program, name, lines, (begin, middle, back), same, start)


def kept_scripts(program):
    """Yields the scripts of tests/rows and examples."""
    for path in sorted(glob.glob(f"{TOP}/tests/rows/**/*.in", recursive=True)) + sorted(glob.glob(f"{TOP}/examples/*.mmdb")):
        with open(path, "rb") as file:
            yield Script(program, os.path.relpath(path, TOP), file.read().split(b"\n"))


def made_scripts(program):
    """Yields the generated scripts with transactions, whole and cut."""
    made = [
        ("indexed", INDEXED, INDEXED_QUERIES),
        ("referring", REFERRING, REFERRING_QUERIES),
        ("standing", STANDING, STANDING_QUERIES),
        ("divided", DIVIDED, DIVIDED_QUERIES),
    ]
    for name, text, queries in made:
        lines = lines_of(text)
        script = Script(program, name, lines, [place for place, line in enumerate(lines) if takes_no_memory(line)])
        yield script
        yield from cuts(script, lines_of(queries))
        yield from divisions(script, [line for line in lines_of(queries) if line.startswith(b"SELECT")])


def all_scripts(program):
    """Returns all scripts. Transactions are generated and cut only if the program supports them."""
    scripts = list(kept_scripts(program))
    if program.knows_transactions:
        scripts += [cut for script in scripts for cut in cuts(script)]
        scripts += made_scripts(program)
    return scripts


def tasks_of(script):
    """Returns the allocations of a script's run that fail, in batches."""
    growths, all_growths = script.chosen_growths(), script.growths - script.growths_before
    if len(growths) < all_growths:
        chosen = f"the first {EACH_OF_THE_FIRST} and then one in {THEN_ONE_IN}"
        print(f"{script.name}: of {all_growths} allocations, {chosen} fail")
    return [(script, growths[start : start + GROWTHS_OF_A_TASK]) for start in range(0, len(growths), GROWTHS_OF_A_TASK)]


def faults_of(task):
    """Returns the name of a script, and the faults of the runs in which these allocations fail."""
    script, growths = task
    faults = [(growth, script.fault_where_refused(str(growth))) for growth in growths]
    return script.name, [f"allocation {growth}, {fault}" for growth, fault in faults if fault]


def failures(scripts):
    """Returns the number of scripts that fail. Prints the first fault of each, and the number of further faults."""
    faults = {script.name: [fault] if (fault := script.fault()) else [] for script in scripts}
    tasks = [task for script in scripts for task in tasks_of(script)]
    with multiprocessing.Pool(os.cpu_count()) as pool:
        for name, found in pool.imap(faults_of, tasks):
            faults[name] += found
    for name, found in faults.items():
        if found:
            print(f"failed: {name}: {found[0]}" + (f" (and {len(found) - 1} more)" if found[1:] else ""))
    print(f"{sum(len(growths) for _, growths in tasks)} allocations failed, in runs of {len(scripts)} scripts")
    return sum(1 for found in faults.values() if found)


def lacks_transactions(program):
    """Returns whether the program has no transactions, which is a failure. Prints a message if so."""
    if not program.knows_transactions:
        print("failed: the program does not support BEGIN, so no transaction is tested")
    return not program.knows_transactions


class TypedTest:
    """A typed test of a crate. The crate's test program runs it alone."""

    def __init__(self, crate, name, library):
        self.name, self.library = f"{crate} {name}", library
        self.command = [test_program(crate), name]

    def run(self, refused):
        """Runs the test. Returns whether an allocation failed, whether a call under test failed, and the fault, or None."""
        written, ended, report = ran(self.command, self.library, refused, stderr=subprocess.STDOUT)
        was_refused = int((report.split() or [0, -1])[1]) >= 0
        if ended != b"status 0" or not written.endswith(TEST_PASSED):
            return was_refused, False, f"allocation {refused}: the test ended with {ended.decode()} and wrote {shown(written)}"
        return was_refused, WAS_REFUSED in written, None

    def refusals(self):
        """Returns the number of allocations that failed in runs of the test, up to the first fault, and the fault, or None."""
        calls_refused = 0
        for growth in itertools.count(1):
            was_refused, call_refused, fault = self.run(str(growth))
            if fault or not was_refused:
                break
            if not call_refused:
                _, call_refused, fault = self.run(f"{growth}+")
            if fault:
                break
            calls_refused += call_refused
        if not fault and call_refused:
            fault = "a call under test failed although no allocation did"
        if not fault and not calls_refused:
            fault = f"no call under test failed in {growth - 1} runs"
        return growth - 1, fault


def test_program(crate):
    return f"{TOP}/crates/{crate}/out/{crate}_tests"


def tests_in_sources(crate):
    """Yields the names of the typed tests in a crate's sources, with their modules, as its test program names them."""
    sources = f"{TOP}/crates/{crate}/src"
    for path in glob.glob(f"{sources}/**/*.rt", recursive=True):
        module = os.path.relpath(path, sources).removesuffix(".rt").replace("/", "::")
        with open(path, encoding="utf-8") as file:
            yield from (f"{module}::{name}" for name in TYPED_TEST.findall(file.read()))


def tests_in_program(crate):
    """Returns the names of the typed tests in a crate's test program, or an empty list if the program cannot run."""
    try:
        listed = subprocess.run([test_program(crate), "--list"], check=True, capture_output=True, text=True).stdout
    except (OSError, subprocess.CalledProcessError):
        return []
    return LISTED_TEST.findall(listed)


def typed_tests(crates, library):
    """Returns the typed tests in the programs of some crates, and the number of tests that are missing there. Prints the missing tests."""
    tests, missing = [], 0
    for crate in crates:
        wanted, found = set(tests_in_sources(crate)), set(tests_in_program(crate))
        tests += [TypedTest(crate, name, library) for name in sorted(found)]
        for name in sorted(wanted - found):
            print(f"failed: {crate} {name}: not in {test_program(crate)}, which 'rt ci' at the top of the repository builds")
            missing += 1
    return tests, missing


def refusals_of(test):
    return test.name, *test.refusals()


def failed_tests(tests):
    """Returns the number of typed tests that fail. Prints the fault of each."""
    growths, failed = 0, 0
    with multiprocessing.Pool(os.cpu_count()) as pool:
        for name, refused, fault in pool.imap(refusals_of, tests):
            growths += refused
            if fault:
                print(f"failed: {name}: {fault}")
                failed += 1
    print(f"{growths} allocations failed, in runs of {len(tests)} typed tests")
    return failed


def library_in(folder):
    """Builds the library that fails allocations in a folder, and returns its path."""
    library = f"{folder}/refuse_growth.so"
    try:
        subprocess.run(["cc", "-O2", "-shared", "-fPIC", "-o", library, f"{TOP}/tests/refuse_growth.c"], check=True)
    except FileNotFoundError:
        sys.exit("The C compiler cc is missing. The library that fails allocations needs it.")
    except subprocess.CalledProcessError:
        sys.exit("The C compiler cannot build tests/refuse_growth.c, the library that fails allocations.")
    return library


def run_scripts(path, library):
    """Returns the number of checks of scripts, including the check for transactions, and the number that fail."""
    if not os.access(path, os.X_OK):
        sys.exit(f"No program at {path}. 'tools/build' builds it.")
    program = Program(path, library)
    scripts = all_scripts(program)
    if not scripts:
        sys.exit("There are no scripts.")
    return len(scripts) + 1, lacks_transactions(program) + failures(scripts)


def run_tests(crates, library):
    """Returns the number of typed tests of some crates, and the number that fail."""
    tests, missing = typed_tests(crates, library)
    if not tests and not missing:
        sys.exit("There are no typed tests.")
    return len(tests) + missing, missing + failed_tests(tests)


def main():
    # A failing test aborts, which would otherwise leave a core file.
    resource.setrlimit(resource.RLIMIT_CORE, (0, 0))
    arguments = sys.argv[1:]
    with tempfile.TemporaryDirectory() as folder:
        library = library_in(folder)
        if arguments[:1] == ["--tests"]:
            results = [run_tests(arguments[1:], library)]
        elif arguments[:1] == ["--scripts"]:
            results = [run_scripts(os.path.abspath(arguments[1]), library)]
        else:
            path = os.path.abspath(arguments[0]) if arguments else f"{TOP}/crates/mmdb/out/mmdb"
            results = [run_scripts(path, library), run_tests(sorted(os.listdir(f"{TOP}/crates")), library)]
    run, failed = map(sum, zip(*results))
    print(f"{run - failed} passed, {failed} failed")
    return 1 if failed else 0


if __name__ == "__main__":
    sys.exit(main())
