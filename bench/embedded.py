"""Measures calls of mmdb and SQLite within one process, for bench/all: processor time, instructions and allocations of a call.

bench/embedded/mmdb.c uses libmmdb.a, and bench/embedded/sqlite.c the system's SQLite with its tables in memory. Each prepares its
statements once. Each kind of call runs outside a transaction and in one.
"""

import os
import re
import subprocess
from pathlib import Path

BENCH = Path(__file__).resolve().parent
# The names of the works of work.h, in the same order.
WORKS = [
    "look-up by key",
    "look-up by HASH",
    "range of ten along a TREE index",
    "join by a foreign key, one row",
    "`INSERT`",
    "`UPDATE` by key",
    "`UPDATE` of an indexed column",
    "`DELETE`",
    "a change, and `SHOW` of its list",
]
SYSTEMS = ["mmdb", "sqlite"]
FLAGS = ["-O2", "-std=c11", "-D_GNU_SOURCE", "-Wall", "-Wextra", "-Werror"]


def compile_all(prefix, folder):
    """Compiles both programs with the library in PREFIX, and the library that counts allocations."""
    for name, links in [("mmdb", [f"{prefix}/lib/libmmdb.a"]), ("sqlite", ["-lsqlite3"])]:
        source = BENCH / "embedded" / f"{name}.c"
        subprocess.run(["cc", *FLAGS, f"-I{prefix}/include", "-o", folder / name, source, *links], check=True)
    subprocess.run(["cc", "-O2", "-shared", "-fPIC", "-o", folder / "count.so", BENCH / "count.c"], check=True)


def instructions(command):
    """Returns the number of instructions of a run in user space."""
    counting = ["valgrind", "--tool=callgrind", "--callgrind-out-file=/dev/null", *command]
    written = subprocess.run(counting, capture_output=True, text=True, check=True).stderr
    return int(re.search(r"Collected : (\d+)", written)[1])


def allocations(folder, command):
    """Returns the number of allocations of a run."""
    preloaded = {**os.environ, "LD_PRELOAD": str(folder / "count.so")}
    written = subprocess.run(command, capture_output=True, text=True, check=True, env=preloaded).stderr
    return int(re.search(r"asked (\d+)", written)[1])


def nanoseconds(command):
    """Returns the processor time of a call in one run, in nanoseconds."""
    return float(subprocess.run(command, capture_output=True, text=True, check=True).stdout.split()[0])


def runs_of(folder, rows):
    """Yields each system, work and kind of transaction, with a function that returns the command for a number of calls."""
    for work, title in enumerate(WORKS):
        for transaction in (False, True):
            for name in SYSTEMS:
                arguments = ["transaction"] if transaction else []

                def command(calls, name=name, work=work, arguments=arguments):
                    return [folder / name, str(work), str(rows), str(calls), *arguments]

                yield {"rows": rows, "work": title, "name": name, "transaction": transaction}, command


def times(folder, rows, calls, runs):
    """Returns the nanoseconds of each kind of call: the minimum of some runs, which alternate between the systems."""
    commands = list(runs_of(folder, rows))
    taken = [[nanoseconds(command(calls)) for _, command in commands] for _ in range(runs)]
    return [{**head, "nanoseconds": min(run[place] for run in taken)} for place, (head, _) in enumerate(commands)]


def counts(folder, rows, calls):
    """Returns the instructions and allocations of each kind of call: those of a run with the calls, minus those of a run without."""
    found = []
    for head, command in runs_of(folder, rows):
        executed = instructions(command(calls)) - instructions(command(0))
        asked = allocations(folder, command(calls)) - allocations(folder, command(0))
        found.append({**head, "instructions": executed / calls, "allocations": asked / calls})
    return found
