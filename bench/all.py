#!/usr/bin/env python3
"""Measures mmdb and SQLite, and writes all tables and plots of README.md and docs/benchmarks. One run measures one build for all of them.

    bench/all [--quick] [--part NAME ..] [--rows NUMBER,..] [--runs NUMBER] [--prefix PREFIX] [--to FOLDER] [PROGRAM]

PROGRAM defaults to crates/mmdb/out/mmdb, and PREFIX to a temporary folder in which tools/install installs the library. The machine should
be otherwise idle. --quick uses fewer rows and runs. The parts:

    instructions  instructions and allocations of single lines, over 20,000 rows. Other work on the machine does not affect them.
    times         processor time of the workloads of bench/workloads.py, at 10^3 to 10^6 rows. Each figure is a median of some runs.
    memory        bytes of resident memory per row, per change of an open transaction, and per row of a standing query, at 10^4 to 10^6 rows
    calls         processor time of calls within one process (bench/embedded.py), at 10^4 to 10^6 rows
    counts        instructions and allocations of the same calls, at 10^4 rows
    clients       processor time of a call from C, Rust and Python (bench/clients.py)
    structures    the index structures and plain Rust. Needs rustc, and crates/bench_structures/out/bench_structures, which `rt ci` builds;
                  skipped if one is missing, and with --quick

--part may be repeated, and `--part tables` measures nothing. FOLDER is docs/benchmarks by default, or bench/out with --quick. The program
writes figures.json, figures.md and *.svg there. Parts that this run does not measure keep the figures of the existing figures.json. If FOLDER
is docs/benchmarks, the program also writes the table between the marks of README.md.

The baseline is SQLite with its tables in memory (bench/sqlite_peer.c). Both programs read lines from a pipe, and write and flush a reply to
each. Their replies must be equal except for the order of rows. Each join must use the plan that its name states.

On Debian: apt-get install python3 python3-matplotlib python3-dev python3-pip python3-setuptools python3-wheel gcc cargo libsqlite3-dev
valgrind
"""
import argparse
import fcntl
import json
import os
import platform
import re
import shutil
import statistics
import subprocess
import sys
import tempfile
import time
import zlib
from pathlib import Path

import clients
import embedded
import tables
import workloads
from structures import beside_plain

BENCH = Path(__file__).resolve().parent
TOP = BENCH.parent
PARTS = ["instructions", "times", "memory", "calls", "counts", "clients", "structures"]
RUNS = {1_000: 9, 10_000: 7, 100_000: 5, 1_000_000: 3}
F_SETPIPE_SZ = 1031
# The last line of each phase, and its reply, which differs from all other replies.
MARKS = {"mmdb": ("SCAN nope", b"error 20 no such table\n"), "sqlite": ("SELECT * FROM nope", b"error no such table: nope\n")}


class System:
    """A program under test, with the translation of lines for the program."""

    def __init__(self, name, command, is_mmdb):
        self.name, self.command, self.is_mmdb = name, command, is_mmdb

    def scripts(self, parts):
        """Returns the parts of a script in the system's language."""
        columns = {}
        own = (workloads.in_mmdb(lines) if self.is_mmdb else workloads.in_sql(lines, columns) for lines in parts)
        return ["".join(line + "\n" for line in lines) for lines in own]

    def script(self, lines):
        return self.scripts([lines])[0]


class Running:
    """A running system. The process reads from a pipe, and overwrites a file in memory."""

    replies = os.memfd_create("replies")

    def __init__(self, system):
        self.system = system
        self.mark, self.marked = MARKS["mmdb" if system.is_mmdb else "sqlite"]
        self.process = subprocess.Popen(system.command, stdin=subprocess.PIPE, stdout=self.replies, bufsize=0)
        fcntl.fcntl(self.process.stdin, F_SETPIPE_SZ, 1 << 20)

    def __enter__(self):
        return self

    def __exit__(self, *_):
        self.process.stdin.close()
        self.process.wait()

    def clock(self):
        """Returns the processor time of the process in nanoseconds."""
        return time.clock_gettime_ns(~self.process.pid << 3 | 2)

    def given(self, script):
        """Sends some lines. Returns the processor time until the last reply, in nanoseconds."""
        os.lseek(self.replies, 0, os.SEEK_SET)
        left, start = memoryview((script + self.mark + "\n").encode()), self.clock()
        while left:
            left = left[os.write(self.process.stdin.fileno(), left) :]
        while not self.is_marked():
            if self.process.poll() is not None:
                sys.exit(f"{self.system.name} ended with {self.process.returncode}")
            time.sleep(0.0005)
        return self.clock() - start

    def is_marked(self):
        end = os.lseek(self.replies, 0, os.SEEK_CUR) - len(self.marked)
        return end >= 0 and os.pread(self.replies, len(self.marked), end) == self.marked

    def answered(self):
        """Returns the replies to the lines that were sent last. Ends the program if one of them is an error."""
        end = os.lseek(self.replies, 0, os.SEEK_CUR) - len(self.marked)
        parts, start = [], 0
        while start < end:
            parts.append(os.pread(self.replies, end - start, start))
            start += len(parts[-1])
        replies = b"".join(parts)
        refused = re.search(rb"^error .*", replies, re.MULTILINE)
        if refused:
            sys.exit(f"{self.system.name}: {refused[0].decode()}")
        return replies

    def peak(self):
        """Returns the peak of resident memory in bytes."""
        return int(re.search(r"VmHWM:\s+(\d+)", Path(f"/proc/{self.process.pid}/status").read_text())[1]) * 1024


def checksum(replies):
    """Returns a checksum of the lines that does not depend on their order."""
    return sum(map(zlib.crc32, replies.split(b"\n")))


def note(text):
    print(text, file=sys.stderr, flush=True)


# ---- instructions


def with_input(script, folder):
    path = folder / "script"
    path.write_text(script, encoding="ascii")
    return path.open("rb")


def instructions(command, script, folder):
    """Returns the number of instructions of a run in user space."""
    counting = ["valgrind", "--tool=callgrind", f"--callgrind-out-file={folder / 'callgrind'}", *command]
    with with_input(script, folder) as given:
        written = subprocess.run(counting, stdin=given, stdout=subprocess.DEVNULL, stderr=subprocess.PIPE, text=True, check=True).stderr
    return int(re.search(r"Collected : (\d+)", written)[1])


def allocations(command, script, folder):
    """Returns the number of allocations of a run."""
    preloaded = dict(os.environ, LD_PRELOAD=str(folder / "count.so"))
    with with_input(script, folder) as given:
        written = subprocess.run(command, stdin=given, stdout=subprocess.DEVNULL, stderr=subprocess.PIPE, text=True, env=preloaded, check=True).stderr
    return int(re.search(r"asked (\d+)", written)[1])


def measure_instructions(systems, options, folder):
    """Returns the instructions and allocations of mmdb and the instructions of SQLite, for one line of each operation."""
    if not shutil.which("valgrind"):
        sys.exit("valgrind is missing: apt-get install valgrind")
    rows, lines = (2_000, 500) if options.quick else (20_000, 2_000)
    subprocess.run(["cc", "-O2", "-shared", "-fPIC", "-o", folder / "count.so", BENCH / "count.c"], check=True)
    counts = {"mmdb": (instructions, systems["mmdb"]), "allocations": (allocations, systems["mmdb"]), "prepared": (instructions, systems["prepared"])}
    filled, found = {}, []
    for name, before, operation in workloads.operations(rows, lines):
        each = {"work": name}
        for key, (count, system) in counts.items():
            fills, whole = system.script(before), system.script(before + operation)
            if (key, fills) not in filled:
                filled[key, fills] = count(system.command, fills, folder)
            # SQLite cannot prepare a statement that it refuses.
            each[key] = None if key == "prepared" and "refused" in name else (count(system.command, whole, folder) - filled[key, fills]) / lines
        found.append(each)
        note(each)
    return {"rows": rows, "operations": found}


# ---- times


def check_plan(running, phase):
    """Ends the program if mmdb does not use the phase's plan."""
    running.given("EXPLAIN " + phase.lines[0] + "\n")
    plan = running.answered().decode()
    if phase.plan not in plan:
        sys.exit(f"{phase.name}: the plan is\n{plan}")


def timed_run(system, workload, scripts, sums=None):
    """Returns the nanoseconds of each phase. If `sums` is a list, appends checksums of the replies to each phase and to the last queries."""
    spent = []
    with Running(system) as running:
        for phase, script in zip(workload.phases, scripts):
            if sums is not None and phase.plan and system.is_mmdb:
                check_plan(running, phase)
            spent.append(running.given(script))
            if sums is not None:
                replies = running.answered()
                # The replies to other lines, such as definitions, differ between the systems.
                sums.append(checksum(replies) if phase.name and not phase.lines[0].startswith("WATCH") else 0)
        if sums is not None:
            running.given(scripts[-1])
            sums.append(checksum(running.answered()))
    return spent


def timed_workload(systems, workload, runs):
    """Returns the median nanoseconds per unit in each system, for each measured phase. All replies of the first run must be equal."""
    parts = [*(phase.lines for phase in workload.phases), workload.at_end]
    scripts = {name: system.scripts(parts) for name, system in systems.items()}
    sums = {name: [] for name in systems}
    taken = [{name: timed_run(system, workload, scripts[name], sums[name]) for name, system in systems.items()}]
    differing = [name for name in systems if sums[name] != sums["prepared"]]
    if differing:
        sys.exit(f"{workload.name}: the replies of {' and '.join(differing)} differ")
    taken += [{name: timed_run(system, workload, scripts[name]) for name, system in systems.items()} for _ in range(runs - 1)]
    found = {}
    for place, phase in enumerate(workload.phases):
        if phase.name:
            found[phase.name] = {name: statistics.median(run[name][place] for run in taken) / phase.units for name in systems}
    return found


def measure_times(systems, options, folder):
    """Returns the nanoseconds per unit in each system, for each number of rows and each work. SQLite with parsed lines is measured at
    one number of rows only."""
    sizes, found = options.rows, []
    middle = tables.middle_size(sizes)
    for rows in sizes:
        chosen = {name: system for name, system in systems.items() if rows == middle or name != "parsed"}
        runs = options.runs or (3 if options.quick else RUNS.get(rows, 3))
        start = time.monotonic()
        for group, made in workloads.GROUPS:
            for workload in made(rows):
                if rows > workload.most_rows:
                    continue
                units = {phase.name: phase.unit for phase in workload.phases}
                for work, spent in timed_workload(chosen, workload, runs).items():
                    found.append({"group": group, "work": work, "unit": units[work], "rows": rows, **spent})
        note(f"times at {rows:,} rows: {runs} runs in {time.monotonic() - start:.0f} s")
    return {"sizes": sizes, "middle": middle, "figures": found}


# ---- memory


def peak_of(system, lines):
    with Running(system) as running:
        running.given(system.script(lines))
        return running.peak()


def measure_memory(systems, options, folder):
    """Returns the bytes of resident memory per unit of some works: the peak with the work, minus the peak without it."""
    found = []
    for rows in (size for size in options.rows if size >= 10_000):
        for kind, unit, units, before, lines in workloads.kept(rows):
            each = {name: (peak_of(systems[name], [*before, *lines]) - peak_of(systems[name], before)) / units for name in ("mmdb", "prepared")}
            found.append({"kind": kind, "unit": unit, "rows": rows, **each})
            note(f"memory, {kind}, {rows:,}: {each}")
    return found


# ---- calls within one process


def installed(options, folder):
    """Returns a folder with the library: PREFIX, or a temporary folder in which tools/install installs it."""
    if options.prefix:
        return options.prefix.resolve()
    subprocess.run(["bash", TOP / "tools/install", folder / "prefix"], check=True, stdout=subprocess.DEVNULL)
    return folder / "prefix"


def measure_calls(systems, options, folder):
    """Returns the nanoseconds of calls at each number of rows from 10,000 on."""
    embedded.compile_all(installed(options, folder), folder)
    found = []
    for rows in (size for size in options.rows if size >= 10_000):
        start, runs = time.monotonic(), options.runs or (3 if rows < 1_000_000 else 1)
        found += embedded.times(folder, rows, 4_000, runs)
        note(f"calls at {rows:,} rows: {runs} runs in {time.monotonic() - start:.0f} s")
    return found


def measure_counts(systems, options, folder):
    """Returns the instructions and allocations of calls over 10,000 rows."""
    embedded.compile_all(installed(options, folder), folder)
    return embedded.counts(folder, 10_000, 500 if options.quick else 4_000)


def measure_clients(systems, options, folder):
    """Returns the nanoseconds of calls from each client over 10,000 rows."""
    prefix = installed(options, folder)
    embedded.compile_all(prefix, folder)
    return clients.figures(prefix, folder, 10_000, 10_000)


# ---- structures


def measure_structures(systems, options, folder):
    """Returns the figures of the structures and of plain Rust, or None if a program is missing."""
    missing = beside_plain.missing()
    if missing:
        note(f"structures: skipped, because {missing} is missing")
        return None
    return beside_plain.figures(options.runs or 3)


MEASURES = {
    "instructions": measure_instructions,
    "times": measure_times,
    "memory": measure_memory,
    "calls": measure_calls,
    "counts": measure_counts,
    "clients": measure_clients,
    "structures": measure_structures,
}


# ---- the program


def machine():
    """Returns a description of this machine."""
    model = re.search(r"model name\s*: (.*)", Path("/proc/cpuinfo").read_text())
    memory = int(re.search(r"MemTotal:\s+(\d+)", Path("/proc/meminfo").read_text())[1]) / (1 << 20)
    return {
        "processor": model[1] if model else platform.machine(),
        "processors": os.cpu_count(),
        "memory": f"{memory:.0f} GiB",
        "system": f"{platform.system()} {platform.release()}, glibc {platform.libc_ver()[1]}",
        "load": f"{os.getloadavg()[0]:.1f}",
    }


def write_plots(folder):
    """Draws the plots with this Python, or with the system's, which has Debian's matplotlib."""
    for python in (sys.executable, "/usr/bin/python3"):
        if python and not subprocess.run([python, "-c", "import matplotlib"], stderr=subprocess.DEVNULL).returncode:
            subprocess.run([python, BENCH / "plots.py", folder], check=True)
            return
    note("no plots, because matplotlib is missing: apt-get install python3-matplotlib")


def options_of(words):
    parser = argparse.ArgumentParser(description=__doc__, formatter_class=argparse.RawDescriptionHelpFormatter)
    parser.add_argument("--quick", action="store_true")
    parser.add_argument("--part", action="append", choices=[*PARTS, "tables"])
    parser.add_argument("--rows", type=lambda text: [int(float(word)) for word in text.split(",")])
    parser.add_argument("--runs", type=int)
    parser.add_argument("--prefix", type=Path)
    parser.add_argument("--to", type=Path)
    parser.add_argument("program", nargs="?", type=Path, default=TOP / "crates/mmdb/out/mmdb")
    options = parser.parse_args(words)
    options.rows = options.rows or ([1_000, 10_000] if options.quick else list(RUNS))
    options.to = options.to or (BENCH / "out" if options.quick else TOP / "docs/benchmarks")
    options.part = options.part or (PARTS[:-1] if options.quick else PARTS)
    options.program = options.program.resolve()
    return options


def main():
    options, start = options_of(sys.argv[1:]), time.monotonic()
    options.to.mkdir(parents=True, exist_ok=True)
    store = options.to / "figures.json"
    figures = json.loads(store.read_text()) if store.is_file() else {}
    wanted = [part for part in PARTS if part in options.part]
    if {"instructions", "times", "memory"} & {*wanted} and not os.access(options.program, os.X_OK):
        sys.exit(f"No program at {options.program}. 'tools/build' builds it.")
    version = subprocess.run(["bash", TOP / "tools/install", "--version"], capture_output=True, text=True, check=True).stdout.strip()
    with tempfile.TemporaryDirectory() as name:
        folder = Path(name)
        peer = folder / "sqlite_peer"
        if wanted:
            subprocess.run(["cc", "-O2", "-o", peer, BENCH / "sqlite_peer.c", "-lsqlite3"], check=True)
            figures["sqlite"] = subprocess.run([peer, "version"], capture_output=True, text=True, check=True).stdout.strip()
        systems = {
            "mmdb": System("mmdb", [options.program], True),
            "prepared": System("SQLite", [peer, "prepared"], False),
            "parsed": System("SQLite, parsed", [peer, "parsed"], False),
        }
        for part in wanted:
            made_on, began = machine(), time.monotonic()
            found = MEASURES[part](systems, options, folder)
            if found:
                seconds = round(time.monotonic() - began)
                figures[part] = {"version": version, "machine": made_on, "seconds": seconds, "found": found}
                store.write_text(json.dumps(figures, indent=1) + "\n")
    (options.to / "figures.md").write_text(tables.document(figures))
    if options.to.resolve() == TOP / "docs/benchmarks":
        (TOP / "README.md").write_text(tables.readme((TOP / "README.md").read_text(encoding="utf-8"), figures), encoding="utf-8")
    write_plots(options.to)
    note(f"{options.to}/figures.md written after {time.monotonic() - start:.0f} s")


if __name__ == "__main__":
    main()
