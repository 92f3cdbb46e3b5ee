"""Compares the structures of references with plain Rust, for bench/all.

The program `bench_structures` and bench/structures/plain.rs use the same keys, orders and counts, and their runs alternate. Figures are
medians of the runs, in nanoseconds per entry of each pass. One more run with bench/structures/live.c measures the bytes of heap per entry
after the ascending and the other inserts. The program stops if two structures with the same algorithm find different entries in a pass.
"""
import os
import shutil
import statistics
import subprocess
import sys
import tempfile
from pathlib import Path

HERE = Path(__file__).resolve().parent
OURS = HERE.parent.parent / "crates" / "bench_structures" / "out" / "bench_structures"
PASSES = ["ascending", "insert", "look-up", "walk", "remove"]
# The bytes per entry of other tables (keys, shuffled entries, references) that are allocated when the line of a pass is
# written. For Partitions, the line is written at the end.
BESIDE = {"ascending": 8, "insert": 32}
BESIDE_BY_HASH = {name: 24 for name in ["HashRefs", "HashRefs_of_25", "LinearHash", "LinearHash_of_25", "HashMap"]}
BESIDE_UNORDERED = {**BESIDE_BY_HASH, "Partitions": 0, "slots": 16}
PLAIN = {
    "HashRefs": "LinearHash",
    "HashRefs_of_25": "LinearHash_of_25",
    "TTree": "unsafe_TTree",
    "SortedRefs": "sorted_Vec",
    "Partitions": "slots",
}


def build(folder):
    """Builds the two programs. Returns their commands, and the library that counts their memory."""
    plain = folder / "plain"
    options = ["--edition", "2021", "-C", "opt-level=3"]
    subprocess.run(["rustc", *options, "-o", plain, HERE / "plain.rs"], check=True)
    live = folder / "live.so"
    subprocess.run(["cc", "-O2", "-shared", "-fPIC", "-o", live, HERE / "live.c"], check=True)
    return [[OURS, "time"], [plain]], live


def times(program):
    """Returns the time and the sum of a run, by structure, count and pass."""
    lines = subprocess.run(program, check=True, capture_output=True, text=True).stdout.splitlines()
    taken = {}
    for structure, name, count, nanoseconds, found in map(str.split, lines):
        taken[structure, int(count), name] = (int(nanoseconds) / int(count), int(found))
    return taken


def memory(program, live):
    """Returns the bytes of heap per entry, by structure, count and pass."""
    preloaded = dict(os.environ, LD_PRELOAD=str(live))
    run = subprocess.run(program, check=True, capture_output=True, text=True, env=preloaded)
    held = {}
    for line, bytes_in_use in zip(run.stdout.splitlines(), run.stderr.splitlines()):
        structure, name, count, _, _ = line.split()
        if name in BESIDE:
            beside = BESIDE_UNORDERED.get(structure, BESIDE[name])
            held[structure, int(count), name] = int(bytes_in_use) / int(count) - beside
    return held


def compare(ours, plain):
    """Ends the program if two structures with the same algorithm have different sums."""
    for (structure, count, name), (_, found) in ours.items():
        other = plain[PLAIN[structure], count, name][1]
        if found != other:
            sys.exit(f"{structure} {count} {name}: found {found}, plain {other}")


def missing():
    """Returns the first missing program or file, or None."""
    return next((name for name in ("rustc", "cc") if not shutil.which(name)), None if OURS.is_file() else OURS)


def irrelevance(runs):
    """Returns the nanoseconds of one search that shows a row to be irrelevant, by query and row."""
    taken = [times([OURS, "irrelevance"]) for _ in range(runs)]
    return [{"query": key[0], "row": key[2], "ns": statistics.median(found[key][0] for found in taken)} for key in taken[0]]


def figures(runs):
    """Returns the nanoseconds of each pass and the bytes, by structure and number of entries, and the searches for irrelevant rows."""
    with tempfile.TemporaryDirectory() as folder:
        programs, live = build(Path(folder))
        taken = [[times(program) for program in programs] for _ in range(runs)]
        held = [memory(program, live) for program in programs]
    compare(*taken[0])
    found = []
    for side, of_program, bytes_held in zip(("mmdb", "plain"), zip(*taken), held):
        for structure, count in dict.fromkeys(key[:2] for key in of_program[0]):
            passes = [name for name in PASSES if (structure, count, name) in of_program[0]]
            medians = {name: statistics.median(run[structure, count, name][0] for run in of_program) for name in passes}
            heap = {name: bytes_held[structure, count, name] for name in BESIDE if (structure, count, name) in bytes_held}
            found.append({"side": side, "structure": structure, "entries": count, "ns": medians, "bytes": heap})
    return {"structures": found, "irrelevance": irrelevance(runs)}
