#!/usr/bin/env python3
"""Checks the form of the repository: the length of lines, the graph of crates, the README of each crate, and the tables of figures.

    tests/form.py
    tests/form.py --graph
    tests/form.py --long

- A line of a .rt, .antt, .edit or .py file has at most 160 characters. MOST_LONG_LINES has the number of older lines that are longer, by
  kind of file. These numbers may only fall. If a kind of file exceeds its number, the program prints all its long lines.
- The graph of crates between the two marks of docs/ARCHITECTURE.md agrees with crates.txt. For each floor, it lists the crates. For each
  crate, it lists the crates that it uses and does not also reach through another one.
- Each crate of crates.txt has a README.md.
- docs/benchmarks/figures.md, and the table between marks in README.md, equal the output of bench/tables.py for figures.json.

--graph prints the graph, and --long prints each line that is too long. The exit status is 0 if all checks pass. Takes a second.
"""

import json
import os
import re
import sys

sys.dont_write_bytecode = True
TOP = os.path.dirname(os.path.dirname(os.path.abspath(__file__)))
sys.path.append(os.path.join(TOP, "bench"))
import tables  # noqa: E402

LONGEST_LINE = 160
MOST_LONG_LINES = {".antt": 0, ".edit": 3, ".py": 0, ".rt": 35}
DOCUMENT, BEGINS, ENDS = "docs/ARCHITECTURE.md", "<!-- crates.txt -->", "<!-- end -->"
FLOOR = re.compile(r"# ([A-Z][a-z]+(?: [a-z]+)*): ")


def read(path):
    with open(os.path.join(TOP, path), encoding="utf-8") as file:
        return file.read()


# ---- lines


def files():
    """Yields the paths of the repository's files, without build products."""
    for folder, folders, names in os.walk(TOP):
        folders[:] = sorted(name for name in folders if name not in (".git", "out", "__pycache__"))
        yield from (os.path.relpath(os.path.join(folder, name), TOP) for name in sorted(names))


def long_lines():
    """Returns the lines that are too long, by kind of file, each as file, line number and length."""
    found = {kind: [] for kind in MOST_LONG_LINES}
    for path in files():
        lines = found.get(os.path.splitext(path)[1])
        if lines is not None:
            sized = ((number, len(line)) for number, line in enumerate(read(path).split("\n"), 1))
            lines += [f"{path}:{number}: {size} characters" for number, size in sized if size > LONGEST_LINE]
    return found


def faults_of_lines():
    """Yields the long lines of each kind of file that has more than allowed. Prints a note if a limit can be lowered."""
    for kind, lines in long_lines().items():
        most = MOST_LONG_LINES[kind]
        if len(lines) > most:
            yield from lines
            yield f"{len(lines)} lines of {kind} files have more than {LONGEST_LINE} characters; the limit is {most} lines"
        elif len(lines) < most:
            print(f"{len(lines)} lines of {kind} files have more than {LONGEST_LINE} characters: lower MOST_LONG_LINES to this number")


# ---- crates


def floors():
    """Returns the crates of each floor of crates.txt, from the lowest floor up. A floor is a comment followed by a blank line."""
    lines = read("crates.txt").splitlines()
    found = {}
    for line, following in zip(lines, [*lines[1:], ""]):
        floor = FLOOR.match(line)
        if floor and not following:
            crates = found[floor[1]] = []
        elif line and not line.startswith("#"):
            crates.append(line.partition(":")[0].split()[0])
    return found


def named():
    """Returns the crates of the repository that each crate uses directly."""
    lines = [line.partition(":") for line in read("crates.txt").splitlines() if line and not line.startswith("#")]
    below = {head.split()[0]: others.split() for head, _, others in lines}
    return {name: [other for other in others if other in below] for name, others in below.items()}


def reached(crate, below):
    """Returns all crates that a crate uses, directly or not."""
    return set(below[crate]).union(*(reached(other, below) for other in below[crate]))


def graph():
    """Returns the lines of the graph: for each crate of a floor, the crates that it uses directly and not also through another one."""
    below = named()
    width = max(map(len, below))
    lines = []
    for floor, crates in floors().items():
        lines += ["", floor] if lines else [floor]
        for crate in crates:
            farther = set().union(*(reached(other, below) for other in below[crate]))
            nearest = [other for other in below[crate] if other not in farther]
            lines.append(f"  {crate:{width}} ──► {', '.join(nearest)}" if nearest else f"  {crate}")
    return lines


def faults_of_graph():
    before, _, behind = read(DOCUMENT).partition(BEGINS)
    between, end, _ = behind.partition(ENDS)
    shown = [line for line in between.strip().splitlines() if not line.startswith("```")]
    if not end:
        yield f"{DOCUMENT} lacks one of the marks {BEGINS} and {ENDS}"
    elif shown != graph():
        number = before.count("\n") + 1
        yield f"{DOCUMENT}:{number}: the graph differs from that of crates.txt, which 'tests/form.py --graph' prints"


def faults_of_readmes():
    return (f"crates/{crate} has no README.md" for crate in named() if not os.path.isfile(f"{TOP}/crates/{crate}/README.md"))


def faults_of_figures():
    figures = json.loads(read("docs/benchmarks/figures.json"))
    texts = {"README.md": tables.readme(read("README.md"), figures), "docs/benchmarks/figures.md": tables.document(figures)}
    for path, text in texts.items():
        if read(path) != text:
            yield f"{path}: the tables differ from docs/benchmarks/figures.json; run 'bench/all --part tables'"


def main():
    if "--graph" in sys.argv:
        print("\n".join(graph()))
        return 0
    if "--long" in sys.argv:
        print("\n".join(line for lines in long_lines().values() for line in lines))
        return 0
    checks = [list(faults_of_lines()), list(faults_of_graph()), list(faults_of_readmes()), list(faults_of_figures())]
    for fault in (fault for faults in checks for fault in faults):
        print(fault)
    failed = sum(1 for faults in checks if faults)
    print(f"{len(checks) - failed} passed, {failed} failed")
    return 1 if failed else 0


if __name__ == "__main__":
    sys.exit(main())
