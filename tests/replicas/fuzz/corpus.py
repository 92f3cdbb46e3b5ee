#!/usr/bin/env python3
"""Makes first inputs for the harnesses in this folder.

    corpus.py FOLDER [HISTORY ..]

FOLDER gets the folders messages, snapshots and requests. The inputs are made of small logs and snapshots, and of the messages of histories
that storm.py wrote. Status 0.
"""

import random
import sys
from hashlib import sha256
from pathlib import Path

sys.path.insert(0, str(Path(__file__).resolve().parent.parent))

import history  # noqa: E402
from history import Logged, bytes_of  # noqa: E402
from schedule import DEFINITIONS, NO_SCRIPTS, QUESTIONS_AT_END, Calls  # noqa: E402

IDENTITY = "0123456789abcdef"
ZEROS = "0" * 32
SEPARATOR = b"\x1e"
OUTCOMES = 4
SCRIPT, QUESTION, HEADER, SUM = b"\x00", b"\x01", b"\x02", b"\x03"  # the first byte of a request


def entry(name: str, since: int, flags: int, script: bytes) -> bytes:
    return f"{name} {since} {flags} {len(script)}\n".encode() + script + b"\n"


def message(number: int, *entries: bytes) -> bytes:
    return f"2\n{number - 1} {ZEROS}\n".encode() + b"".join(entries)


def logs() -> list[bytes]:
    calls = Calls(1, "k0")
    first = [message(place, entry(f"d-{place}", 0, 0, line.encode())) for place, line in enumerate(DEFINITIONS, 1)]
    found = []
    for size in range(0, 12, 3):
        scripts = [entry(f"k-{place}", place, place % 2, calls.script().encode()) for place in range(size + 1)]
        last = [message(len(first) + 1, *scripts), message(1, *scripts), message(9, entry("j", 0, 0, NO_SCRIPTS[0]))]
        found.append(SEPARATOR.join([*first, *last]))
    return found


def snapshot() -> bytes:
    """A snapshot with ids, tables, an index and a standing query. Its sum of the rows is not right, so its end is not reached."""
    lines = ["-- mmdb snapshot 2", f"-- log fuzz {IDENTITY}", "-- sequence 1000"]
    lines += [f"-- before {ZEROS}", f"-- chain {ZEROS}", "-- forgotten 3", "-- replica r0", f"-- sum {ZEROS}"]
    for outcome in range(OUTCOMES):
        lines += [f"-- id i-{outcome} {900 + outcome} {ZEROS} {outcome} 2", "-- > ok", "-- > error 40 duplicate key"]
    lines += [line.rstrip("\n") for line in DEFINITIONS]
    data = "".join(line + "\n" for line in lines).encode()
    return data + b"-- end " + sha256(data).hexdigest()[:32].encode() + b"\n"


def requests() -> list[bytes]:
    calls = Calls(2, "k1")
    found = [SCRIPT + calls.script().encode() for _ in range(40)] + [SCRIPT + script for script in NO_SCRIPTS]
    found += [SCRIPT + line.encode() for line in DEFINITIONS]
    found += [QUESTION + question.encode() for question in [*QUESTIONS_AT_END, "EXPLAIN SELECT t.id FROM t t", "SCAN t", "SHOW w"]]
    found += [HEADER + value for value in (b"17", b"18446744073709551616", f"5 {ZEROS}".encode(), b"r0", b"")]
    return found + [SUM + f"r0 {IDENTITY} 40 {ZEROS}".encode()]


def log_of(path: Path) -> bytes:
    messages = [one for one in history.read(path) if isinstance(one, Logged) and one.seen == "end"]
    chosen = random.Random(0).sample(messages, min(30, len(messages)))
    heads = [[one.headers.get("Mmdb-Format", "-"), one.headers.get("Mmdb-Checked", "-")] for one in chosen]
    return SEPARATOR.join("\n".join([*head, ""]).encode() + bytes_of(one.body) for head, one in zip(heads, chosen))


def main() -> int:
    folder, *paths = map(Path, sys.argv[1:])
    inputs = {"messages": [*logs(), *map(log_of, paths)], "requests": requests(), "snapshots": [b"\x00" + snapshot(), b"\x01" + snapshot()]}
    for kind, data in inputs.items():
        (folder / kind).mkdir(parents=True, exist_ok=True)
        for place, one in enumerate(data):
            (folder / kind / f"made-{place}").write_bytes(one)
    return 0


if __name__ == "__main__":
    sys.exit(main())
