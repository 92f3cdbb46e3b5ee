#!/usr/bin/env python3
"""Measures replicas on one machine, over loopback, and prints the figures as tables in Markdown.

    bench/replicas.py PROGRAMS MMDB

PROGRAMS is the folder of mmdb-replica and mmdb-ask, which the script `replicas` in this folder builds. MMDB is the program.

    changes     changes per second and changes per message of the log, with three replicas and 16 writers: one change per request with one
                and with three servers, and 100 changes per request with three servers
    answers     look-ups by key per second, with one, two and three replicas, one server and 16 askers, over 10^5 rows
    start       seconds until a replica is ready, from a snapshot of 10^6 rows
    a message   processor time of a replica for a change, processor time of the program for the same line, and bytes of the log

All processes, including the servers, the writers and the askers, share the processors of the machine.
"""

import os
import subprocess
import sys
import tempfile
import threading
import time
from pathlib import Path

sys.path.insert(0, str(Path(__file__).resolve().parent.parent / "tests" / "replicas"))
from cluster import LOG, Cluster, Process, must  # noqa: E402
from wire import Connection, patient  # noqa: E402

ASKERS, CHANGES, LOOK_UPS, ROWS, MANY_ROWS = 16, 1000, 4000, 100_000, 1_000_000
ROWS_IN_LINE, LINES_IN_SCRIPT = 100, 50
TICKS = os.sysconf("SC_CLK_TCK")
TABLE = "TABLE t (id INT KEY, k INT, s TEXT)\n"


def processor_seconds(process: Process) -> float:
    """Returns the user and system time of a process so far."""
    assert process.running
    fields = Path(f"/proc/{process.running.pid}/stat").read_text().rpartition(")")[2].split()
    return (int(fields[11]) + int(fields[12])) / TICKS


class Bench:
    """A cluster with replicas, for one measurement."""

    def __init__(self, programs: str, servers: int, replicas: int, *options: str):
        self.folder = tempfile.TemporaryDirectory()
        self.cluster = Cluster(Path(self.folder.name), Path(programs), servers)
        self.until = time.monotonic() + 300
        for server in self.cluster.servers:
            server.start()
        self.cluster.make_log(self.until)
        self.connection = Connection(self.cluster.addresses)
        for number in range(replicas):
            self.add_replica(f"r{number}", *options)

    def __enter__(self) -> "Bench":
        return self

    def __exit__(self, *_: object) -> None:
        self.cluster.close()
        self.folder.cleanup()

    def add_replica(self, name: str, *options: str) -> float:
        """Starts a replica. Returns the seconds until the replica is ready."""
        began = time.monotonic()
        self.cluster.replica(name, *options).wait_until_it_says("is ready at number", self.until)
        return time.monotonic() - began

    def state(self) -> dict:
        return patient(self.connection, "STREAM.INFO." + LOG, None, self.until)["state"]

    def give(self, script: str, *options: str) -> None:
        words = [str(self.cluster.programs / "mmdb-ask"), "--servers", self.cluster.urls(), "--name", LOG, *options]
        subprocess.run(words, input=script.encode(), stdout=subprocess.DEVNULL, check=True)

    def seconds(self, scripts: list[str], *options: str) -> float:
        """Runs scripts in parallel. Returns the seconds until all are executed."""
        threads = [threading.Thread(target=self.give, args=(script, *options)) for script in scripts]
        began = time.monotonic()
        for thread in threads:
            thread.start()
        for thread in threads:
            thread.join()
        return time.monotonic() - began

    def define(self) -> None:
        self.give(TABLE)

    def fill(self, rows: int) -> None:
        inserts = []
        for at in range(0, rows, ROWS_IN_LINE):
            line = ", ".join(f"({n}, {n % 1000}, 'row {n}')" for n in range(at, at + ROWS_IN_LINE))
            inserts.append(f"INSERT t {line}\n")
        scripts = [inserts[at : at + LINES_IN_SCRIPT] for at in range(0, len(inserts), LINES_IN_SCRIPT)]
        self.give("".join("BEGIN\n" + "".join(script) + "COMMIT\n" for script in scripts))


def inserts(asker: int) -> str:
    return "".join(f"INSERT t ({asker * CHANGES + number}, {number}, 'row {number}')\n" for number in range(CHANGES))


def look_ups(asker: int) -> str:
    keys = ((asker * LOOK_UPS + number) * 7919 % ROWS for number in range(LOOK_UPS))
    return "".join(f"SELECT a.k, a.s FROM t a WHERE a.id = {key}\n" for key in keys)


def changes_a_second(programs: str, servers: int, *options: str) -> tuple[float, float]:
    """Returns the changes per second, and the changes per message of the log."""
    with Bench(programs, servers, 3) as bench:
        bench.define()
        first = bench.state()["last_seq"]
        taken = bench.seconds([inserts(asker) for asker in range(ASKERS)], *options)
        return ASKERS * CHANGES / taken, ASKERS * CHANGES / (bench.state()["last_seq"] - first)


def answers_a_second(programs: str, replicas: int) -> float:
    with Bench(programs, 1, replicas) as bench:
        bench.define()
        bench.fill(ROWS)
        return ASKERS * LOOK_UPS / bench.seconds([look_ups(asker) for asker in range(ASKERS)])


def start(programs: str) -> tuple[float, float]:
    """Returns the seconds until a replica is ready, and the bytes of the snapshot."""
    with Bench(programs, 1, 0) as bench:
        folder = ["--snapshots", str(bench.cluster.snapshots)]
        messages = 1 + MANY_ROWS // ROWS_IN_LINE // LINES_IN_SCRIPT
        bench.add_replica("writes", *folder, "--snapshot-every", str(messages))
        bench.define()
        bench.fill(MANY_ROWS)
        while not list(bench.cluster.snapshots.glob("*.snapshot")):
            must(time.monotonic() < bench.until, "no snapshot was written in time")
            time.sleep(0.1)
        bench.cluster.replicas["writes"].stop()
        taken = bench.add_replica("starts", *folder)
        return taken, max(path.stat().st_size for path in bench.cluster.snapshots.glob("*.snapshot"))


def processor_seconds_of_program(mmdb: str, lines: str) -> float:
    before = os.times()
    subprocess.run([mmdb], input=lines.encode(), stdout=subprocess.DEVNULL, check=True)
    after = os.times()
    return after.children_user + after.children_system - before.children_user - before.children_system


def message(programs: str, mmdb: str) -> tuple[float, float, float, float, float]:
    """Returns the cost of a change: processor seconds of a replica that publishes the change, of a replica that catches up, and of the program.

    The last two numbers are the bytes of the change in the log, and the bytes of its line.
    """
    with Bench(programs, 1, 1) as bench:
        bench.define()
        replica, lines = bench.cluster.replicas["r0"], [inserts(asker) for asker in range(ASKERS)]
        before, bytes_before = processor_seconds(replica), bench.state()["bytes"]
        bench.seconds(lines)
        answering = processor_seconds(replica) - before
        in_log = bench.state()["bytes"] - bytes_before
        bench.add_replica("late")
        following = processor_seconds(bench.cluster.replicas["late"])
    alone = processor_seconds_of_program(mmdb, TABLE + "".join(lines))
    count = ASKERS * CHANGES
    return answering / count, following / count, alone / count, in_log / count, len("".join(lines)) / count


def main() -> None:
    programs, mmdb = sys.argv[1:]
    print("| Servers | Changes in a request | Changes per second | Changes per message |\n|--:|--:|--:|--:|")
    for servers, together in ((1, 1), (3, 1), (3, 100)):
        rate, shared = changes_a_second(programs, servers, "--together", str(together))
        print(f"| {servers} | {together} | {rate:,.0f} | {shared:.1f} |", flush=True)
    print("\n| Replicas | Answers per second |\n|--:|--:|")
    for replicas in (1, 2, 3):
        print(f"| {replicas} | {answers_a_second(programs, replicas):,.0f} |", flush=True)
    seconds, size = start(programs)
    rows = f"{MANY_ROWS:,} rows ({size / 1e6:.0f} MB)"
    print(f"\nA replica is ready {seconds:.1f} s after its start from a snapshot of {rows}.")
    answering, following, alone, in_log, of_line = message(programs, mmdb)
    print("\n| Of one `INSERT` | |\n|---|--:|")
    print(f"| processor time of a replica that publishes and applies it, and answers | {answering * 1e6:.0f} µs |")
    print(f"| processor time of a replica that applies it while it catches up | {following * 1e6:.0f} µs |")
    print(f"| processor time of the program for its line | {alone * 1e6:.1f} µs |")
    print(f"| bytes in the log | {in_log:.0f} |")
    print(f"| bytes of its line | {of_line:.0f} |")


if __name__ == "__main__":
    main()
