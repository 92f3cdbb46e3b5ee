#!/usr/bin/env python3
"""Tests what replica/OPERATIONS.md says of backups, of a log whose servers lost their files, of snapshots that other replicas take over, and of
connections that the servers refuse for a time.

    replica/tests/restore.py PROGRAMS

PROGRAMS is the folder of mmdb-replica and mmdb-ask. Requires nats-server. The status is 0 only if all passed.
"""

import json
import shutil
import subprocess
import sys
import tempfile
import time
from pathlib import Path

TOP = Path(__file__).resolve().parent.parent.parent
sys.path.insert(0, str(TOP / "tests" / "replicas"))
from cluster import LOG, Cluster, Failed, Process, must  # noqa: E402

SCRIPT = """TABLE t (id INT KEY, s TEXT)
INDEX i ON t (s) TREE
TABLE u (id INT KEY, t INT REF t)
BEGIN
INSERT t (1, 'it''s'), (2, '-- no comment'), (3, '')
INSERT u (1, 3)
COMMIT
WATCH w SELECT a.id FROM t a WHERE a.s = ''
"""
QUESTIONS = "TABLES\nSCAN t\nSCAN u\nSCAN INDEX i\nSHOW w\n"


class Trial:
    def __init__(self, folder: Path, programs: Path):
        self.cluster = Cluster(folder, programs, 1)
        self.until = time.monotonic() + 100
        self.folder = folder

    def ask(self, *options: str, script: str = "") -> subprocess.CompletedProcess[str]:
        words = [str(self.cluster.programs / "mmdb-ask"), "--servers", self.cluster.urls(), "--name", LOG, *options]
        return subprocess.run(words, input=script, capture_output=True, text=True, timeout=90)

    def answer(self, *options: str, script: str) -> str:
        asked = self.ask(*options, script=script)
        must(asked.returncode == 0, f"{options} failed: {asked}")
        return asked.stdout

    def replica(self, name: str, *options: str) -> Process:
        replica = self.cluster.replica(name, *options)
        replica.wait_until_it_says("is ready at number", self.until)
        return replica

    def state(self, name: str) -> str:
        said = [json.loads(line) for line in self.ask("--status").stdout.splitlines()]
        return next((str(one["state"]) for one in said if one["replica"] == name), "")

    def lose_log(self) -> None:
        """The server loses its files, and the log is made again."""
        server = self.cluster.servers[0]
        server.kill()
        shutil.rmtree(self.folder / "s0")
        server.start()
        self.cluster.make_log(self.until)

    def orphans(self) -> None:
        """Replicas of a lost log have the rows, which a backup brings into the new log."""
        self.replica("a")
        self.answer(script=SCRIPT)
        before = self.answer(script=QUESTIONS)
        must("rows 3\n" in before and "tables 2\n" in before, f"the rows are not there: {before}")
        self.lose_log()
        while self.state("a") != "orphaned":
            must(time.monotonic() < self.until, "the replica is not orphaned")
        backup = self.answer("--backup", "a", script="")
        must(backup.splitlines()[-1].startswith("-- end "), f"the backup is cut off: {backup[-200:]}")
        self.cluster.replicas["a"].stop()
        self.replica("b")
        self.answer("--load", script=backup)
        after = self.answer(script=QUESTIONS)
        must(after == before, f"restored rows differ: {after!r}, and before {before!r}")

    def takes_over(self) -> None:
        """In a shared folder, the replica with the smaller number writes snapshots, and another one where it is gone."""
        folder = ["--snapshots", str(self.cluster.snapshots)]
        first = self.replica("c", *folder, "--snapshot-every", "10")
        self.replica("d", *folder, "--snapshot-every", "20")

        def write(name: str) -> str:
            self.answer(script=f"INSERT t ({name}0, '')\n" + "".join(f"DELETE t WHERE id = {number}\n" for number in range(60)))
            time.sleep(0.5)
            newest = max(self.cluster.snapshots.glob("*.snapshot"))
            return next(line.split()[-1] for line in newest.read_text().splitlines() if line.startswith("-- replica "))

        # On a busy machine the first replica may be late once, and then the second one writes.
        must("c" in (write(name) for name in ("100", "110", "120")), "the first replica did not write snapshots")
        first.kill()
        must(write("200") == "d", "the second replica did not take over")
        must(not list(self.cluster.snapshots.glob("*.part")), "files were left")

    def refused_for_a_time(self) -> None:
        """A server that refuses the login for a time closes the connections for good; a replica makes them again, with its rows."""
        server = self.cluster.servers[0]
        server.kill()
        plain = list(server.words)
        server.words = [*plain, "--user", "other", "--pass", "word"]
        server.start()
        time.sleep(4)
        server.kill()
        server.words = plain
        server.start()
        while self.state("d") != "ready":
            must(time.monotonic() < self.until, "the replica did not connect again: " + self.cluster.replicas["d"].said()[-400:])
        must("it connects again" in self.cluster.replicas["d"].said(), "the connections were not closed")
        said = [json.loads(line) for line in self.ask("--status").stdout.splitlines()]
        must(next(one for one in said if one["replica"] == "d")["lives"] == 1, "the replica dropped its rows")

    def run(self) -> None:
        self.cluster.servers[0].start()
        self.cluster.make_log(self.until)
        self.orphans()
        self.takes_over()
        self.refused_for_a_time()
        for name in ("b", "d"):
            must(self.cluster.replicas[name].stop() == 0, f"{name} did not end well")


def main() -> int:
    with tempfile.TemporaryDirectory() as folder:
        trial = Trial(Path(folder), Path(sys.argv[1]).resolve())
        try:
            trial.run()
        except Failed as wrong:
            print(wrong)
            return 1
        finally:
            trial.cluster.close()
    print("a backup restored the rows of a lost log, a replica took over the snapshots of another, and one connected again")
    return 0


if __name__ == "__main__":
    sys.exit(main())
