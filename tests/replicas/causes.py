#!/usr/bin/env python3
"""Tests each known cause of lost data or of a simultaneous stop of all replicas. Each test has one or three servers of its own on loopback.

    causes.py PROGRAMS [TEST ..]

PROGRAMS is the folder of mmdb-replica and mmdb-ask. Without TEST, all tests run, four at a time. The exit status is 0 if all pass.
README.md in this folder lists the cause that each test detects.
"""

import json
import os
import re
import resource
import shutil
import signal
import socket
import subprocess
import sys
import tempfile
import threading
import time
from concurrent.futures import ThreadPoolExecutor
from functools import partial
from hashlib import sha256
from pathlib import Path
from typing import Callable, Optional

from cluster import LOG, Cluster, Failed, Process, must
from replay import chain_begin
from wire import Connection, Message, logged, patient

AT_ONCE = 4
LONGEST_TEST = 60.0
MEBIBYTE = 1 << 20
LONG_QUESTION = b"SELECT a.id FROM t a, t b WHERE a.k < b.k AND b.k < a.k"
Entry = tuple[str, bytes]


class Case:
    """The cluster of one test, with helpers for the test."""

    def __init__(self, programs: Path, servers: int = 1):
        self.folder = Path(tempfile.mkdtemp(prefix="causes"))
        self.cluster = Cluster(self.folder, programs, servers)
        self.until = time.monotonic() + LONGEST_TEST
        for server in self.cluster.servers:
            server.start()
        self.cluster.make_log(self.until)
        self.connection = Connection(self.cluster.addresses)
        self.changes = 0
        self.snapshots = ["--snapshots", str(self.cluster.snapshots)]

    def end(self) -> None:
        """Ends all replicas. If a sanitizer then reports a leak, the status of the replica is not 0."""
        for name, replica in self.cluster.replicas.items():
            if replica.running and replica.running.poll() is not None:
                raise Failed(f"{name} ended unexpectedly: {replica.said()[-1500:]}")
            if replica.running:
                must(replica.stop() == 0, f"{name} did not end with status 0: {replica.said()[-1500:]}")

    def close(self) -> None:
        self.cluster.close()
        shutil.rmtree(self.folder, ignore_errors=True)

    # The log.

    def keep_log(self) -> None:
        """Copies the first server's files."""
        server = self.cluster.servers[0]
        server.stop()
        shutil.copytree(self.folder / "s0", self.folder / "kept")
        server.start()
        self.connection.close()

    def put_kept_log_back(self) -> None:
        """Kills the first server, and restores the copy of its files. Does not restart the server."""
        self.cluster.servers[0].kill()
        shutil.rmtree(self.folder / "s0")
        shutil.copytree(self.folder / "kept", self.folder / "s0")

    # Replicas.

    def replica(self, name: str, *options: str) -> Process:
        """Starts a replica, and waits until it is ready."""
        replica = self.cluster.replica(name, *options)
        self.wait_for(name, "ready")
        return replica

    def statuses(self) -> dict[str, dict]:
        """Returns the statuses of the replicas that answer within 0.4 s, by their names."""
        answers = self.connection.collect(LOG + ".status", len(self.cluster.replicas), 0.4)
        found: dict[str, dict] = {}
        for answer in answers:
            said = json.loads(answer.body) if answer.body else {}
            found[said.get("replica", "")] = said
        return found

    def status(self, name: str) -> dict:
        while True:
            found = self.statuses()
            if name in found:
                return found[name]
            must(time.monotonic() < self.until, f"{name} does not report its status: {self.cluster.replicas[name].said()[-400:]}")

    def wait_for(self, name: str, state: str, seconds: float = 25.0) -> dict:
        """Waits until a replica is in a state, and returns its status."""
        until = time.monotonic() + seconds
        while True:
            found = self.status(name)
            if found["state"] == state:
                return found
            must(time.monotonic() < until, f"{name} is {found['state']}, not {state}: {self.cluster.replicas[name].said()[-600:]}")
            time.sleep(0.05)

    def must_live_once(self, *names: str) -> None:
        """Requires that replicas become ready, and have never dropped their rows."""
        for name in names:
            found = self.wait_for(name, "ready", 40)
            must(found["lives"] == 1, f"{name} dropped its rows: {self.cluster.replicas[name].said()[-600:]}")

    # Requests.

    def request(self, subject: str, body: bytes, **headers: str) -> Message:
        """Repeats a request until a replica answers, and returns the answer."""
        named = {"Mmdb-" + name.replace("_", "-"): value for name, value in headers.items()}
        while True:
            must(time.monotonic() < self.until, f"{subject} has no answer")
            try:
                answer = self.connection.request(LOG + subject, body, named)
                if answer.headers.get("Mmdb-Status") not in (None, "unready", "unavailable", "behind", "memory"):
                    return answer
            except OSError:
                pass
            time.sleep(0.05)

    def change(self, script: bytes, wanted: str = "done", name: str = "") -> Message:
        self.changes += 1
        answer = self.request(".change", script, Id=name or f"c-{self.changes}")
        must(answer.headers["Mmdb-Status"] == wanted, f"{script[:60]!r} was answered {answer}")
        return answer

    def ask(self, question: bytes, replica: str = "", at_least: int = 0) -> bytes:
        return self.request(f".ask.{replica}" if replica else ".ask", question, At_Least=str(at_least)).body

    def state(self) -> dict:
        return patient(self.connection, "STREAM.INFO." + LOG, None, self.until)["state"]

    def identity(self) -> str:
        return patient(self.connection, "STREAM.INFO." + LOG, None, self.until)["config"]["description"].split()[-1]

    def rows(self, table: str, count: int, of_line: int = 40, of_script: int = 20) -> None:
        """Inserts rows, many per script."""
        for first in range(0, count, of_line * of_script):
            lines = []
            for start in range(first, min(count, first + of_line * of_script), of_line):
                values = ", ".join(f"({number}, {number % 100}, 'row {number}')" for number in range(start, min(count, start + of_line)))
                lines.append(f"INSERT {table} {values}\n")
            self.change(("BEGIN\n" + "".join(lines) + "COMMIT\n").encode())

    def table(self, name: str = "t") -> None:
        self.change(f"TABLE {name} (id INT KEY, k INT, s TEXT)\n".encode())

    def insert(self, first: int, count: int, word: str = "row") -> None:
        for number in range(first, first + count):
            self.change(f"INSERT t ({number}, 0, '{word}')\n".encode())

    def fill(self, last: int) -> None:
        """Fills the log up to a number with messages that change nothing."""
        while self.state()["last_seq"] < last:
            try:
                self.connection.request(LOG + ".log", b"no script")
            except OSError:
                time.sleep(0.05)

    def snapshot_files(self) -> list[Path]:
        return sorted(self.cluster.snapshots.glob("*.snapshot"))

    def wait_until(self, holds: Callable[[], object], what: str, seconds: float = 20.0) -> None:
        until = time.monotonic() + seconds
        while not holds():
            must(time.monotonic() < until, what)
            time.sleep(0.05)


def in_background(work: Callable[[], None]) -> None:
    threading.Thread(target=work, daemon=True).start()


class Proxy:
    """Forwards bytes between replicas and a server. Bytes to the server that contain `words` wait until they are released."""

    def __init__(self, server: tuple[str, int], words: bytes):
        self.server, self.words = server, words
        self.holds, self.is_released = threading.Event(), threading.Event()
        self.listener = socket.create_server(("127.0.0.1", 0))
        self.url = f"nats://127.0.0.1:{self.listener.getsockname()[1]}"
        in_background(self.run)

    def run(self) -> None:
        while True:
            client, server = self.listener.accept()[0], socket.create_connection(self.server)
            in_background(partial(self.carry, client, server, self.words))
            in_background(partial(self.carry, server, client, b""))

    def carry(self, source: socket.socket, target: socket.socket, words: bytes) -> None:
        try:
            while data := source.recv(MEBIBYTE):
                if words and words in data:
                    self.holds.set()
                    self.is_released.wait(30)
                target.sendall(data)
            target.shutdown(socket.SHUT_WR)
        except OSError:
            pass


# Integrity of the log.


def reply_subjects(case: Case) -> None:
    """A replica answers only below its inbox prefix: the reply subject of a request must not purge, delete or write the log."""
    case.replica("a")
    case.table()
    case.insert(0, 5)
    last = case.state()["last_seq"]
    replies = [f"$JS.API.STREAM.PURGE.{LOG}", f"$JS.API.STREAM.DELETE.{LOG}", f"{LOG}.log", f"{LOG}.change", f"{LOG}.sum", "_INBOXES.a"]
    requests = {".ask": b"SCAN t", ".ask.a": b"TABLES", ".change": b"INSERT t (1, 1, 'x')\n", ".status": b"", ".snapshot.a": b""}
    for reply in replies:
        for subject, body in [*requests.items(), (".change", b"words")]:
            case.connection.publish(LOG + subject, body, {"Mmdb-Id": "evil-1"}, reply)
    case.insert(100, 1)
    state = case.state()
    must(state["messages"] == state["last_seq"] == last + 1, f"requests with other reply subjects changed the log: {state}")


def log_made_again(case: Case) -> None:
    """Snapshots of an older log with the same name are not loaded, and do not prevent new ones."""
    options = [*case.snapshots, "--snapshot-every", "20", "--keep", "5"]
    case.replica("a", *options)
    case.table()
    case.insert(0, 100)
    case.cluster.replicas["a"].stop()
    case.connection.api("STREAM.DELETE." + LOG)
    case.cluster.make_log(case.until)
    case.replica("b", *options)
    case.table()
    case.insert(1000, 50)
    identity = case.identity()
    case.wait_until(lambda: len([path for path in case.snapshot_files() if identity in path.name]) == 2, "the new log does not have two snapshots")
    case.replica("c", *case.snapshots)
    must(b"rows 50\n" in case.ask(b"SCAN t", "c", case.state()["last_seq"]), "a replica of the new log does not have its rows")


def log_made_again_under_load(case: Case) -> None:
    """If a log is recreated while clients send changes, its replicas become orphaned and keep their rows."""
    for name in "ab":
        case.replica(name, *case.snapshots)
    case.table()
    case.insert(0, 10)
    over = threading.Event()
    in_background(lambda: write_until(case, over))
    case.connection.api("STREAM.DELETE." + LOG)
    case.cluster.make_log(case.until)
    for name in "ab":
        found = case.wait_for(name, "orphaned", 40)
        must(found["lives"] == 1, f"{name} dropped its rows: {case.cluster.replicas[name].said()[-600:]}")
    over.set()
    answer = case.request(".ask.a", b"SCAN t")
    must(answer.headers["Mmdb-Status"] == "orphaned" and b"rows 10\n" in answer.body, f"the rows are lost: {answer}")


def keep_two_snapshots(case: Case) -> None:
    """The log is cut off up to the older of two good snapshots, so a bad byte in the newer one loses nothing."""
    case.replica("a", *case.snapshots, "--snapshot-every", "20", "--keep", "5")
    case.table()
    case.insert(0, 120)
    case.wait_until(lambda: len(case.snapshot_files()) >= 2 and case.state()["first_seq"] > 1, "the log was never cut off")
    case.cluster.replicas["a"].kill()
    newest = case.snapshot_files()[-1]
    data = bytearray(newest.read_bytes())
    data[len(data) // 2] ^= 1
    newest.write_bytes(data)
    case.replica("b", *case.snapshots)
    must(b"rows 120\n" in case.ask(b"SCAN t", "b", case.state()["last_seq"]), "rows are lost")


def bad_snapshot_is_no_base(case: Case) -> None:
    """A snapshot that was corrupted after it was written does not count as one of the two that a cut requires."""
    case.replica("a", *case.snapshots, "--snapshot-every", "20", "--keep", "1")
    case.table()
    for first in range(0, 160, 20):
        case.insert(first, 20)
        files = case.snapshot_files()
        if files:
            data = bytearray(files[-1].read_bytes())
            data[-20] ^= 1
            files[-1].write_bytes(data)
    case.cluster.replicas["a"].kill()
    case.replica("b", *case.snapshots)
    must(b"rows 160\n" in case.ask(b"SCAN t", "b", case.state()["last_seq"]), "rows are lost")


def cut_of_another_log(case: Case) -> None:
    """If a log is recreated while a replica cuts it off, the new log may lack messages, and the replica raises an alarm."""
    proxy = Proxy(case.cluster.addresses[0], b"STREAM.PURGE")
    replica = case.replica("a", *case.snapshots, "--snapshot-every", "20", "--keep", "5", "--servers", proxy.url)
    case.table()
    over = threading.Event()
    in_background(lambda: write_until(case, over))
    must(proxy.holds.wait(20), "the log was not cut off")
    over.set()
    other = Connection(case.cluster.addresses)
    other.api("STREAM.DELETE." + LOG)
    case.cluster.make_log(case.until)
    for number in range(60):
        other.request(LOG + ".log", f"message {number}".encode())
    proxy.is_released.set()
    case.wait_until(lambda: patient(other, "STREAM.INFO." + LOG, None, case.until)["state"]["first_seq"] > 1, "the new log was not cut off")
    case.wait_until(lambda: "the new one may lack messages below number" in replica.said(), "no alarm: " + replica.said()[-600:])


# Late replicas.


def slow_load(case: Case) -> None:
    """A snapshot that loads for longer than --lost-after is loaded once, while changes continue."""
    case.replica("a", *case.snapshots)
    case.table()
    case.rows("t", 2000)
    case.request(".snapshot.a", b"")
    case.wait_until(case.snapshot_files, "no snapshot was written on demand")
    snapshot, folder = case.snapshot_files()[-1], case.folder / "slow"
    folder.mkdir()
    os.mkfifo(folder / snapshot.name)
    in_background(lambda: write_slowly(folder / snapshot.name, snapshot.read_bytes(), 4.0))
    over = threading.Event()
    in_background(lambda: write_until(case, over))
    case.replica("b", "--snapshots", str(folder), "--lost-after", "1500")
    over.set()
    case.must_live_once("b")
    must("is loaded" in case.cluster.replicas["b"].said(), "the snapshot was not loaded")


def write_slowly(path: Path, data: bytes, seconds: float, pieces: int = 40) -> None:
    """Writes a file at the speed of a slow device."""
    size = len(data) // pieces + 1
    with open(path, "wb", buffering=0) as file:
        for at in range(0, len(data), size):
            file.write(data[at : at + size])
            time.sleep(seconds / pieces)


def write_until(case: Case, over: threading.Event, row: int = 1) -> None:
    """Changes a row repeatedly until `over` is set, even without answers."""
    connection, number = Connection(case.cluster.addresses), 0
    while not over.is_set():
        number += 1
        try:
            script = f"UPDATE t SET k = k + 1 WHERE id = {row}\n".encode()
            connection.request(LOG + ".change", script, {"Mmdb-Id": f"w{row}-{number}"}, wait=1)
        except OSError:
            time.sleep(0.01)


def slow_question(case: Case) -> None:
    """No replica drops its rows if a question runs for longer than --lost-after while changes continue."""
    for name in "ab":
        case.replica(name, "--lost-after", "300")
    case.table()
    case.rows("t", 4000)
    over = threading.Event()
    in_background(lambda: write_until(case, over))
    for name in "ab":
        case.connection.publish(f"{LOG}.ask.{name}", b"SELECT a.id FROM t a, t b WHERE a.k < b.k AND b.k < a.k", {}, "_INBOX.nobody")
    time.sleep(1.5)
    over.set()
    case.must_live_once("a", "b")


def children_of(process: Process) -> list[int]:
    assert process.running
    pid = process.running.pid
    return [int(word) for word in Path(f"/proc/{pid}/task/{pid}/children").read_text().split()]


def ask_for_long(case: Case, question: bytes, wait: int = 40000) -> Message:
    """Returns the answer to a long question whose client waits for `wait` milliseconds."""
    return Connection(case.cluster.addresses).request(LOG + ".ask", question, {"Mmdb-Wait": str(wait)}, wait=40)


def ask_long(case: Case, wait: int) -> tuple[str, float]:
    """Returns the status of a question that runs too long, and the seconds until it arrived."""
    began = time.monotonic()
    return ask_for_long(case, LONG_QUESTION, wait).headers["Mmdb-Status"], time.monotonic() - began


def long_question(case: Case) -> None:
    """A question that runs too long is stopped with the status `too-long`. Meanwhile the replica applies changes and answers."""
    replica = case.replica("a", "--question-time", "3000")
    case.table()
    case.rows("t", 20000)
    told: list[tuple[str, float]] = []
    in_background(lambda: told.append(ask_long(case, 40000)))
    case.wait_until(lambda: case.status("a")["children"] == 1, "no child answers the question")
    must(len(children_of(replica)) == 1, "there is no child process")
    done = 0
    while not told:
        case.insert(100000 + done, 1)
        done += 1
    must(told[0][0] == "too-long" and 2.9 < told[0][1] < 20, f"the question was answered {told}")
    must(done > 2, f"only {done} changes succeeded while a child evaluated a question")
    case.wait_until(lambda: not children_of(replica), "the child was not ended")
    status, seconds = ask_long(case, 2000)
    must(status == "too-long" and seconds < 2.9, f"a client that waits for 2 s got {status} after {seconds:.1f} s")
    case.must_live_once("a")
    case.connection.publish(LOG + ".ask", LONG_QUESTION, {"Mmdb-Wait": "40000"}, "_INBOX.nobody")
    case.wait_until(lambda: children_of(replica), "no child answers the question")
    must(replica.stop() == 0, "a replica with a child did not end with status 0")


def ignored_children(case: Case) -> None:
    """Long questions are answered even if the program that started the replica ignored SIGCHLD."""
    replica = case.replica("a")
    must(replica.stop() == 0, "the replica did not end with status 0")
    replica.words = ["env", "--ignore-signal=CHLD", *replica.words]
    replica.start()
    case.wait_for("a", "ready")
    case.table()
    case.rows("t", 1500)
    answer = ask_for_long(case, b"SELECT a.id, b.s FROM t a, t b WHERE a.id < b.id AND b.id < 2")
    must(answer.body == b"(0, 'row 1')\nrows 1\n", f"a child answered {answer}")


def answers_of_children(case: Case) -> None:
    """A question that reads many rows has the same answer from a child as from the replica, with the number that the rows had."""
    case.replica("a", "--question-time", "40000")
    case.table()
    case.rows("t", 1500)
    nested = b"SELECT a.id, b.s FROM t a, t b WHERE a.id < b.id AND b.id < 3"
    answer = ask_for_long(case, nested)
    must(answer.body == b"(0, 'row 1')\n(0, 'row 2')\n(1, 'row 2')\nrows 3\n", f"a child answered {answer}")
    must(answer.headers["Mmdb-Columns"] == "id INT, s TEXT", f"a child answered {answer}")
    must(answer.headers["Mmdb-Sequence"] == answer.headers["Mmdb-Chain-Sequence"] == str(case.state()["last_seq"]), f"the number: {answer}")
    many = ask_for_long(case, b"SELECT a.id, b.s FROM t a, t b WHERE a.id < b.id")
    must(many.headers["Mmdb-Status"] == "refused" and many.body.startswith(b"error 46"), f"a result of too many rows was answered {many}")
    large = ask_for_long(case, b"SELECT a.id, b.s FROM t a, t b WHERE a.id < b.id AND b.id < 400")
    must(large.headers["Mmdb-Status"] == "too-large" and not large.body, f"a result that is too large was answered {large}")


def sums_of_children(case: Case) -> None:
    """Replicas compare the sums of a large table, which their children compute."""
    for name in "ab":
        case.replica(name, "--sum-every", "50")
    case.table()
    case.rows("t", 200100, 100, 80)
    case.insert(300000, 50 - case.state()["last_seq"] % 50)
    number = case.state()["last_seq"]
    for name in "ab":
        case.wait_until(lambda: case.status(name)["agreed"] == number, f"{name} does not agree: {case.status(name)}")
        must(not case.status(name)["doubted"] and "no sum" not in case.cluster.replicas[name].said(), f"{name} has no sum")
    case.must_live_once("a", "b")


def slow_script(case: Case) -> None:
    """No replica drops its rows if a script runs for longer than --lost-after on all replicas."""
    for name in "ab":
        case.replica(name, "--lost-after", "300")
    case.table()
    case.rows("t", 20000)
    over = threading.Event()
    for row in range(4):
        in_background(lambda row=row: write_until(case, over, row))  # type: ignore[misc]
    case.change(b"BEGIN\n" + b"UPDATE t SET k = 0 WHERE s = 'none'\n" * 3000 + b"COMMIT\n")
    time.sleep(1)
    over.set()
    case.must_live_once("a", "b")


def no_servers(case: Case) -> None:
    """Replicas without servers for longer than --lost-after keep their rows."""
    for name in "ab":
        case.replica(name, "--lost-after", "300")
    case.table()
    case.insert(0, 10)
    case.cluster.servers[0].send(signal.SIGSTOP)
    time.sleep(4)
    case.cluster.servers[0].send(signal.SIGCONT)
    case.must_live_once("a", "b")
    case.insert(10, 1)


def lost_servers(case: Case) -> None:
    """If the servers lose their files, the replicas keep the rows and answer as orphaned."""
    for name in "ab":
        case.replica(name, "--lost-after", "300", *case.snapshots)
    case.table()
    case.insert(0, 10)
    server = case.cluster.servers[0]
    server.kill()
    shutil.rmtree(case.folder / "s0")
    time.sleep(1)
    server.start()
    case.connection.close()
    case.cluster.make_log(case.until)
    case.wait_for("a", "orphaned", 40)
    answer = case.request(".ask.a", b"SCAN t")
    must(answer.headers["Mmdb-Status"] == "orphaned" and b"rows 10\n" in answer.body, f"the last copy of the rows is lost: {answer}")


# History.


def lost_end(case: Case) -> None:
    """After a log loses its end and grows again, neither a snapshot nor a running replica answers with rows of the lost end."""
    server = case.cluster.servers[0]
    case.replica("a", *case.snapshots, "--snapshot-every", "20")
    case.table()
    case.insert(0, 20, "both")
    case.keep_log()
    case.insert(100, 30, "lost")
    case.wait_until(lambda: len(case.snapshot_files()) == 2, "no snapshot of the lost end was written")
    case.put_kept_log_back()
    case.cluster.replicas["a"].send(signal.SIGSTOP)
    server.start()
    case.connection.close()
    case.replica("b")
    case.insert(200, 60, "new")
    case.cluster.replicas["a"].send(signal.SIGCONT)
    case.replica("c", *case.snapshots)
    last = case.state()["last_seq"]
    wanted = case.ask(b"SCAN t", "b", last)
    must(b"lost" not in wanted and b"rows 80\n" in wanted, "the rows are not those of the log")
    for name in "ca":
        case.wait_for(name, "ready", 40)
        must(case.ask(b"SCAN t", name, last) == wanted, f"{name} has rows of changes that the log does not have")


def no_folder_for_rows(case: Case) -> None:
    """A replica without a folder keeps rows that the log has lost until the replica ends, and a backup contains them."""
    server = case.cluster.servers[0]
    replica = case.replica("a", "--sum-every", "10")
    case.table()
    case.insert(0, 20, "both")
    case.keep_log()
    case.insert(100, 10, "lost")
    case.put_kept_log_back()
    replica.send(signal.SIGSTOP)
    server.start()
    case.connection.close()
    for name in "bc":
        case.replica(name, "--sum-every", "10")
    case.insert(200, 40, "new")
    replica.send(signal.SIGCONT)
    case.wait_for("a", "halted", 40)
    case.insert(300, 20, "new")
    found = case.wait_for("a", "halted")
    must(found["lives"] == 1 and "outside the group until it is ended" in replica.said(), f"the rows are lost: {replica.said()[-600:]}")
    words = [str(case.cluster.programs / "mmdb-ask"), "--servers", case.cluster.urls(), "--name", LOG, "--backup", "a"]
    backup = subprocess.run(words, capture_output=True, timeout=30, check=True).stdout
    must(backup.count(b"'lost'") == 10 and b"-- end " in backup and b"'new'" not in backup, "the backup does not contain the rows")


def lost_rows_at_the_end(case: Case) -> None:
    """If a replica could not store rows that the log lost, it writes them to a .lost file at its end, and to no snapshot."""
    folder, away = case.cluster.snapshots, case.folder / "away"
    replica = case.replica("a", *case.snapshots, "--snapshot-every", "1000")
    case.table()
    case.insert(0, 5, "both")
    case.keep_log()
    case.insert(100, 5, "lost")
    case.put_kept_log_back()
    folder.rename(away)
    case.cluster.servers[0].start()
    case.connection.close()
    case.wait_for("a", "halted", 40)
    away.rename(folder)
    must(replica.stop() == 0, "the replica did not end with status 0")
    files = {path.suffix: path.read_text() for path in folder.iterdir()}
    must(files.get(".lost", "").count("'lost'") == 5, f"the rows are lost: {replica.said()[-600:]}")
    must("'lost'" not in files.get(".snapshot", ""), "a snapshot contains rows that the log does not have")


def rows_of_an_orphan_at_the_end(case: Case) -> None:
    """If an orphaned replica could not store its rows at once, it writes them to a .lost file at its end."""
    folder, away = case.cluster.snapshots, case.folder / "away"
    replica, server = case.replica("a", *case.snapshots, "--lost-after", "300"), case.cluster.servers[0]
    case.table()
    case.insert(0, 5)
    server.kill()
    shutil.rmtree(case.folder / "s0")
    folder.rename(away)
    server.start()
    case.connection.close()
    case.cluster.make_log(case.until)
    case.wait_for("a", "orphaned", 40)
    away.rename(folder)
    must(replica.stop() == 0, "the replica did not end with status 0")
    lost = [path.read_text() for path in folder.glob("*.lost")]
    must(len(lost) == 1 and lost[0].count("'row'") == 5, f"the rows are lost: {replica.said()[-600:]}")


def part_of_a_message(case: Case) -> None:
    """Rows that the log lost are written to a .lost file even if an allocation failed in the middle of a message."""
    refuse, source = case.folder / "refuse.so", Path(__file__).resolve().parent / "refuse.c"
    subprocess.run(["cc", "-O1", "-D_GNU_SOURCE", "-shared", "-fPIC", "-o", str(refuse), str(source)], check=True)
    replica = case.cluster.replica("a", *case.snapshots, environment={"LD_PRELOAD": str(refuse)})
    case.wait_for("a", "ready")
    case.table()
    case.insert(0, 5, "both")
    case.keep_log()
    case.insert(100, 5, "lost")
    found = case.status("a")
    rows = [", ".join(f"({number}, 0, 'large')" for number in range(first, first + 150)) for first in range(1000, 16000, 150)]
    large = "BEGIN\n" + "".join(f"INSERT t {values}\n" for values in rows) + "COMMIT\n"
    replica.send(signal.SIGUSR2)
    publish(case, [("p-1", b"INSERT t (500, 0, 'part')\n"), ("p-2", large.encode())], found["sequence"], found["chain"])
    replica.wait_until_it_says("memory was refused", case.until)
    case.put_kept_log_back()
    case.cluster.servers[0].start()
    case.connection.close()
    case.wait_until(lambda: case.status("a")["lives"] == 2, f"the replica did not restart from the log: {replica.said()[-600:]}", 40)
    lost = [path.read_text() for path in case.cluster.snapshots.glob("*.lost")]
    must(len(lost) == 1, f"there are {len(lost)} .lost files: {replica.said()[-600:]}")
    must("-- part 1\n" in lost[0] and lost[0].count("'lost'") == 5 and "'part'" in lost[0] and "'large'" not in lost[0], "rows are lost")


def sums_of_another_history(case: Case) -> None:
    """A late replica keeps its rows despite the sums of two replicas that lost messages of the log, since their chain hash differs."""
    replica = case.replica("a", "--sum-every", "10")
    case.table()
    case.insert(0, 29 - case.state()["last_seq"])
    number, identity = case.state()["last_seq"] // 10 * 10, case.identity()

    def publish_sums(number: int, chain: str) -> None:
        for name in "yz":
            case.connection.publish(LOG + ".sum", f"{name} {identity} {number} {'0' * 32}".encode(), {"Mmdb-Chain": chain})

    publish_sums(number, "1" * 32)
    replica.wait_until_it_says("OTHER HISTORY: replica [yz] has another one at number", case.until)
    case.insert(100, 1)
    found = case.wait_for("a", "ready")
    must(found["lives"] == 1 and not found["doubted"], f"correct rows were dropped: {replica.said()[-600:]}")
    # Sums with the same chain hash count.
    case.insert(101, 40 - found["sequence"])
    case.wait_until(lambda: case.status("a")["summed"] == 40, "there is no sum at number 40")
    publish_sums(40, case.status("a")["chain"])
    case.wait_until(lambda: case.status("a")["lives"] == 2, "most replicas have another sum, but the rows were not dropped")


def sums_of_lost_history(case: Case) -> None:
    """Sums from before the log lost messages do not count for the rows of a replica that has restarted from the log."""
    options = ["--sum-every", "10"]
    replica = case.replica("a", *case.snapshots, *options)
    for name in "bc":
        case.replica(name, *options)
    case.table()
    case.insert(0, 7)
    case.keep_log()
    case.insert(100, 6, "lost")
    case.wait_until(lambda: [one["agreed"] for one in case.statuses().values()] == 3 * [10], "there are no sums at number 10")
    time.sleep(0.2)
    case.put_kept_log_back()
    case.cluster.servers[0].start()
    case.connection.close()
    for name in "bc":
        case.wait_for(name, "halted", 40)
    case.wait_until(lambda: case.status("a")["lives"] == 2, f"the replica did not restart from the log: {replica.said()[-600:]}")
    case.insert(200, 10, "new")
    found = case.wait_for("a", "ready", 40)
    must(found["lives"] == 2 and found["sequence"] > 10, f"correct rows were dropped: {replica.said()[-600:]}")


def snapshot_short_of_the_log(case: Case) -> None:
    """If the log was cut off after a replica's rows, the replica keeps them while its newest snapshot ends before the log begins."""
    folder, server = case.folder / "own", case.cluster.servers[0]
    folder.mkdir()
    late = case.replica("a", "--snapshots", str(folder))
    case.replica("b", *case.snapshots)
    case.table()
    case.insert(0, 10)
    case.wait_until(lambda: [one["sequence"] for one in case.statuses().values()] == 2 * [11], "the rows are not everywhere")
    late.send(signal.SIGSTOP)
    server.stop()
    server.start()
    case.connection.close()

    def bring_snapshot(number: int) -> None:
        """Fills the log up to a number, and copies a snapshot at that number to the late replica."""
        case.fill(number)
        case.wait_until(lambda: case.status("b")["sequence"] == number, "the other replica is late too")
        case.request(".snapshot.b", b"")
        shutil.copy(case.snapshot_files()[-1], folder)

    bring_snapshot(20)
    case.fill(30)
    patient(case.connection, "STREAM.PURGE." + LOG, {"seq": 30}, case.until)
    late.send(signal.SIGCONT)
    case.wait_for("a", "halted", 40)
    time.sleep(2)
    found = case.wait_for("a", "halted")
    must((found["sequence"], found["lives"]) == (11, 1), f"the rows are lost: {late.said()[-600:]}")
    bring_snapshot(31)
    found = case.wait_for("a", "ready", 40)
    must(found["sequence"] >= 31 and b"rows 10\n" in case.ask(b"SCAN t", "a"), f"the snapshot was not loaded: {late.said()[-600:]}")


def publish(case: Case, entries: list[Entry], number: int, chain: str, since: int = 0) -> int:
    """Publishes a message to the log like a replica that checked its ids at `number`. Returns the number of the message."""
    body = b"".join(f"{name} {since} 0 {len(script)}\n".encode() + script + b"\n" for name, script in entries)
    headers = {"Mmdb-Format": "2", "Mmdb-Checked": f"{number} {chain}", "Mmdb-Replica": "z"}
    return json.loads(case.connection.request(LOG + ".log", body, headers).body)["seq"]


def delayed_copy(case: Case) -> None:
    """A copy of a message that arrives after 65,537 other ids is not applied again."""
    case.replica("a", "--sum-every", "0")
    case.table()
    case.insert(0, 2)
    chain = chain_begin(case.identity())
    script = b"UPDATE t SET k = k + 1 WHERE id = 1\n"
    publish(case, [("pay-1", script)], 0, chain)
    others = [(f"o-{number}", b"UPDATE t SET k = 0 WHERE id = 9\n") for number in range(65537)]
    for first in range(0, len(others), 8192):
        publish(case, others[first : first + 8192], 0, chain)
    last = publish(case, [("pay-1", script)], 0, chain)
    must(b"(1, 1," in case.ask(b"SCAN t", "a", last), "a change was applied twice")


def chained(case: Case) -> None:
    """A replica reports a message whose publisher had another history."""
    case.replica("a")
    case.table()
    case.insert(0, 3)
    publish(case, [("x-1", b"INSERT t (50, 0, 'x')\n")], 3, sha256(b"another history").hexdigest()[:32])
    case.insert(60, 1)
    last = case.state()["last_seq"]
    must(b"rows 5\n" in case.ask(b"SCAN t", "a", last), "the rows are not those of the log")
    said = case.cluster.replicas["a"].said()
    must(re.search(r"(?i)chain|history", said), f"another history was not reported: {said[-300:]}")


def empty_header(case: Case) -> None:
    """The chain hash covers headers as libnats 3.4 reads them: the line after an empty header is the value of that header.

    If another version reads another value, replicas of the two versions differ, and the format of the log must become greater.
    """
    case.replica("a")
    case.table()
    last = case.status("a")
    checked = f"{last['sequence']} {last['chain']}"
    body = b"x-1 0 0 8\nDELETE t\n"
    block = f"NATS/1.0\r\nMmdb-Format:\r\nMmdb-Checked: {checked}\r\n\r\n".encode()
    case.connection.send(f"HPUB {LOG}.log {len(block)} {len(block) + len(body)}\r\n".encode() + block + body + b"\r\n")
    case.wait_until(lambda: case.status("a")["sequence"] == last["sequence"] + 1, "the message was not applied")
    read = "\n".join([last["chain"], f"Mmdb-Checked: {checked}", "", ""])
    must(case.status("a")["chain"] == sha256(read.encode() + body).hexdigest()[:32], f"the chain hash does not cover these headers: {read!r}")
    must(case.request(".change", b"DELETE t\n", Id="x-1").headers["Mmdb-Sequence"] == str(last["sequence"] + 2), "the message was accepted")


def different_sums(case: Case) -> None:
    """A replica whose sum another replica contradicts writes no snapshot and does not cut off the log."""
    case.replica("a", *case.snapshots, "--snapshot-every", "20", "--keep", "1", "--sum-every", "10")
    case.table()
    case.insert(0, 8)
    number = case.state()["last_seq"]
    case.insert(20, 10 - number % 10)
    number = case.state()["last_seq"] // 10 * 10
    case.connection.publish(LOG + ".sum", f"z {case.identity()} {number} {'0' * 32}".encode())
    case.wait_until(lambda: case.status("a")["doubted"], "the different sum was not detected")
    before = case.snapshot_files()
    case.insert(100, 60)
    must(case.snapshot_files() == before and case.state()["first_seq"] == 1, "a replica in doubt wrote a snapshot or cut off the log")


# Queues.


def blocked_server(case: Case) -> None:
    """A replica whose server stops in the middle of answers connects to another server, and ends at SIGTERM."""
    first = "nats://{}:{}".format(*case.cluster.addresses[0])  # only one, since libnats would choose among several; it learns the others from this one
    replica = case.replica("a", "--sum-every", "0", "--lost-after", "3000", "--servers", first)
    case.table()
    case.rows("t", 20000)
    flood = Connection(case.cluster.addresses[1:])
    flood.connect(time.monotonic() + 5)
    flood.send(b"SUB _INBOX.x 9\r\n")
    for _ in range(2000):
        flood.publish(LOG + ".ask.a", b"SCAN t", {"Mmdb-Wait": "30000"}, "_INBOX.x")

    def swallow() -> None:
        assert flood.socket
        flood.socket.settimeout(20)
        try:
            while flood.socket.recv(MEBIBYTE):
                pass
        except OSError:
            pass

    in_background(swallow)
    time.sleep(0.3)
    case.cluster.servers[0].send(signal.SIGSTOP)
    time.sleep(8)
    must(replica.stop() == 0, "the replica did not end with status 0")
    case.cluster.servers[0].send(signal.SIGCONT)


def dead_requests(case: Case) -> None:
    """Requests whose clients no longer wait are dropped, so that they do not delay others."""
    replica = case.replica("a", "--sum-every", "0")
    case.table()
    case.rows("t", 5000)
    burst = Connection(case.cluster.addresses)
    burst.connect(time.monotonic() + 5)
    replica.send(signal.SIGSTOP)
    for _ in range(20000):
        burst.publish(LOG + ".ask", b"SCAN t", {"Mmdb-Wait": "100"}, "_INBOX.gone")
    time.sleep(1)
    replica.send(signal.SIGCONT)
    began = time.monotonic()
    case.ask(b"TABLES")
    must(time.monotonic() - began < 3, f"a question was answered after {time.monotonic() - began:.1f} s")
    burst.close()


def memory_of(process: Process) -> int:
    """Returns the peak of resident memory of a process in MiB."""
    assert process.running
    said = Path(f"/proc/{process.running.pid}/status").read_text()
    found = re.search(r"VmHWM:\s+(\d+)", said)
    assert found
    return int(found[1]) // 1024


def bounded_memory(case: Case) -> None:
    """Waiting questions use bounded memory, and questions that are too long are refused at once."""
    replica = case.replica("a", "--sum-every", "0")
    before = memory_of(replica)
    long_one = case.request(".ask", b"SELECT " + b"x" * 5000)
    must(long_one.headers["Mmdb-Status"] == "invalid", f"a question of 5,007 bytes was answered {long_one}")
    for number in range(600):
        case.connection.publish(LOG + ".ask", b"SELECT " + b"x" * (MEBIBYTE - 8000), {"Mmdb-At-Least": str(10**9 + number)}, "_INBOX.gone")
    for number in range(60000):
        case.connection.publish(LOG + ".ask", b"SELECT " + b"x" * 4000, {"Mmdb-At-Least": str(10**9 + number)}, "_INBOX.gone")
    case.ask(b"TABLES")
    must(memory_of(replica) - before < 300, f"memory grew from {before} to {memory_of(replica)} MiB")


def many_headers(case: Case) -> None:
    """Requests and sums with many headers are refused unread, since reading them would need much time and memory."""
    replica = case.replica("a", "--sum-every", "0")
    case.table()
    before = memory_of(replica)
    many = {f"k{number}": "1" for number in range(50000)}
    answer = case.request(".ask", b"TABLES", **many)
    must(answer.headers["Mmdb-Status"] == "invalid" and b"headers" in answer.body, f"50,000 headers were answered {answer}")
    block = b"NATS/1.0\r\nMmdb-At-Least: 1000000\r\n" + b"".join(f"{name}:1\r\n".encode() for name in many) + b"\r\n"
    for subject in (".ask _INBOX.gone", ".sum"):
        for _ in range(40):
            case.connection.send(f"HPUB {LOG}{subject} {len(block)} {len(block)}\r\n".encode() + block + b"\r\n")
    case.ask(b"TABLES")
    must(memory_of(replica) - before < 40, f"memory grew from {before} to {memory_of(replica)} MiB")
    answer = case.request(".ask", b"TABLES", k="1" * 8000)
    must(answer.headers["Mmdb-Status"] == "done", f"8,000 bytes of headers were answered {answer}")


def leaves_under_load(case: Case) -> None:
    """A replica that repeatedly leaves and joins the group while requests arrive does not use memory that libnats freed.

    libnats 3.4 looks up the subscription of a message and locks it later, when it may have been freed. delay.c prolongs the time between.
    """
    delay, source = case.folder / "delay.so", Path(__file__).resolve().parent / "delay.c"
    subprocess.run(["cc", "-O1", "-D_GNU_SOURCE", "-shared", "-fPIC", "-o", str(delay), str(source), "-ldl"], check=True)
    environment = {"LD_PRELOAD": str(delay), "MALLOC_PERTURB_": "85", "ASAN_OPTIONS": "verify_asan_link_order=0"}
    replica = case.cluster.replica("a", *case.snapshots, "--sum-every", "0", environment=environment)
    case.wait_for("a", "ready")
    case.table()
    over = threading.Event()

    def flood() -> None:
        connection = Connection(case.cluster.addresses)
        connection.connect(time.monotonic() + 5)
        while not over.is_set():
            connection.publish(LOG + ".ask", b"TABLES", {"Mmdb-Wait": "500"}, "_INBOX.gone")
            time.sleep(0.004)

    in_background(flood)
    until = time.monotonic() + 8
    while time.monotonic() < until:
        case.connection.collect(LOG + ".snapshot.a", 1, 5)
    over.set()
    time.sleep(0.1)
    must("Sanitizer" not in replica.said(), f"a sanitizer found: {replica.said()[-1500:]}")


# Programs.


def ends_without_servers(case: Case) -> None:
    """Without servers, mmdb-replica ends at SIGTERM, and mmdb-ask fails in time."""
    folder = case.cluster.programs
    replica = Process("x", [str(folder / "mmdb-replica"), "--servers", "nats://127.0.0.1:1", "--replica", "x"], case.folder)
    replica.start()
    time.sleep(1)
    must(replica.stop() == 0, "mmdb-replica without servers did not end with status 0")
    words = [str(folder / "mmdb-ask"), "--servers", "nats://127.0.0.1:1", "--wait", "500"]
    status = subprocess.run(words, input=b"TABLES\n", capture_output=True, timeout=8).returncode
    must(status == 1, f"mmdb-ask without servers ended with status {status}")


def snapshot_at_the_end(case: Case) -> None:
    """At SIGTERM, a replica first writes a snapshot that only its user may read."""
    replica = case.replica("a", *case.snapshots, "--snapshot-every", "1000")
    case.table()
    case.insert(0, 3)
    must(replica.stop() == 0, "the replica did not end with status 0")
    files = case.snapshot_files()
    must(files and files[-1].stat().st_mode & 0o077 == 0, f"the snapshots are {[(path.name, oct(path.stat().st_mode)) for path in files]}")


def same_name(case: Case) -> None:
    """Two replicas with one name that write the same snapshot at the same time do not corrupt it."""
    first = case.replica("a", *case.snapshots)
    case.table()
    case.rows("t", 30000)
    second = case.cluster.replica("a", *case.snapshots)
    second.wait_until_it_says("is ready at number", case.until)
    second.said_path = first.said_path
    for number in range(8):
        case.insert(40000 + number, 1)
        case.connection.collect(LOG + ".snapshot.a", 2, 10)
    said = second.said()
    first.kill()
    must("was not written" not in said, f"a snapshot was not written: {said[-400:]}")
    must(len(case.snapshot_files()) == 2 and not list(case.cluster.snapshots.glob("*.part")), "there are other files")
    case.replica("b", *case.snapshots)
    must("is passed over" not in case.cluster.replicas["b"].said(), "a snapshot is corrupt")


def limited_memory(case: Case) -> None:
    """A replica whose allocations fail for a while continues afterwards with the rows of the log."""
    replica = case.replica("a", "--sum-every", "10")
    case.table()
    case.insert(0, 10)
    assert replica.running
    said = Path(f"/proc/{replica.running.pid}/status").read_text()
    size = int(re.search(r"VmSize:\s+(\d+)", said)[1]) * 1024  # type: ignore[index]
    resource.prlimit(replica.running.pid, resource.RLIMIT_AS, (size, resource.RLIM_INFINITY))
    connection = Connection(case.cluster.addresses)
    for first in range(1000, 31000, 1000):
        values = ", ".join(f"({number}, 0, 'x')" for number in range(first, first + 100))
        try:
            connection.request(LOG + ".change", f"INSERT t {values}\n".encode(), {"Mmdb-Id": f"m-{first}"}, wait=0.2)
        except OSError:
            pass
    resource.prlimit(replica.running.pid, resource.RLIMIT_AS, (resource.RLIM_INFINITY, resource.RLIM_INFINITY))
    case.insert(100, 1)
    case.replica("b", "--sum-every", "10")
    last = case.state()["last_seq"]
    must(case.ask(b"SCAN t", "a", last) == case.ask(b"SCAN t", "b", last), "two replicas differ after failed allocations")


# Scripts.


def conditions(case: Case) -> None:
    """A script with a condition changes nothing if one of its updates matches no row."""
    case.replica("a")
    case.table()
    case.insert(0, 2)
    script = b"BEGIN\nUPDATE t SET k = 5 WHERE id = 1\nUPDATE t SET k = 5 WHERE id = 77\nCOMMIT\n"
    answer = case.request(".change", script, Id="u-1", Condition="rows")
    must(answer.headers["Mmdb-Status"] == "unmet" and answer.body.endswith(b"ok 0\n"), f"an unmet condition was answered {answer}")
    must(b"(1, 0, " in case.ask(b"SCAN t"), "a script with an unmet condition changed a row")
    again = case.request(".change", script, Id="u-1", Condition="rows")
    must((again.body, again.headers["Mmdb-Sequence"]) == (answer.body, answer.headers["Mmdb-Sequence"]), "the second attempt differs")


def gathered_changes(case: Case) -> None:
    """Changes that arrive at the same time share messages of the log, and each has its own outcome."""
    case.replica("a")
    case.table()
    first = case.state()["last_seq"]
    count, inbox = 300, "_INBOX.gather"
    case.connection.subscribe(inbox + ".*")
    for number in range(count):
        script = f"INSERT t ({number // 2}, 0, 'x')\n".encode()
        case.connection.publish(LOG + ".change", script, {"Mmdb-Id": f"g-{number}", "Mmdb-Wait": "20000"}, f"{inbox}.{number}")
    statuses: dict[int, str] = {}
    while len(statuses) < count:
        message = case.connection.message(case.until)
        if message.subject.startswith(inbox):
            statuses[int(message.subject.rpartition(".")[2])] = message.headers["Mmdb-Status"]
    wrong = [number for number, status in statuses.items() if status != ("refused" if number % 2 else "done")]
    must(not wrong, f"{len(wrong)} outcomes are wrong")
    messages = case.state()["last_seq"] - first
    must(messages < count / 2, f"{count} changes took {messages} messages")
    one = logged(case.connection, LOG, first + 2, case.until)
    must(one.headers.get("Mmdb-Format") == "2", f"a message of the log is {one}")


def small_messages(case: Case) -> None:
    """Gathered changes never exceed the message size that the servers accept."""
    server, configuration = case.cluster.servers[0], case.folder / "small.conf"
    server.stop()
    configuration.write_text("max_payload: 16384\n")
    server.words += ["-c", str(configuration)]
    server.start()
    case.replica("a")
    case.table()
    count, inbox = 300, "_INBOX.small"
    case.connection.subscribe(inbox + ".*")
    for number in range(count):
        script = f"INSERT t ({number}, 0, 'x')\n-- {number:0200}\n".encode()
        case.connection.publish(LOG + ".change", script, {"Mmdb-Id": f"s-{number}", "Mmdb-Wait": "20000"}, f"{inbox}.{number}")
    statuses: list[str] = []
    while len(statuses) < count:
        message = case.connection.message(case.until)
        statuses += [message.headers["Mmdb-Status"]] * message.subject.startswith(inbox)
    must(statuses == count * ["done"], f"{count - statuses.count('done')} of {count} changes failed")


def entries_of(*entries: tuple[str, int, bytes]) -> bytes:
    return b"".join(f"{name} 0 {flags} {len(script)}\n".encode() + script + b"\n" for name, flags, script in entries)


def outcomes_in(body: bytes) -> list[tuple[str, str, int, bytes]]:
    """Returns the id, the status, the number and the replies of each entry of an answer."""
    outcomes = []
    while body:
        head, body = body.split(b"\n", 1)
        name, status, number, length = head.decode().split()
        outcomes.append((name, status, int(number), body[: int(length)]))
        must(body[int(length) : int(length) + 1] == b"\n", "an answer is malformed")
        body = body[int(length) + 1 :]
    return outcomes


def changes_in_one_request(case: Case) -> None:
    """Several changes in one request share a message of the log. Each has its own id and outcome, also in a second attempt."""
    case.replica("a")
    case.table()
    case.change(b"INSERT t (1, 0, 'x')\n", name="known")
    before = case.state()["last_seq"]
    unmet = b"BEGIN\nINSERT t (3, 0, 'x')\nUPDATE t SET k = 5 WHERE id = 77\nCOMMIT\n"
    insert = b"INSERT t (2, 0, 'x')\n"
    body = entries_of(("e-1", 0, insert), ("known", 0, b"INSERT t (1, 0, 'x')\n"), ("e-2", 0, insert), ("e-3", 0, b"words\n"),
                      ("e-4", 1, unmet), ("e-1", 0, b"DELETE t\n"))  # fmt: skip
    other = b"the id was given to another script before\n"
    wanted = [
        ("e-1", "done", before + 1, b"ok 1\n"),
        ("known", "done", before, b"ok 1\n"),
        ("e-2", "refused", before + 1, b"error 40 duplicate key\n"),
        ("e-3", "invalid", before + 1, b"line 1: error 11 syntax\n"),
        ("e-4", "unmet", before + 1, b"ok\nok 1\nok 0\n"),
        ("e-1", "invalid", before + 1, other),
    ]
    for _ in range(2):
        answer = case.request(".change", body, Format="2")
        must(answer.headers["Mmdb-Status"] == "done" and outcomes_in(answer.body) == wanted, f"the changes were answered {answer}")
    must(case.state()["last_seq"] == before + 1, "the changes are in several messages")
    published = logged(case.connection, LOG, before + 1, case.until).body
    must(published.count(b"INSERT t (2,") == 2 and b"words" not in published and b"known" not in published, f"the log has {published!r}")
    must(case.ask(b"SCAN t") == b"(1, 0, 'x')\n(2, 0, 'x')\nrows 2\n", "the rows are wrong")
    for wrong in (b"", b"words", body + b"x", entries_of(*[(f"m-{number}", 0, b"") for number in range(4097)])):
        answer = case.request(".change", wrong, Format="2")
        must(answer.headers["Mmdb-Status"] == "invalid", f"a malformed sequence of entries was answered {answer}")
    must(case.request(".change", body, Format="3").headers["Mmdb-Status"] == "invalid", "changes of another format were accepted")
    must(case.state()["last_seq"] == before + 1, "invalid requests changed the log")


def changes_sent_together(case: Case) -> None:
    """mmdb-ask prints the same with and without --together. With it, consecutive changes share a message."""
    case.replica("a")
    for table in "tu":
        case.table(table)
    lines = "".join(f"INSERT {{0}} ({number // 2}, 0, 'x')\n" for number in range(300)) + "SCAN {0}\nINSERT {0} (1\nDELETE {0}\n"
    words = [str(case.cluster.programs / "mmdb-ask"), "--servers", case.cluster.urls(), "--name", LOG]
    printed = []
    for table, options in (("t", []), ("u", ["--together", "100"])):
        before = case.state()["last_seq"]
        done = subprocess.run([*words, *options], input=lines.format(table), capture_output=True, text=True, timeout=50)
        printed.append((done.returncode, done.stdout))
    must(printed[0] == printed[1] and printed[0][1].count("duplicate key") == 150, f"mmdb-ask printed {printed[1]}, not {printed[0]}")
    must(case.state()["last_seq"] - before <= 5, f"303 changes took {case.state()['last_seq'] - before} messages")


# Operators.


def asked_by(case: Case, *options: str, script: bytes = b"") -> "subprocess.CompletedProcess[bytes]":
    words = [str(case.cluster.programs / "mmdb-ask"), "--servers", case.cluster.urls(), "--name", LOG, *options]
    return subprocess.run(words, input=script, capture_output=True, timeout=30)


def full_output(case: Case) -> None:
    """mmdb-ask fails with a message if its output cannot be written or its input cannot be read."""
    case.replica("a")
    case.table()
    words = [str(case.cluster.programs / "mmdb-ask"), "--servers", case.cluster.urls(), "--name", LOG]
    for options in (["--status"], ["--backup", "a"], ["--numbers"]):
        with open("/dev/full", "wb") as full:
            found = subprocess.run([*words, *options], input=b"TABLES\n", stdout=full, stderr=subprocess.PIPE, timeout=30)
        must(found.returncode == 1 and b"cannot be written\n" in found.stderr, f"mmdb-ask {options[0]} ended with {found}")
    descriptor = os.open(case.folder, os.O_RDONLY)
    found = subprocess.run(words, stdin=descriptor, capture_output=True, timeout=30)
    os.close(descriptor)
    must(found.returncode == 1 and b"cannot be read\n" in found.stderr, f"mmdb-ask without an input ended with {found}")


def closed_files(case: Case) -> None:
    """Programs that start without a standard output or a standard error do not send their output to the servers."""
    words = [str(case.cluster.programs / "mmdb-replica"), "--servers", case.cluster.urls(), "--name", LOG, "--replica", "a"]
    replica = Process("a", ["sh", "-c", 'exec "$@" 2>&-', "sh", *words], case.folder)
    case.cluster.replicas["a"] = replica
    replica.start()
    case.wait_for("a", "ready")
    case.table()
    words = [str(case.cluster.programs / "mmdb-ask"), "--servers", case.cluster.urls(), "--name", LOG, "--numbers"]
    asked = subprocess.run(["sh", "-c", 'exec "$@" >&-', "sh", *words], input=b"TABLES\n", stderr=subprocess.DEVNULL, timeout=30)
    must(asked.returncode == 1, f"mmdb-ask without an output ended with status {asked.returncode}")
    said = case.cluster.servers[0].said()
    must("arser" not in said, f"a server received bytes that are not a message: {said[-600:]}")


def cut_snapshot(case: Case) -> None:
    """mmdb-ask --load sends no part of a snapshot that is cut off or changed, or that has bytes after its end."""
    case.replica("a")
    case.table()
    case.insert(0, 20)
    backup = asked_by(case, "--backup", "a").stdout
    last = case.state()["last_seq"]
    lines = backup.splitlines(keepends=True)
    broken = {
        "it has no end": [b"".join(lines[:-1]), backup[:-1], backup[: len(backup) // 2], backup[:12]],
        "its bytes do not have their digest": [backup.replace(b"(7, 0, 'row')", b"(7, 1, 'row')"), backup[:-1] + b"\0DELETE t\n"],
        "it goes on after its end": [backup + b"DELETE t\n", backup + b"\n", backup + backup],
    }
    path = case.folder / "broken"
    words = [str(case.cluster.programs / "mmdb-ask"), "--servers", case.cluster.urls(), "--name", LOG, "--load"]
    for wrong, inputs in broken.items():
        for given in inputs:
            path.write_bytes(given)
            with open(path, "rb") as file:
                by_file = subprocess.run(words, stdin=file, capture_output=True, timeout=30)
            for found in (by_file, asked_by(case, "--load", script=given)):
                must((found.returncode, found.stdout) == (1, b"") and wrong.encode() in found.stderr, f"{wrong}: {found}")
    must(case.state()["last_seq"] == last, "a part of a broken snapshot was sent")
    case.change(b"DROP TABLE t\n")
    path.write_bytes(backup)
    with open(path, "rb") as file:
        found = subprocess.run(words, stdin=file, capture_output=True, timeout=30)
    must(found.returncode == 0 and b"rows 20\n" in case.ask(b"SCAN t", "a", case.state()["last_seq"]), f"an intact snapshot: {found}")
    found = asked_by(case, "--load", script=b"-- words\nINSERT t (100, 0, 'x')\n")
    must(found.returncode == 0 and case.ask(b"SCAN t").endswith(b"rows 21\n"), f"a script that is no snapshot: {found}")


def lost_part_of_a_backup(case: Case) -> None:
    """mmdb-ask --backup fails if it receives fewer bytes than the replica sent, for example because a server ended."""
    case.replica("a")
    case.table()
    backup = asked_by(case, "--backup", "a")
    must(backup.returncode == 0 and b"\n-- end " in backup.stdout, f"there is no backup: {backup}")
    other = Connection(case.cluster.addresses)
    other.subscribe(LOG + ".backup.x")
    other.connect(case.until)

    def answer_with(number: bytes) -> None:
        """Answers like a replica that sent `number` bytes, of which 5 arrive."""
        request = other.message(case.until)
        other.publish(request.reply, b"part\n")
        other.publish(request.reply, number, {"Mmdb-Status": "done"})

    for number, status in ((b"", 0), (b"5", 0), (b"6", 1)):
        in_background(partial(answer_with, number))
        found = asked_by(case, "--backup", "x")
        must((found.returncode, found.stdout) == (status, b"part\n"), f"a backup of {number!r} bytes: {found}")


def slow_reader_of_a_backup(case: Case) -> None:
    """A backup larger than the 64 MiB that libnats buffers by default is complete, even if its reader is slow."""
    other, part, count = Connection(case.cluster.addresses), b"x" * (MEBIBYTE // 2), 150
    other.subscribe(LOG + ".backup.x")
    other.connect(case.until)
    words = [str(case.cluster.programs / "mmdb-ask"), "--servers", case.cluster.urls(), "--name", LOG, "--backup", "x"]
    with subprocess.Popen(words, stdout=subprocess.PIPE, stderr=subprocess.PIPE) as asker:
        request = other.message(case.until)
        for _ in range(count):
            other.publish(request.reply, part)
        other.publish(request.reply, str(count * len(part)).encode(), {"Mmdb-Status": "done"})
        time.sleep(2)
        read, told = asker.communicate(timeout=30)
    must(asker.returncode == 0 and len(read) == count * len(part), f"{len(read)} of {count * len(part)} bytes were read: {told!r}")


def linearizable_again(case: Case) -> None:
    """A linearizable question sees the end of the log in each run, even if an earlier run used the same ids."""
    case.replica("a")
    case.table()
    for number in range(3):
        before = case.state()["last_seq"]
        found = asked_by(case, "--id", "again", "--linearizable", script=b"INSERT t (1, 0, 'x')\nSCAN t\n")
        must(found.returncode == 0 and found.stdout.endswith(b"rows 1\n"), f"the script was answered {found}")
        must(case.state()["last_seq"] == before + (1 if number else 2), "a question did not reach the end of the log")


TESTS: list[tuple[Callable[[Case], None], int]] = [
    (reply_subjects, 1),
    (log_made_again, 1),
    (log_made_again_under_load, 1),
    (keep_two_snapshots, 1),
    (bad_snapshot_is_no_base, 1),
    (cut_of_another_log, 1),
    (slow_load, 1),
    (slow_question, 1),
    (long_question, 1),
    (ignored_children, 1),
    (answers_of_children, 1),
    (sums_of_children, 1),
    (slow_script, 1),
    (no_servers, 1),
    (lost_servers, 1),
    (lost_end, 1),
    (no_folder_for_rows, 1),
    (lost_rows_at_the_end, 1),
    (rows_of_an_orphan_at_the_end, 1),
    (part_of_a_message, 1),
    (sums_of_another_history, 1),
    (sums_of_lost_history, 1),
    (snapshot_short_of_the_log, 1),
    (delayed_copy, 1),
    (chained, 1),
    (empty_header, 1),
    (different_sums, 1),
    (blocked_server, 3),
    (dead_requests, 1),
    (bounded_memory, 1),
    (many_headers, 1),
    (leaves_under_load, 1),
    (ends_without_servers, 1),
    (snapshot_at_the_end, 1),
    (same_name, 1),
    (limited_memory, 1),
    (conditions, 1),
    (gathered_changes, 1),
    (small_messages, 1),
    (changes_in_one_request, 1),
    (changes_sent_together, 1),
    (full_output, 1),
    (closed_files, 1),
    (cut_snapshot, 1),
    (lost_part_of_a_backup, 1),
    (slow_reader_of_a_backup, 1),
    (linearizable_again, 1),
]


def run(programs: Path, test: Callable[[Case], None], servers: int) -> Optional[str]:
    """Runs a test. Returns its failure, or None."""
    began = time.monotonic()
    case: Optional[Case] = None
    try:
        case = Case(programs, servers)
        test(case)
        case.end()
    except (Failed, OSError, KeyError, subprocess.SubprocessError) as wrong:
        return f"{test.__name__} failed after {time.monotonic() - began:.0f} s: {type(wrong).__name__}: {wrong}"
    finally:
        if case:
            case.close()
    return None


def main() -> int:
    programs, names = Path(sys.argv[1]), sys.argv[2:]
    chosen = [(test, servers) for test, servers in TESTS if not names or test.__name__ in names]
    began = time.monotonic()
    with ThreadPoolExecutor(AT_ONCE) as pool:
        wrong = [found for found in pool.map(lambda one: run(programs, *one), chosen) if found]
    print("\n".join(wrong) or f"{len(chosen)} tests passed in {time.monotonic() - began:.0f} s")
    return 1 if wrong or not chosen else 0


if __name__ == "__main__":
    sys.exit(main())
