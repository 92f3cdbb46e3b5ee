#!/usr/bin/env python3
"""Runs the clients of examples/replicas, in Python and in Rust, and compares what they print.

    replica/tests/clients.py PROGRAMS

PROGRAMS is the folder of mmdb-replica and mmdb-ask. Requires nats-server and rustc. The status is 0 only if all passed.
"""

import socket
import subprocess
import sys
import tempfile
import threading
import time
from pathlib import Path

TOP = Path(__file__).resolve().parent.parent.parent
sys.path.insert(0, str(TOP / "tests" / "replicas"))
from cluster import LOG, Cluster, Failed, must  # noqa: E402

SCRIPT = """TABLE {0} (id INT KEY, s TEXT)
INSERT {0} (1, 'it''s'), (-2, ''), (3, '(4, ''x''), é\x85\x0c')
UPDATE {0} SET s = 'y' WHERE id = 1
SELECT a.s, a.id FROM {0} a
SCAN {0}
SELECT a.id FROM {0} a WHERE a.id = 9
"""
PYTHON = """ok
ok 3
ok 1
['s', 'id']
('', -2)
("(4, 'x'), é\\x85\\x0c", 3)
('y', 1)
['id', 's']
(-2, '')
(1, 'y')
(3, "(4, 'x'), é\\x85\\x0c")
['id']
"""
RUST = """ok
ok 3
ok 1
["s TEXT", "id INT"]
[Text(""), Int(-2)]
[Text("(4, 'x'), é\\u{85}\\u{c}"), Int(3)]
[Text("y"), Int(1)]
["id INT", "s TEXT"]
[Int(-2), Text("")]
[Int(1), Text("y")]
[Int(3), Text("(4, 'x'), é\\u{85}\\u{c}")]
["id INT"]
"""


class CutServer:
    """A server that ends its first connection in the midst of an answer, and answers in full on the second."""

    def __init__(self) -> None:
        self.listener = socket.create_server(("127.0.0.1", 0))
        self.address = "{}:{}".format(*self.listener.getsockname())
        threading.Thread(target=self.run, daemon=True).start()

    def run(self) -> None:
        head = b"NATS/1.0\r\nMmdb-Status: done\r\nMmdb-Log: 0123456789abcdef\r\nMmdb-Sequence: 1\r\nMmdb-Columns: id INT\r\n\r\n"
        block = head + b"(1)\n(2)\nrows 2\n"
        for length in (len(head) + 4, len(block)):
            client = self.listener.accept()[0]
            client.sendall(b"INFO {}\r\n")
            said = client.makefile("rb")
            words = next(line for line in said if line.startswith(b"HPUB")).split()
            client.sendall(b"HMSG %s 1 %d %d\r\n" % (words[2], len(head), len(block)) + block[:length] + b"\r\n"[: length - len(head) - 4])
            client.shutdown(socket.SHUT_WR)
            said.read()
            client.close()


def run(words: list[str], cluster: Cluster, script: str) -> subprocess.CompletedProcess[str]:
    host, port = cluster.addresses[0]
    return subprocess.run([*words, f"{host}:{port}", LOG], input=script, capture_output=True, text=True, timeout=60)


def compare(cluster: Cluster, folder: Path) -> None:
    until = time.monotonic() + 30
    cluster.servers[0].start()
    cluster.make_log(until)
    for name in "ab":
        cluster.replica(name).wait_until_it_says("is ready at number", until)
    rust = folder / "ask"
    source = TOP / "examples" / "replicas"
    subprocess.run(["rustc", "--edition", "2021", "-D", "warnings", "-o", str(rust), str(source / "ask.rs")], check=True)
    clients = {"p": ([sys.executable, str(source / "ask.py")], PYTHON), "r": ([str(rust)], RUST)}
    for table, (words, wanted) in clients.items():
        done = run(words, cluster, SCRIPT.format(table))
        must(done.returncode == 0 and done.stdout == wanted, f"{words[-1]} printed {done.stdout}{done.stderr}")
        refused = run(words, cluster, f"INSERT {table} (1, 'again')\n")
        must(refused.returncode == 1 and "error 40 duplicate key" in refused.stderr, f"{words[-1]} is not refused: {refused}")
        cut = subprocess.run([*words, CutServer().address], input="SCAN t\n", capture_output=True, text=True, timeout=60)
        must(cut.returncode == 0 and "2" in cut.stdout, f"{words[-1]} took a part of an answer for the whole one: {cut}")


def main() -> int:
    with tempfile.TemporaryDirectory() as name:
        cluster = Cluster(Path(name), Path(sys.argv[1]).resolve(), 1)
        try:
            compare(cluster, Path(name))
        except Failed as wrong:
            print(wrong)
            return 1
        finally:
            cluster.close()
    print("two clients printed the rows")
    return 0


if __name__ == "__main__":
    sys.exit(main())
