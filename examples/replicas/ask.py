#!/usr/bin/env python3
"""A client of replicas in plain Python. Reads a script, sends each line as a question or as a change, and prints rows and replies.

    python3 ask.py HOST:PORT [LOG] < SCRIPT

Programs can use the class Replicas. It keeps one connection and the highest number of the log that it has seen, so no answer is older than
an earlier one. replica/PROTOCOL.md defines subjects, headers and statuses. This client supports neither passwords nor TLS.
"""

import json
import re
import secrets
import socket
import sys
import time
from typing import NamedTuple, Union

Value = Union[int, str]
NOT_NOW = ("unready", "unavailable", "behind", "memory", "orphaned", "503", "")
VALUE = re.compile(r"'((?:[^']|'')*)'|(-?[0-9]+)")


def lines_of(replies: str) -> list[str]:
    """Returns the lines of replies. str.splitlines would also split at other characters, which texts may contain."""
    return replies.split("\n")[:-1]


class Refused(Exception):
    """A replica refused a request. str() returns the status and the reason."""


class Answer(NamedTuple):
    headers: dict[str, str]
    body: str


class Rows(NamedTuple):
    """Rows, with the names and the types (INT or TEXT) of their columns."""

    columns: list[tuple[str, str]]
    rows: list[tuple[Value, ...]]


class Replicas:
    """Replicas that follow a log. `wait` is the timeout of a request in seconds. Only one thread may use an object."""

    def __init__(self, host: str, port: int, log: str = "mmdb", wait: float = 30.0):
        self.address, self.log, self.wait = (host, port), log, wait
        self.socket: Union[socket.socket, None] = None
        self.number, self.seen, self.identity, self.inbox = 0, 0.0, "", "_INBOX." + secrets.token_hex(11)

    def change(self, script: str, must_match: bool = False) -> list[str]:
        """Applies a script once, and returns its replies. With must_match, each UPDATE and DELETE must match a row."""
        headers = {"Mmdb-Id": secrets.token_hex(12)}
        if must_match:
            headers["Mmdb-Condition"] = "rows"
        if time.monotonic() - self.seen > 1:
            self.ask("TABLES")  # the number sent with a new id must be recent, since replicas keep only recent ids
        return lines_of(self.request("change", script, {**headers, "Mmdb-Since": str(self.number)}).body)

    def ask(self, question: str) -> Rows:
        """Returns the rows of a question. The rows are at least as new as all answers that this object has received."""
        answer = self.request("ask", question, {"Mmdb-At-Least": str(self.number)})
        columns = [tuple(column.split(" ")) for column in answer.headers.get("Mmdb-Columns", "").split(", ") if column]
        lines = lines_of(answer.body)[:-1] if columns else []
        rows = [tuple(int(number) if number else text.replace("''", "'") for text, number in VALUE.findall(line)) for line in lines]
        return Rows(columns, rows)  # type: ignore[arg-type]

    def request(self, word: str, body: str, headers: dict[str, str]) -> Answer:
        """Repeats a request until a replica answers, and returns the answer. Raises Refused or TimeoutError."""
        if self.identity:
            headers["Mmdb-Log"] = self.identity
        until = time.monotonic() + self.wait
        while time.monotonic() < until:
            try:
                answer = self.send(f"{self.log}.{word}", body.encode(errors="surrogateescape"), headers)
            except OSError:
                self.socket = None
                time.sleep(0.1)
                continue
            status = answer.headers.get("Mmdb-Status", "")
            if status == "done":
                self.identity = answer.headers["Mmdb-Log"]
                self.number, self.seen = max(self.number, int(answer.headers["Mmdb-Sequence"])), time.monotonic()
                return answer
            if status not in NOT_NOW:
                raise Refused(f"{status}: {answer.body}")
            time.sleep(0.1)
        raise TimeoutError("no replica answers")

    def send(self, subject: str, body: bytes, headers: dict[str, str]) -> Answer:
        if not self.socket:
            self.socket = socket.create_connection(self.address, timeout=2.5)
            self.lines = self.socket.makefile("rb")
            said = {"verbose": False, "headers": True, "no_responders": True, "lang": "python", "version": "1"}
            self.socket.sendall(f"CONNECT {json.dumps(said)}\r\nSUB {self.inbox}.* 1\r\n".encode())
        reply = f"{self.inbox}.{secrets.token_hex(4)}"
        head = "NATS/1.0\r\n" + "".join(f"{name}: {value}\r\n" for name, value in headers.items()) + "\r\n"
        self.socket.sendall(f"HPUB {subject} {reply} {len(head)} {len(head) + len(body)}\r\n{head}".encode() + body + b"\r\n")
        while True:
            words = self.lines.readline().decode().split()
            if not words or words[0] == "-ERR":
                raise ConnectionError(" ".join(words))
            if words[0] == "PING":
                self.socket.sendall(b"PONG\r\n")
            elif words[0] in ("MSG", "HMSG"):
                block = self.lines.read(int(words[-1]) + 2)
                if not block.endswith(b"\r\n") or len(block) != int(words[-1]) + 2:
                    raise ConnectionError("the connection ended in the middle of a message")
                if words[1] == reply:
                    length = int(words[-2]) if words[0] == "HMSG" else 0
                    pairs = [line.split(":", 1) for line in block[:length].decode().splitlines() if ":" in line]
                    return Answer({name: value.strip() for name, value in pairs}, block[length:-2].decode(errors="surrogateescape"))


def main() -> None:
    host, port = sys.argv[1].split(":")
    replicas = Replicas(host, int(port), sys.argv[2] if len(sys.argv) > 2 else "mmdb")
    for line in sys.stdin:
        if line.split(" ")[0].strip() in ("SELECT", "SCAN", "SHOW"):
            found = replicas.ask(line)
            print([name for name, _ in found.columns], *found.rows, sep="\n")
        else:
            print(*replicas.change(line))


if __name__ == "__main__":
    main()
