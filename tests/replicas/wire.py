"""A minimal client of NATS for tests: it requests, publishes and subscribes, with headers, over one socket.

The client shares no code with libnats, so tests see what a client in any language sees. Only one thread may use a connection.
"""

import json
import secrets
import socket
import time
from base64 import b64decode
from typing import NamedTuple, Optional


NO_RESPONDERS = "503"


class Message(NamedTuple):
    """A message, with the status of its header. NO_RESPONDERS means that the subject of a request has no subscriber."""

    subject: str
    status: str
    headers: dict[str, str]
    body: bytes
    reply: str = ""  # the subject for an answer


def headers_in(block: bytes) -> tuple[str, dict[str, str]]:
    """Returns the status and the headers of a header block."""
    first, *lines = block.decode().strip().split("\r\n")
    pairs = (line.split(":", 1) for line in lines if ":" in line)
    return first.partition(" ")[2][:3], {name.strip(): value.strip() for name, value in pairs}


class Connection:
    """A connection to one of several servers, each a host and a port.

    After an error, the next call connects to the next server. Pending answers are lost.
    """

    def __init__(self, servers: list[tuple[str, int]]):
        self.servers = list(servers)
        self.subscribed: list[str] = []
        self.socket: Optional[socket.socket] = None
        self.bytes = b""

    def connect(self, until: float) -> None:
        while True:
            self.servers.append(self.servers.pop(0))
            try:
                self.socket = socket.create_connection(self.servers[0], timeout=1)
                self.socket.setsockopt(socket.IPPROTO_TCP, socket.TCP_NODELAY, 1)
                self.bytes, self.inbox, self.requests = b"", "_INBOX." + secrets.token_hex(8), 0
                self.line(time.monotonic() + 1)
                said = {"verbose": False, "headers": True, "no_responders": True, "lang": "python", "version": "1"}
                self.send(f"CONNECT {json.dumps(said)}\r\nSUB {self.inbox}.* 0\r\n".encode())
                for number, subject in enumerate(self.subscribed, 1):
                    self.send(f"SUB {subject} {number}\r\n".encode())
                return
            except OSError:
                self.close()
                if time.monotonic() > until:
                    raise
                time.sleep(0.05)

    def close(self) -> None:
        if self.socket:
            self.socket.close()
        self.socket = None

    def send(self, data: bytes) -> None:
        assert self.socket
        self.socket.sendall(data)

    def receive(self, until: float) -> None:
        assert self.socket
        self.socket.settimeout(max(0.001, until - time.monotonic()))
        got = self.socket.recv(65536)
        if not got:
            raise ConnectionError("the server closed the connection")
        self.bytes += got

    def line(self, until: float) -> bytes:
        while b"\r\n" not in self.bytes:
            self.receive(until)
        line, self.bytes = self.bytes.split(b"\r\n", 1)
        return line

    def block(self, length: int, until: float) -> bytes:
        while len(self.bytes) < length + 2:
            self.receive(until)
        block, self.bytes = self.bytes[:length], self.bytes[length + 2 :]
        return block

    def message(self, until: float) -> Message:
        """Returns the next message. Raises TimeoutError if none arrives in time."""
        while True:
            kind, *words = self.line(until).decode().split(" ")
            if kind == "PING":
                self.send(b"PONG\r\n")
            elif kind == "MSG":
                return Message(words[0], "", {}, self.block(int(words[-1]), until), words[2] if len(words) == 4 else "")
            elif kind == "HMSG":
                head, whole = int(words[-2]), int(words[-1])
                block = self.block(whole, until)
                return Message(words[0], *headers_in(block[:head]), block[head:], words[2] if len(words) == 5 else "")
            elif kind == "-ERR":
                raise ConnectionError(" ".join(words))

    def publish(self, subject: str, body: bytes, headers: Optional[dict[str, str]] = None, answer: str = "") -> None:
        block = "".join(f"{name}: {value}\r\n" for name, value in (headers or {}).items()).encode()
        block = b"NATS/1.0\r\n" + block + b"\r\n"
        line = f"HPUB {subject} {answer} {len(block)} {len(block) + len(body)}\r\n"
        self.send(line.encode() + block + body + b"\r\n")

    def subscribe(self, subject: str) -> None:
        self.subscribed.append(subject)
        if self.socket:
            self.send(f"SUB {subject} {len(self.subscribed)}\r\n".encode())

    def request(
        self, subject: str, body: bytes = b"", headers: Optional[dict[str, str]] = None, wait: float = 2.5
    ) -> Message:
        """Sends a request. Returns its answer, and drops other messages. Raises TimeoutError or ConnectionError if there is no answer."""
        until = time.monotonic() + wait
        try:
            if not self.socket:
                self.connect(until)
            self.requests += 1
            inbox = f"{self.inbox}.{self.requests}"
            self.publish(subject, body, headers, inbox)
            while True:
                message = self.message(until)
                if message.subject == inbox:
                    return message
        except TimeoutError:
            raise
        except OSError as wrong:
            self.close()
            raise ConnectionError(str(wrong)) from wrong

    def gather(self, subject: str, bodies: list[bytes], wait: float = 5.0) -> list[Message]:
        """Sends many requests at once. Returns their answers in the order of the requests."""
        until = time.monotonic() + wait
        try:
            if not self.socket:
                self.connect(until)
            first = self.requests + 1
            self.requests += len(bodies)
            for number, body in enumerate(bodies, first):
                self.publish(subject, body, None, f"{self.inbox}.{number}")
            answers: dict[int, Message] = {}
            while len(answers) < len(bodies):
                message = self.message(until)
                number = int(message.subject.rpartition(".")[2]) if message.subject.startswith(self.inbox) else 0
                if number >= first:
                    answers[number] = message
            return [answers[number] for number in range(first, first + len(bodies))]
        except TimeoutError:
            raise
        except OSError as wrong:
            self.close()
            raise ConnectionError(str(wrong)) from wrong

    def collect(self, subject: str, most: int, wait: float) -> list[Message]:
        """Requests answers from all subscribers of a subject. Returns at most `most` answers, and only those that arrive in time."""
        until = time.monotonic() + wait
        answers: list[Message] = []
        try:
            if not self.socket:
                self.connect(until)
            self.requests += 1
            inbox = f"{self.inbox}.{self.requests}"
            self.publish(subject, b"", None, inbox)
            while len(answers) < most:
                message = self.message(until)
                if message.subject == inbox and message.status != NO_RESPONDERS:
                    answers.append(message)
        except TimeoutError:
            pass
        except OSError:
            self.close()
        return answers

    def api(self, call: str, said: object = None, wait: float = 2.5) -> dict:
        """Returns the answer to a JetStream call. Raises ConnectionError if the call is refused or has no responder."""
        answer = self.request("$JS.API." + call, json.dumps(said).encode() if said is not None else b"", wait=wait)
        told = json.loads(answer.body) if answer.body else {"error": {"description": "no responder"}}
        if "error" in told:
            raise ConnectionError(f"{call}: {told['error']['description']}")
        return told


def patient(connection: Connection, call: str, said: object, until: float) -> dict:
    """Repeats a JetStream call until it succeeds, and returns the answer. Calls fail while the servers elect a leader."""
    while True:
        try:
            return connection.api(call, said)
        except OSError:
            if time.monotonic() > until:
                raise
            time.sleep(0.1)


def logged(connection: Connection, log: str, number: int, until: float) -> Message:
    """Returns a message of the log."""
    told = patient(connection, "STREAM.MSG.GET." + log, {"seq": number}, until)["message"]
    headers = headers_in(b64decode(told["hdrs"]))[1] if told.get("hdrs") else {}
    return Message(told["subject"], "", headers, b64decode(told.get("data", "")))
