"""Replays a log: applies its messages in order with the library, as replica/PROTOCOL.md requires of a replica.

The replay shares no code with the replicas, and never forgets an id. So it detects an id that the rules of the protocol apply twice.
"""

import ctypes
import re
from hashlib import sha256
from pathlib import Path
from typing import NamedTuple, Optional

from history import Logged, bytes_of

FORMAT = "2"
MOST_SCRIPT_BYTES, MOST_LINE_BYTES, KEPT_IDS = 512 * 1024, 4096, 65536
DONE, FIRST_REFUSAL, MEMORY = 1, 10, 90
CONDITION = 1
CHANGES = (b"INSERT", b"UPDATE", b"DELETE")
DEFINITIONS = (b"TABLE", b"DROP", b"INDEX", b"WATCH", b"UNWATCH")
DECIMAL = rb"(0|[1-9][0-9]*)"
ENTRY = re.compile(rb"([!-~]{1,64}) " + rb" ".join([DECIMAL] * 3) + rb"\n")
CHECKED = re.compile(r"(0|[1-9][0-9]*) ([0-9a-f]{32})")


class Outcome(NamedTuple):
    """The outcome of a script or a question: "done", "refused", "unmet" or "invalid", and the replies."""

    status: str
    replies: bytes


class Entry(NamedTuple):
    """A script in a message of the log."""

    name: str
    since: int
    flags: int
    script: bytes


def checked_in(message: Logged) -> Optional[tuple[int, str]]:
    """Returns the number and the chain hash of the publisher, or None if the header is missing or malformed."""
    found = CHECKED.fullmatch(message.headers.get("Mmdb-Checked", ""))
    return (int(found[1]), found[2]) if found else None


def entries_of(message: Logged) -> Optional[list[Entry]]:
    """Returns the scripts of a message, or None if the message is malformed."""
    checked = checked_in(message)
    if message.headers.get("Mmdb-Format") != FORMAT or not checked or checked[0] >= message.number:
        return None
    rest = bytes_of(message.body)
    entries: list[Entry] = []
    while rest or not entries:
        head = ENTRY.match(rest)
        if not head:
            return None
        since, flags, length = (int(one) for one in head.groups()[1:])
        script = rest[head.end() : head.end() + length]
        has_end = rest[head.end() + length : head.end() + length + 1] == b"\n"
        if length > MOST_SCRIPT_BYTES or not has_end or flags & ~CONDITION:
            return None
        entries.append(Entry(head[1].decode(), since, flags, script))
        rest = rest[head.end() + length + 1 :]
    return entries


def chain_begin(identity: str) -> str:
    return sha256(f"mmdb log 2 {identity}".encode()).hexdigest()[:32]


def chain_after(chain: str, message: Logged) -> str:
    head = "\n".join([chain, message.headers.get("Mmdb-Format", ""), message.headers.get("Mmdb-Checked", ""), ""])
    return sha256(head.encode() + bytes_of(message.body)).hexdigest()[:32]


class Handle(ctypes.Structure):
    _fields_ = [("block", ctypes.c_void_p), ("is_open", ctypes.c_bool)]


class Library:
    """libmmdb with one open database."""

    def __init__(self, path: Path):
        self.calls = ctypes.CDLL(str(path))
        text, size = ctypes.c_char_p, ctypes.c_size_t
        handle, sizes = ctypes.POINTER(Handle), ctypes.POINTER(ctypes.c_size_t)
        for name, kinds in {
            "open": [handle],
            "close": [handle],
            "execute": [handle, text, size],
            "text": [handle, text, size, sizes],
            "prepare": [handle, text, size, sizes],
            "parameters": [handle, size, sizes],
            "finalize": [handle, size],
        }.items():
            call = getattr(self.calls, "mmdb_" + name)
            call.argtypes, call.restype = kinds, None if name == "close" else ctypes.c_uint8
        self.handle = Handle(None, False)
        if self.calls.mmdb_open(self.handle) != DONE:
            raise MemoryError("the library cannot open a database")

    def close(self) -> None:
        self.calls.mmdb_close(self.handle)

    def execute(self, line: bytes) -> tuple[int, bytes]:
        """Executes a line. Returns its status and its reply."""
        status = self.calls.mmdb_execute(self.handle, line, len(line))
        length = ctypes.c_size_t(0)
        self.calls.mmdb_text(self.handle, None, 0, length)
        reply = ctypes.create_string_buffer(length.value)
        if status == MEMORY or self.calls.mmdb_text(self.handle, reply, length.value, length) != DONE:
            raise MemoryError(line)
        return status, reply.raw

    def reads(self, line: bytes) -> bool:
        """Returns whether a line is a command without parameters."""
        statement, holes = ctypes.c_size_t(0), ctypes.c_size_t(0)
        if self.calls.mmdb_prepare(self.handle, line, len(line), statement) != DONE:
            return False
        self.calls.mmdb_parameters(self.handle, statement, holes)
        self.calls.mmdb_finalize(self.handle, statement)
        return not holes.value


def lines_of(script: bytes) -> list[bytes]:
    lines = script.split(b"\n")
    if not lines[-1]:
        lines.pop()
    return [line[:-1] if line.endswith(b"\r") else line for line in lines]


def words_of(line: bytes) -> list[bytes]:
    return [word for word in line.replace(b"\t", b" ").split(b" ") if word]


def is_command(line: bytes) -> bool:
    return bool(words_of(line)) and not line.startswith(b"--")


class Replay:
    """A database after the messages of a log, with the kept ids. `kept_ids` is the number of ids that a replica keeps."""

    def __init__(self, library: Library, kept_ids: int = KEPT_IDS):
        self.library = library
        self.kept_ids, self.forgotten, self.number = kept_ids, 0, 0
        self.kept: dict[str, int] = {}  # the number of each kept id, oldest first
        self.outcomes: dict[str, tuple[int, Outcome]] = {}  # the number and the outcome of each applied id
        self.twice: list[tuple[str, int, int]] = []  # ids that were applied at two numbers

    def close(self) -> None:
        self.library.close()

    def is_script(self, script: bytes) -> bool:
        """Returns whether a script is valid: one change, one definition, or BEGIN, changes and savepoints, and COMMIT or ROLLBACK. Each line
        must be a command without parameters."""
        lines = [line for line in lines_of(script) if is_command(line)]
        if len(script) > MOST_SCRIPT_BYTES or not lines or any(len(line) > MOST_LINE_BYTES for line in lines_of(script)):
            return False
        if not all(self.library.reads(line) for line in lines):
            return False
        words = [words_of(line) for line in lines]
        if words[0][0] != b"BEGIN":
            return len(words) == 1 and words[0][0] in CHANGES + DEFINITIONS
        return len(words) > 1 and self.is_end(words[-1]) and all(self.is_inside(one) for one in words[1:-1])

    @staticmethod
    def is_end(words: list[bytes]) -> bool:
        return words[0] == b"COMMIT" or (words[0] == b"ROLLBACK" and words[1:2] != [b"TO"])

    @staticmethod
    def is_inside(words: list[bytes]) -> bool:
        return words[0] in (*CHANGES, b"SAVEPOINT") or (words[0] == b"ROLLBACK" and words[1:2] == [b"TO"])

    def run(self, script: bytes, has_condition: bool) -> Outcome:
        replies, is_open = b"", False
        for line in lines_of(script):
            if not is_command(line):
                continue
            word = words_of(line)[0]
            status, reply = self.library.execute(line)
            replies += reply
            is_unmet = has_condition and word in (b"UPDATE", b"DELETE") and reply == b"ok 0\n"
            if status >= FIRST_REFUSAL or is_unmet:
                if is_open:
                    self.library.execute(b"ROLLBACK")
                return Outcome("unmet" if is_unmet else "refused", replies)
            is_open = is_open or word == b"BEGIN"
        return Outcome("done", replies)

    def apply(self, message: Logged) -> None:
        """Applies the message with the next number."""
        self.number = message.number
        forgotten = self.forgotten
        checked = checked_in(message)
        for entry in entries_of(message) or []:
            assert checked
            if entry.name not in self.kept and min(entry.since, checked[0]) >= forgotten:
                self.apply_entry(entry)

    def apply_entry(self, entry: Entry) -> None:
        is_script = self.is_script(entry.script)
        outcome = self.run(entry.script, bool(entry.flags & CONDITION)) if is_script else Outcome("invalid", b"")
        if entry.name in self.outcomes:
            self.twice.append((entry.name, self.outcomes[entry.name][0], self.number))
        self.outcomes[entry.name] = self.number, outcome
        self.kept[entry.name] = self.number
        while len(self.kept) > self.kept_ids:
            oldest = next(iter(self.kept))
            self.forgotten = max(self.forgotten, self.kept.pop(oldest))

    def ask(self, question: bytes) -> Outcome:
        status, reply = self.library.execute(question)
        return Outcome("refused" if status >= FIRST_REFUSAL else "done", reply)
