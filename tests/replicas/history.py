"""The history of a run: each call with its begin, end, answer and number, and each message of the log, as lines of JSON.

Times are seconds of one monotonic clock. Bytes are stored as texts with one character per byte.
"""

import json
import threading
from dataclasses import asdict, dataclass, field, fields
from pathlib import Path
from typing import Iterable, Optional, Union


@dataclass
class Answer:
    """The answer of a replica. Without an answer, `end` and `status` are None."""

    end: Optional[float] = None
    status: Optional[str] = None
    number: int = 0
    replies: str = ""
    replica: str = ""
    log: str = ""  # the identity of the log
    chain: str = ""
    chain_number: int = 0


@dataclass
class Change:
    """A script that a client sent until a replica answered. Without an answer, the log may contain the script or not."""

    client: str
    name: str  # its id
    script: str
    begin: float
    has_condition: bool = False
    since: int = 0  # the id was not sent before this number of the log
    tries: int = 0
    answer: Answer = field(default_factory=Answer)
    kind: str = "change"


@dataclass
class Question:
    """A question, with the number that it demanded. A linearizable question must see all calls that were answered before it began."""

    client: str
    question: str
    demanded: int
    begin: float
    linearizable: bool = False
    answer: Answer = field(default_factory=Answer)
    kind: str = "question"


@dataclass
class Logged:
    """A message of the log. `seen` is "witness" if it was read during the run, and "end" if it was read from the final log."""

    number: int
    headers: dict[str, str]
    body: str
    seen: str
    time: float
    kind: str = "message"


@dataclass
class Event:
    """A note for readers of the history, such as a fault that begins or ends."""

    time: float
    what: str
    kind: str = "event"


Record = Union[Change, Question, Logged, Event]
KINDS: dict[str, type] = {"change": Change, "question": Question, "message": Logged, "event": Event}


def text_of(data: bytes) -> str:
    return data.decode("latin-1")


def bytes_of(text: str) -> bytes:
    return text.encode("latin-1")


class History:
    """The records of a run. Many threads may add records at the same time."""

    def __init__(self) -> None:
        self.lock = threading.Lock()
        self.records: list[Record] = []

    def add(self, record: Record) -> None:
        """Adds a record. A call is added when it begins, and its answer is filled in later."""
        with self.lock:
            self.records.append(record)

    def write(self, path: Path) -> None:
        with self.lock, open(path, "w", encoding="utf-8") as file:
            for record in self.records:
                file.write(json.dumps(asdict(record)) + "\n")


def read(path: Path) -> list[Record]:
    with open(path, encoding="utf-8") as file:
        return [record_of(json.loads(line)) for line in file]


def record_of(said: dict) -> Record:
    kind = KINDS[said["kind"]]
    names = {one.name for one in fields(kind)}
    values = {name: value for name, value in said.items() if name in names}
    if "answer" in values:
        values["answer"] = Answer(**values["answer"])
    return kind(**values)


def of_kind(records: Iterable[Record], kind: type) -> list:
    return [record for record in records if isinstance(record, kind)]
