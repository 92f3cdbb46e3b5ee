"""Clients that call replicas and record each call, and a witness that reads the log during the run."""

import json
import threading
import time
from base64 import b64decode
from dataclasses import replace
from typing import Callable, Optional

from cluster import Asker, must
from history import Answer, Change, History, Logged, Question, text_of
from network import Network
from replay import KEPT_IDS
from schedule import WITNESS, Call, Calls
from stage import Stage
from wire import Connection, Message, headers_in

NOT_NOW = ("unready", "unavailable", "behind", "memory")
AT_ONCE = 200  # messages per batch
NO_MESSAGE = 404
LONGEST_WAIT_MS = 90000  # the timeout of mmdb-ask in milliseconds


def answer_of(message: Message, end: float) -> Answer:
    """Returns the answer in a message. Its status is None if no replica sent the message."""
    headers = message.headers
    return Answer(
        end=end,
        status=headers.get("Mmdb-Status"),
        number=int(headers.get("Mmdb-Sequence", 0)),
        replies=text_of(message.body),
        replica=headers.get("Mmdb-Replica", ""),
        log=headers.get("Mmdb-Log", ""),
        chain=headers.get("Mmdb-Chain", ""),
        chain_number=int(headers.get("Mmdb-Chain-Sequence", 0)),
    )


def headers_of(change: Change) -> dict[str, str]:
    headers = {"Mmdb-Id": change.name, "Mmdb-Since": str(change.since)}
    return {**headers, "Mmdb-Condition": "rows"} if change.has_condition else headers


class Board:
    """The state that clients share: the highest number of any answer, and whether the run is over."""

    def __init__(self) -> None:
        self.newest = 0
        self.is_over = threading.Event()
        self.give_up = float("inf")  # the time after which no call is repeated
        self.refused = 0  # the number of attempts without a final answer

    def saw(self, number: int) -> None:
        self.newest = max(self.newest, number)


class Caller:
    """A client. Its questions demand the number of its last answer, or the highest number of all clients."""

    def __init__(self, host: str, client: str, log: str, network: Network, history: History, board: Board):
        self.host, self.client, self.log = host, client, log
        self.network, self.history, self.board = network, history, board
        self.connection = Connection(network.addresses(host))
        self.number, self.count = board.newest, 0

    def run(self, calls: Calls) -> None:
        self.network.enter(self.host)
        while not self.board.is_over.is_set():
            call = calls.next()
            self.board.is_over.wait(call.pause)
            self.make(call)
        self.connection.close()

    def make(self, call: Call) -> None:
        if call.script:
            self.change(call.script, call.wait, call.has_condition)
            return
        demanded = max(self.number, self.board.newest if call.passed_on else 0)
        begin = time.monotonic()
        if call.linearizable:
            empty = self.change("BEGIN\nCOMMIT\n", call.wait)
            if empty.answer.status != "done":
                return
            demanded = max(demanded, empty.answer.number)
        self.ask(call.question, demanded, call.wait, begin, call.linearizable)

    def try_once(self, subject: str, body: bytes, headers: dict[str, str], wait: float) -> Optional[Answer]:
        """Sends a request once. Returns its answer, or None if there is none or its status is one of NOT_NOW."""
        try:
            message = self.connection.request(subject, body, {**headers, "Mmdb-Wait": str(int(wait * 1000))}, wait)
        except OSError:
            self.connection.close()  # the server may be cut off from the leader; the next connection is to another one
            self.board.refused += 1
            return None
        answer = answer_of(message, time.monotonic())
        if answer.status and answer.status not in NOT_NOW:
            return answer
        self.board.refused += 1
        return None

    def is_hopeless(self) -> bool:
        return time.monotonic() > self.board.give_up

    def change(self, script: str, wait: float, has_condition: bool = False) -> Change:
        """Sends a change until a replica answers, each time with the same id. Returns the record of the change."""
        self.count += 1
        change = Change(self.client, f"{self.client}-{self.count}", script, time.monotonic(), has_condition, self.number)
        self.history.add(change)
        headers = headers_of(change)
        while not self.is_hopeless():
            change.tries += 1
            answer = self.try_once(self.log + ".change", script.encode(), headers, wait)
            if answer:
                change.answer = answer
                self.saw(answer)
                break
            time.sleep(0.05)
        return change

    def ask(self, question: str, demanded: int, wait: float, begin: float, linearizable: bool = False, replica: str = "") -> Question:
        """Sends a question until a replica answers, or until `give_up`. Returns the record of the question."""
        asked = Question(self.client, question, demanded, begin, linearizable)
        self.history.add(asked)
        subject = f"{self.log}.ask.{replica}" if replica else f"{self.log}.ask"
        while not self.is_hopeless():
            answer = self.try_once(subject, question.encode(), {"Mmdb-At-Least": str(demanded)}, wait)
            if answer:
                asked.answer = answer
                self.saw(answer)
                break
            time.sleep(0.05)
        return asked

    def saw(self, answer: Answer) -> None:
        if answer.status in ("done", "refused", "unmet"):
            self.number = max(self.number, answer.number)
            self.board.saw(answer.number)


    def send_again(self, change: Change) -> None:
        """Sends an answered change once more, and records it as another call with the same id."""
        again = replace(change, client=self.client, answer=Answer())
        self.history.add(again)
        answer = self.try_once(self.log + ".change", change.script.encode(), headers_of(change), 2.5)
        if answer:
            again.answer = answer


class ProgramCaller:
    """A client that sends its scripts and questions to one running mmdb-ask.

    The client sends only questions if mmdb-ask is linearizable, or if the replicas forget ids within seconds. mmdb-ask sends an id that
    its caller chose without the number before which the id was new.
    """

    def __init__(self, host: str, client: str, stage: Stage, history: History, board: Board, is_linearizable: bool):
        self.client, self.history, self.board, self.is_linearizable = client, history, board, is_linearizable
        self.only_asks = is_linearizable or stage.programs.kept_ids < KEPT_IDS
        options = ["--linearizable"] if is_linearizable else [] if self.only_asks else ["--id", client]
        words = stage.ask_words(host, "--numbers", "--wait", str(LONGEST_WAIT_MS), *options)
        self.asker = Asker(words)
        self.number = self.count = 0

    def run(self, calls: Calls) -> None:
        try:
            while not self.board.is_over.is_set():
                call = calls.next()
                self.board.is_over.wait(call.pause)
                if call.question:
                    asked = Question(self.client, call.question, self.number, time.monotonic(), self.is_linearizable)
                    self.record(asked, call.question + "\n")
                elif call.is_valid and not call.has_condition and not self.only_asks:
                    self.count += 1
                    name = f"{self.client}-{self.count}"
                    self.record(Change(self.client, name, call.script, time.monotonic(), False, self.number), call.script)
            must(self.asker.close() == 0, "mmdb-ask did not end with status 0")
        finally:
            self.asker.kill()

    def record(self, call: Change | Question, script: str) -> None:
        self.history.add(call)
        status, number, replies, replica = self.asker.send(script.encode(), isinstance(call, Question))
        call.answer = Answer(time.monotonic(), status, number, text_of(replies), replica)
        self.number = max(self.number, number)
        self.board.saw(self.number)


class Witness:
    """Reads each message of the log soon after its publication, from a host that is never cut off."""

    def __init__(self, log: str, network: Network, history: History, board: Board):
        self.log, self.network, self.history, self.board = log, network, history, board
        self.connection = Connection(network.addresses(WITNESS))
        self.next = 1

    def run(self) -> None:
        self.network.enter(WITNESS)
        while not self.board.is_over.wait(0.03):
            try:
                self.next = self.read(self.connection, self.next, "witness")
            except OSError:
                self.connection.close()
        self.connection.close()

    def read(self, connection: Connection, number: int, seen: str) -> int:
        """Adds the messages of the log from `number` on to the history. Returns the number to read next."""
        while True:
            bodies = [json.dumps({"seq": one}).encode() for one in range(number, number + (AT_ONCE if seen == "end" else 8))]
            answers = connection.gather("$JS.API.STREAM.MSG.GET." + self.log, bodies)
            for answer in answers:
                told = json.loads(answer.body) if answer.body else {"error": {"code": 0}}
                if "error" in told:
                    return self.number_after(number, told["error"], connection)
                self.history.add(message_of(told["message"], seen))
                number += 1

    def number_after(self, number: int, error: dict, connection: Connection) -> int:
        """Returns the number to read next if `number` is missing: the same number, or the log's first if older messages were dropped."""
        if error.get("code") != NO_MESSAGE:
            raise ConnectionError(str(error))
        state = connection.api("STREAM.INFO." + self.log)["state"]
        return max(number, state["first_seq"]) if state["messages"] else number


def message_of(told: dict, seen: str) -> Logged:
    headers = headers_in(b64decode(told["hdrs"]))[1] if told.get("hdrs") else {}
    return Logged(told["seq"], headers, text_of(b64decode(told.get("data", ""))), seen, time.monotonic())


def read_log(connection: Connection, log: str, history: History, network: Network) -> int:
    """Adds the whole log to the history. Returns the number of its last message."""
    state = connection.api("STREAM.INFO." + log)["state"]
    witness = Witness(log, network, history, Board())
    number = state["first_seq"]
    while number <= state["last_seq"]:
        before, number = number, witness.read(connection, number, "end")
        if number == before:
            break
    return state["last_seq"]


def guarded(work: Callable[[], None], wrong: list[str], board: Board) -> Callable[[], None]:
    """Returns a thread function that runs `work`. An exception is appended to `wrong` and ends the run."""

    def guard() -> None:
        try:
            work()
        except Exception as failure:  # noqa: BLE001: every exception is a finding
            wrong.append(f"{type(failure).__name__}: {failure}")
            board.is_over.set()

    return guard

