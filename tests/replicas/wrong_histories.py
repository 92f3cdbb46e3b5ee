#!/usr/bin/env python3
"""Tests the checker: it reports nothing for a correct history, and the broken rule for each wrong one.

    wrong_histories.py

A small language in place of the library makes the histories readable. The status is 0 only if all tests pass. Takes less than a second.
"""

import copy
import sys
from dataclasses import replace
from typing import Callable

from check import SERVER_FAULT, Checker
from history import Answer, Change, Event, Logged, Question, Record
from replay import FORMAT, Replay, chain_after, chain_begin

IDENTITY = "0123456789abcdef"


class Toy:
    """A database of one counter. UPDATE increments the counter, DELETE matches no row, INSERT is refused at 3, and SCAN reads the counter."""

    def __init__(self) -> None:
        self.value = self.saved = 0

    def close(self) -> None:
        """Does nothing."""

    def reads(self, line: bytes) -> bool:
        return b"?" not in line

    def execute(self, line: bytes) -> tuple[int, bytes]:
        if line == b"BEGIN":
            self.saved = self.value
        elif line == b"ROLLBACK":
            self.value = self.saved
        elif line == b"UPDATE":
            self.value += 1
            return 2, b"ok 1\n"
        elif line == b"DELETE":
            return 2, b"ok 0\n"
        elif line == b"INSERT":
            return (40, b"error 40 duplicate key\n") if self.value == 3 else (2, b"ok 1\n")
        elif line == b"SCAN":
            return 3, f"({self.value})\nrows 1\n".encode()
        return 1, b"ok\n"


class Writer:
    """Writes the history of one client. Each record has a later time than the one before."""

    def __init__(self) -> None:
        self.time = 0.0
        self.records: list[Record] = []
        self.chains = [chain_begin(IDENTITY)]

    def tick(self) -> float:
        self.time += 1
        return self.time

    def log(self, *entries: tuple[str, str], since: int = 0, checked: int = -1, flags: int = 0) -> int:
        """Appends a message with scripts and their ids to the log. Returns its number."""
        number = len(self.chains)
        place = number - 1 if checked < 0 else checked
        headers = {"Mmdb-Format": FORMAT, "Mmdb-Checked": f"{place} {self.chains[place]}", "Mmdb-Replica": "r0"}
        body = "".join(f"{name} {since} {flags} {len(script)}\n{script}\n" for name, script in entries)
        message = Logged(number, headers, body, "end", self.tick())
        self.chains.append(chain_after(self.chains[-1], message))
        self.records += [message, replace(message, seen="witness")]
        return number

    def answer(self, number: int, status: str, replies: str) -> Answer:
        last = len(self.chains) - 1
        return Answer(self.tick(), status, number, replies, "r0", IDENTITY, self.chains[last], last)

    def change(self, name: str, script: str, status: str, replies: str, flags: int = 0) -> Change:
        change = Change("k", name, script, self.tick(), bool(flags))
        number = self.log((name, script), since=len(self.chains) - 1, flags=flags)
        change.answer = self.answer(number, status, replies)
        self.records.append(change)
        return change

    def ask(self, number: int, value: int, linearizable: bool = False) -> Question:
        question = Question("k", "SCAN", number, self.tick(), linearizable)
        question.answer = self.answer(number, "done", f"({value})\nrows 1\n")
        self.records.append(question)
        return question


def right() -> Writer:
    """Returns a correct history with a change of each outcome, a copy of a message, junk and questions."""
    writer = Writer()
    writer.change("a", "UPDATE\n", "done", "ok 1\n")
    writer.ask(1, 1)
    writer.change("b", "BEGIN\nUPDATE\nUPDATE\nCOMMIT\n", "done", "ok\nok 1\nok 1\nok\n")
    writer.change("c", "BEGIN\nUPDATE\nROLLBACK\n", "done", "ok\nok 1\nok\n")
    writer.change("d", "INSERT\n", "refused", "error 40 duplicate key\n")
    writer.change("e", "BEGIN\nUPDATE\nDELETE\nCOMMIT\n", "unmet", "ok\nok 1\nok 0\n", flags=1)
    writer.log(("a", "UPDATE\n"), checked=0)
    writer.log(("f", "UPDATE ?\n"), ("g", "SCAN\n"), ("h", "BEGIN\nUPDATE\n"))
    writer.ask(6, 3)
    writer.ask(7, 3, linearizable=True)
    writer.records.append(Change("k", "i", "INSERT (\n", writer.tick(), answer=writer.answer(7, "invalid", "error 11 syntax\n")))
    writer.records.append(Change("k", "j", "UPDATE\n", writer.tick()))
    writer.ask(7, 3)
    return writer


def rules_of(records: list[Record], kept_ids: int = 65536) -> set[str]:
    return {finding.rule for finding in Checker(records, lambda: Replay(Toy(), kept_ids)).check()}  # type: ignore[arg-type]


def changes(records: list[Record]) -> list[Change]:
    return [one for one in records if isinstance(one, Change)]


def questions(records: list[Record]) -> list[Question]:
    return [one for one in records if isinstance(one, Question)]


def logged(records: list[Record], number: int, seen: str = "end") -> Logged:
    return next(one for one in records if isinstance(one, Logged) and one.number == number and one.seen == seen)


# Each of these functions makes a correct history wrong. WRONG lists them with the rules that they break.


def stale_state(writer: Writer) -> None:
    questions(writer.records)[1].answer.replies = "(2)\nrows 1\n"


def half_a_script(writer: Writer) -> None:
    writer.ask(2, 2)


def applied_twice(writer: Writer) -> None:
    questions(writer.records)[1].answer.replies = "(4)\nrows 1\n"


def beyond_the_log(writer: Writer) -> None:
    questions(writer.records)[1].answer.number = 8


def lost_write(writer: Writer) -> None:
    writer.records.append(Change("k", "z", "UPDATE\n", writer.tick(), answer=writer.answer(7, "done", "ok 1\n")))


def other_outcome(writer: Writer) -> None:
    changes(writer.records)[3].answer.status = "done"


def other_replies(writer: Writer) -> None:
    changes(writer.records)[0].answer.replies = "ok 2\n"


def other_number(writer: Writer) -> None:
    changes(writer.records)[0].answer.number = 6


def invalid_in_log(writer: Writer) -> None:
    changes(writer.records)[0].answer.status = "invalid"


def went_back(writer: Writer) -> None:
    questions(writer.records)[1].demanded = 7


def late_number(writer: Writer) -> None:
    first, second = changes(writer.records)[:2]
    first.begin, first.answer.end = (second.answer.end or 0) + 0.1, (second.answer.end or 0) + 0.2


def stale_linearizable(writer: Writer) -> None:
    question = writer.ask(6, 3)
    question.linearizable = True


def linearizable_before_a_change(writer: Writer) -> None:
    """A change has a number that an earlier question had already seen."""
    asked, change = questions(writer.records)[2], changes(writer.records)[4]
    asked.begin, asked.answer.end = change.begin - 0.5, change.begin - 0.4


def other_chain(writer: Writer) -> None:
    questions(writer.records)[1].answer.chain = "0" * 32


def other_chain_in_message(writer: Writer) -> None:
    writer.log(("k", "UPDATE\n"))
    message = logged(writer.records, 8)
    message.headers["Mmdb-Checked"] = logged(writer.records, 8, "witness").headers["Mmdb-Checked"] = "7 " + "0" * 32


def two_answers(writer: Writer) -> None:
    """Two replicas differ at a number that the log lost."""
    for place in (2, 3):
        questions(writer.records)[place].answer.chain = "f" * 32
    questions(writer.records)[3].answer.replies = "(9)\nrows 1\n"
    questions(writer.records)[2].question = questions(writer.records)[3].question
    changed_log(writer)
    writer.records.append(Event(writer.tick(), SERVER_FAULT + "kill s0"))


def other_history(writer: Writer) -> None:
    """A replica applied a message that the servers delivered and then lost."""
    other_chain(writer)
    writer.records.append(Event(writer.tick(), SERVER_FAULT + "kill s0"))


def no_log(writer: Writer) -> None:
    calls: list[Change | Question] = [*changes(writer.records), *questions(writer.records)]
    for one in calls:
        one.answer.log = ""


def two_logs(writer: Writer) -> None:
    questions(writer.records)[0].answer.log = "fedcba9876543210"


def changed_log(writer: Writer) -> None:
    logged(writer.records, 5).body = "x 0 0 7\nUPDATE\n\n"


def hole_in_log(writer: Writer) -> None:
    writer.records = [one for one in writer.records if not (isinstance(one, Logged) and one.number == 5)]


def lost_by_servers(writer: Writer) -> None:
    lost_write(writer)
    writer.records.append(Event(writer.tick(), SERVER_FAULT + "kill s0"))


WRONG: list[tuple[Callable[[Writer], None], str]] = [
    (stale_state, "state"),
    (half_a_script, "state"),
    (applied_twice, "state"),
    (beyond_the_log, "state"),
    (lost_write, "acknowledged"),
    (other_outcome, "acknowledged"),
    (other_replies, "acknowledged"),
    (other_number, "once"),
    (invalid_in_log, "invalid"),
    (went_back, "demanded"),
    (late_number, "order"),
    (stale_linearizable, "linearizable"),
    (linearizable_before_a_change, "order"),
    (other_chain, "chain"),
    (other_chain_in_message, "chain"),
    (two_answers, "chain"),
    (other_history, "log"),
    (no_log, "chain"),
    (two_logs, "chain"),
    (changed_log, "log"),
    (hole_in_log, "log"),
    (lost_by_servers, "log"),
]


def window() -> list[str]:
    """Returns the failures of this test: a copy of a forgotten id must be skipped unless its publisher checked the id later."""
    wrong = []
    cases: list[tuple[int, set[str]]] = [(1, set()), (4, {"once"})]
    for checked, wanted in cases:
        writer = Writer()
        for name in "abcd":
            writer.change(name, "UPDATE\n", "done", "ok 1\n")
        writer.log(("a", "UPDATE\n"), since=checked, checked=checked)
        found = rules_of(writer.records, kept_ids=2)
        if not wanted <= found or (found and not wanted):
            wrong.append(f"a copy that was checked at {checked} breaks {found or 'nothing'}, not {wanted or 'nothing'}")
    return wrong


def main() -> int:
    wrong = window()
    if found := rules_of(right().records):
        wrong.append(f"the correct history breaks {found}")
    for spoil, rule in WRONG:
        writer = copy.deepcopy(right())
        spoil(writer)
        if rule not in rules_of(writer.records):
            wrong.append(f"{spoil.__name__} does not break {rule}, but {rules_of(writer.records) or 'nothing'}")
    print("\n".join(wrong) or f"{len(WRONG)} wrong histories are detected")
    return 1 if wrong else 0


if __name__ == "__main__":
    sys.exit(main())
