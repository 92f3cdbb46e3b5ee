#!/usr/bin/env python3
"""Checks whether replicas may produce a history.

    check.py LIBRARY HISTORY [KEPT]

LIBRARY is libmmdb.so, and HISTORY is a file that storm.py wrote. KEPT is the number of ids that the replicas kept, by default 65,536.
The rules:

- log: a message of the log never changes, no number is missing, and the log contains each acknowledged change. If a server failed, NATS
  may have broken this rule, and answers from the first broken number on are not judged. If a chain hash of a replica then differs from
  that of the log, the log delivered a message and lost it, which breaks this rule. If no server failed, it breaks the rule `chain`.
- acknowledged: an answered change is in the log, with the outcome and the replies of its answer.
- once: no change is applied twice. Each answer to a change has the number at which the change was applied, even if it was sent many times.
- invalid: a change with the answer `invalid` is not in the log.
- state: an answer equals that of the library after the messages up to the number of the answer.
- chain: each chain hash in an answer or in the log is that of the log at its number. Two answers with the same chain hash are equal, even
  if the log itself changed.
- demanded: no answer has a number below the number that its client demanded.
- order: a change that began after another call was answered has a higher number than that call.
- linearizable: a linearizable question has at least the number of each call that was answered before the question began.

The log is one order of all changes, and an answer is a function of its number. So calls are linearizable if and only if the numbers of
calls that do not overlap are in order of time. The last two rules state this. The status is 0 only if no rule is broken.
"""

import sys
from collections import defaultdict
from dataclasses import dataclass
from pathlib import Path
from typing import Callable, Iterator, Optional, Union

import history
from history import Change, Event, Logged, Question, Record, bytes_of
from replay import KEPT_IDS, Library, Outcome, Replay, chain_after, chain_begin, checked_in, entries_of

APPLIED = ("done", "refused", "unmet")
ANSWERED = ("done", "refused", "orphaned")  # the final statuses of questions
SERVER_FAULT = "a server fails: "  # the prefix of the event of a fault after which NATS may lose a message
JUNK = "junk"  # the publisher of deliberately wrong messages
MOST_LINES_SHOWN = 6

Call = Union[Change, Question]


@dataclass
class Finding:
    """A broken rule, with details."""

    rule: str
    what: str

    def __str__(self) -> str:
        return f"{self.rule}: {self.what}"


def has_ended(call: Call) -> bool:
    return call.answer.status in (APPLIED if isinstance(call, Change) else ANSWERED)


def name_of(call: Call) -> str:
    return call.name if isinstance(call, Change) else f"{call.question!r} of {call.client}"


class Checker:
    """Compares the records of a history with its log, and collects findings."""

    def __init__(self, records: list[Record], make_replay: Callable[[], Replay]):
        self.trusts_log = not any(isinstance(one, Event) and one.what.startswith(SERVER_FAULT) for one in records)
        self.changes: list[Change] = history.of_kind(records, Change)
        self.questions: list[Question] = history.of_kind(records, Question)
        self.log, self.witnessed = self.sort_messages(history.of_kind(records, Logged))
        self.last = max(self.log, default=0)
        self.names = self.names_in_log()
        self.make_replay = make_replay
        self.findings: list[Finding] = []
        self.judged = self.unjudged = 0
        self.broken_at = self.first_broken()

    def find(self, rule: str, what: str) -> None:
        self.findings.append(Finding(rule, what))

    # The log.

    @staticmethod
    def sort_messages(messages: list[Logged]) -> tuple[dict[int, Logged], list[Logged]]:
        """Returns the final log, with the cut-off messages that the witness read before it, and all messages that the witness read."""
        witnessed = [one for one in messages if one.seen == "witness"]
        at_end = {one.number: one for one in messages if one.seen == "end"}
        first = min(at_end, default=max((one.number for one in witnessed), default=0) + 1)
        before = {one.number: one for one in reversed(witnessed) if one.number < first}
        return {**before, **at_end}, witnessed

    def names_in_log(self) -> set[str]:
        """Returns the ids of changes that replicas published. Junk may contain an id that a client uses later."""
        messages = [message for message in self.log.values() if message.headers.get("Mmdb-Replica") != JUNK]
        return {entry.name for message in messages for entry in entries_of(message) or []}

    def first_broken(self) -> Optional[int]:
        """Returns the first number at which the log lost or changed a message, or None."""
        broken = [*self.changed_messages(), *self.missing_messages()]
        if not self.trusts_log:
            broken += [*self.lost_changes(), *self.lost_histories(min(broken, default=self.last + 1))]
        return min(broken, default=None)

    def changed_messages(self) -> Iterator[int]:
        for one in self.witnessed:
            now = self.log.get(one.number)
            if not now or (one.headers, one.body) != (now.headers, now.body):
                self.find("log", f"number {one.number} was {one.body[:60]!r}, and is {now.body[:60] if now else 'missing'!r}")
                yield one.number

    def missing_messages(self) -> Iterator[int]:
        for number in range(1, self.last + 1):
            if number not in self.log:
                self.find("log", f"number {number} is missing, but {self.last} exists")
                yield number

    def lost_changes(self) -> Iterator[int]:
        for change in self.changes:
            if change.answer.status in APPLIED and change.name not in self.names:
                self.find("log", f"{change.name} was acknowledged at number {change.answer.number}, but is not in the log")
                yield change.answer.number

    def lost_histories(self, until: int) -> Iterator[int]:
        """Yields the first numbers at which replicas had messages that the log delivered and then lost."""
        points = self.chain_points()
        identities = {call.answer.log for call in self.calls() if call.answer.log}
        if len(identities) != 1 or 1 not in self.log:
            return
        chains = self.chains(identities.pop(), until)
        for replica, number, chain in points:
            if number in chains and chains[number] != chain:
                same = [place for name, place, own in points if name == replica and place < number and chains.get(place) == own]
                self.find("log", f"{replica} had another message at a number from {max(same, default=0) + 1} to {number}")
                yield max(same, default=0) + 1

    def chain_points(self) -> list[tuple[str, int, str]]:
        """Returns the chain hashes in the answers and messages of replicas, each with its replica and its number."""
        answers = [call.answer for call in self.calls() if call.answer.chain]
        points = [(answer.replica, answer.chain_number, answer.chain) for answer in answers]
        for message in self.log.values():
            checked, publisher = checked_in(message), message.headers.get("Mmdb-Replica", JUNK)
            if checked and publisher != JUNK:
                points.append((publisher, *checked))
        return points

    def is_judged(self, call: Call) -> bool:
        """Returns whether the log up to the number of an answer is unbroken. Counts the answer as judged or not judged."""
        is_judged = self.broken_at is None or call.answer.number < self.broken_at
        self.judged += is_judged
        self.unjudged += not is_judged
        return is_judged

    # States.

    def check_states(self) -> dict[str, tuple[int, Outcome]]:
        """Applies the log, and compares each answer with that of the library at its number. Returns the number and outcome of each id."""
        by_number: dict[int, list[Question]] = defaultdict(list)
        for question in self.questions:
            if has_ended(question) and self.is_judged(question):
                by_number[question.answer.number].append(question)
        replay = self.make_replay()
        try:
            self.check_answers(replay, by_number.pop(0, []))
            for number in range(1, self.last + 1):
                if number in self.log:
                    replay.apply(self.log[number])
                self.check_answers(replay, by_number.pop(number, []))
            for number, answers in sorted(by_number.items()):
                self.find("state", f"{answers[0].answer.replica} answered at number {number}, but the log ends at {self.last}")
            for name, first, second in replay.twice:
                self.find("once", f"the rules of the protocol apply {name} at {first} and at {second}")
            return replay.outcomes
        finally:
            replay.close()

    def check_answers(self, replay: Replay, questions: list[Question]) -> None:
        wanted: dict[str, Outcome] = {}
        for one in questions:
            if one.question not in wanted:
                wanted[one.question] = replay.ask(bytes_of(one.question))
            want, got = wanted[one.question], one.answer
            is_same = want.replies == bytes_of(got.replies) and got.status in (want.status, "orphaned")
            if not is_same:
                self.find("state", self.difference(one, want))

    @staticmethod
    def difference(one: Question, wanted: Outcome) -> str:
        got, want = one.answer.replies.splitlines(), history.text_of(wanted.replies).splitlines()
        lines = [f"-{line}" for line in want if line not in got] + [f"+{line}" for line in got if line not in want]
        told = "; ".join(lines[:MOST_LINES_SHOWN]) or f"status {one.answer.status}, not {wanted.status}"
        return f"{one.answer.replica} answered {name_of(one)} at number {one.answer.number}: {told}"

    # Changes.

    def check_changes(self, outcomes: dict[str, tuple[int, Outcome]]) -> None:
        for change in self.changes:
            if change.answer.status == "invalid" and change.name in self.names:
                self.find("invalid", f"{change.name} was answered invalid, but is in the log")
            elif change.answer.status in APPLIED and self.is_judged(change):
                self.check_acknowledged(change, outcomes.get(change.name))

    def check_acknowledged(self, change: Change, applied: Optional[tuple[int, Outcome]]) -> None:
        answer = change.answer
        if not applied:
            self.find("acknowledged", f"{change.name} was answered {answer.status} at {answer.number}, but was never applied")
            return
        number, outcome = applied
        if number != answer.number:
            self.find("once", f"{change.name} was answered at number {answer.number}, but was applied at {number}")
        elif outcome != Outcome(str(answer.status), bytes_of(answer.replies)):
            told = f"{answer.status} {answer.replies!r}, but its outcome is {outcome.status} {outcome.replies!r}"
            self.find("acknowledged", f"{change.name} at number {number} was answered {told}")

    # Chains.

    def check_same_chains(self) -> None:
        """Checks that answers with the same question and the same chain hash are equal."""
        answers: dict[tuple[str, str], Question] = {}
        for one in self.questions:
            if has_ended(one) and one.answer.chain and one.answer.chain_number == one.answer.number:
                first = answers.setdefault((one.answer.chain, one.question), one)
                if first.answer.replies != one.answer.replies:
                    self.find("chain", f"{first.answer.replica} and {one.answer.replica} differ in their answers to {name_of(one)}")

    def check_chains(self) -> None:
        identities = {call.answer.log for call in self.calls() if call.answer.log}
        if len(identities) != 1 and any(has_ended(call) for call in self.calls()):
            self.find("chain", f"answers name {len(identities)} logs: {', '.join(sorted(identities))}")
        if len(identities) != 1 or 1 not in self.log:
            return
        chains = self.chains(identities.pop(), self.broken_at or self.last + 1)
        for call in self.calls():
            self.check_chain(chains, call.answer.chain_number, call.answer.chain, f"an answer of {call.answer.replica}")
        for message in self.log.values():
            checked = checked_in(message)
            if checked and entries_of(message):
                self.check_chain(chains, *checked, f"message {message.number} of {message.headers['Mmdb-Replica']}")

    def chains(self, identity: str, until: int) -> dict[int, str]:
        """Returns the chain hash of the log at each number below `until`."""
        chains = {0: chain_begin(identity)}
        for number in range(1, min(self.last + 1, until)):
            chains[number] = chain_after(chains[number - 1], self.log[number])
        return chains

    def check_chain(self, chains: dict[int, str], number: int, chain: str, where: str) -> None:
        if chain and number in chains and chains[number] != chain:
            self.find("chain", f"{where} has the chain hash {chain} at {number}, but the log has {chains[number]}")

    # Order.

    def calls(self) -> list[Call]:
        return [*self.changes, *self.questions]

    def check_order(self) -> None:
        """Checks each call against the highest number of all answers before its begin."""
        calls = [call for call in self.calls() if has_ended(call) and (self.broken_at is None or call.answer.number < self.broken_at)]
        begins = [(call.begin, 1, place) for place, call in enumerate(calls)]
        ends = [(call.answer.end or 0.0, 0, place) for place, call in enumerate(calls)]
        highest: Optional[Call] = None
        for _, is_begin, place in sorted([*begins, *ends]):
            call = calls[place]
            if is_begin and highest:
                self.check_after(call, highest)
            elif not is_begin and (not highest or call.answer.number > highest.answer.number):
                highest = call

    def check_after(self, call: Call, before: Call) -> None:
        least = before.answer.number + isinstance(call, Change)
        if call.answer.number >= least or (isinstance(call, Question) and not call.linearizable):
            return
        rule = "order" if isinstance(call, Change) else "linearizable"
        self.find(rule, f"{name_of(call)} got number {call.answer.number}, but began after {name_of(before)} got {before.answer.number}")

    def check_demanded(self) -> None:
        for one in self.questions:
            if has_ended(one) and one.answer.number < one.demanded:
                self.find("demanded", f"{one.answer.replica} answered {name_of(one)} at {one.answer.number}, below {one.demanded}")

    def check(self) -> list[Finding]:
        self.check_changes(self.check_states())
        self.check_chains()
        self.check_same_chains()
        self.check_order()
        self.check_demanded()
        return self.findings


def main() -> int:
    library, path, *kept = sys.argv[1:]
    checker = Checker(history.read(Path(path)), lambda: Replay(Library(Path(library)), int(kept[0]) if kept else KEPT_IDS))
    for finding in checker.check():
        print(finding)
    print(f"{checker.judged} answers were judged; {checker.unjudged} were not, because the log itself changed")
    return 1 if checker.findings else 0


if __name__ == "__main__":
    sys.exit(main())
