#!/usr/bin/env python3
"""Runs seeds: servers, replicas and clients on separate hosts, with the faults that each seed decides. Checks the history of each seed.

    storm.py BUILDS LIBRARY REFUSE FOLDER SEEDS [--lanes N] [--for SECONDS] [--only BUILD] [--until-found] [--keep-all]
        [--loopback] [--show]

BUILDS contains a folder for each build of mmdb-replica and mmdb-ask, which `build` in this folder creates. A seed decides which build it
uses. LIBRARY is libmmdb.so, and REFUSE is the library of refuse.c. SEEDS is FIRST-LAST or one number. Each lane has three servers of its
own and runs one seed at a time. FOLDER receives the history and the output of each seed with findings, SEED.history and SEED.said.

With --for, no seed begins after SECONDS seconds. --only uses one build for all seeds. With --until-found, no seed begins after a seed with
findings. With --keep-all, FOLDER receives the files of all seeds. --loopback runs without namespaces, with proxies in place of a network.
--show prints the decisions of the seeds, and runs nothing.

A seed decides the faults, their times and the calls of each client. Networks and processes are real, so a seed with a finding may need
several runs to reproduce it. The status is 0 if some answers were judged, and all findings are of the rule `log`.
"""

import argparse
import json
import os
import re
import shutil
import subprocess
import sys
import tempfile
import threading
import time
from functools import partial
from pathlib import Path
from typing import Iterator, Optional

from callers import Board, Caller, ProgramCaller, Witness, guarded, read_log
from check import APPLIED, Checker
from cluster import Failed
from history import Change, Event, History
from injector import Injector
from network import missing_programs, why_no_sandbox, words_in_sandbox
from replay import KEPT_IDS, Library, Replay
from schedule import CLIENTS, DEFINITIONS, FEW_IDS, QUESTIONS_AT_END, REPLICAS, SANITIZED, WITNESS, Calls, Schedule, schedule_of
from stage import Programs, Stage, Unrecovered, make_network

CALLERS, ASKERS = 4, 2
AGAIN = 8  # changes that are sent again at the end
LONGEST_START, LONGEST_RECOVERY, LONGEST_END = 60.0, 60.0, 40.0  # seconds
LOG_RULE = "log"  # the rule that only NATS can break


class Run:
    """The run of one seed on a stage."""

    def __init__(self, stage: Stage, schedule: Schedule, programs: Programs):
        self.stage, self.schedule = stage, schedule
        self.stage.programs = programs
        self.said: dict[str, str] = {}
        self.statuses: list[dict] = []
        self.history, self.board = History(), Board()
        self.wrong: list[str] = []
        self.checker: Optional[Checker] = None
        self.log = f"seed{schedule.seed}"

    def caller(self, host: str, client: str) -> Caller:
        return Caller(host, client, self.log, self.stage.network, self.history, self.board)

    def begin(self) -> None:
        self.stage.network.command(seed=self.schedule.seed)
        self.stage.make_log(self.log, time.monotonic() + LONGEST_START)
        self.stage.start_replicas(self.schedule)
        first = self.caller(WITNESS, "first")
        self.board.give_up = time.monotonic() + LONGEST_START
        for line in DEFINITIONS:
            status = first.change(line, 2.5).answer.status
            if status != "done":
                raise Failed(f"{line!r} was {status}")
        first.connection.close()
        self.board.give_up = float("inf")

    def storm(self) -> None:
        """Runs the clients while faults occur, and waits until all calls have their answers."""
        work = [partial(Witness(self.log, self.stage.network, self.history, self.board).run)]
        for place in range(CALLERS):
            client = f"k{place}"
            caller = self.caller(CLIENTS[place % len(CLIENTS)], client)
            work.append(partial(caller.run, Calls(self.schedule.seed, client)))
        for place in range(ASKERS if self.stage.programs.kept_ids == KEPT_IDS else 1):
            host = CLIENTS[place % len(CLIENTS)]
            asker = ProgramCaller(host, f"a{place}", self.stage, self.history, self.board, is_linearizable=place == 1)
            work.append(partial(asker.run, Calls(self.schedule.seed, f"a{place}")))
        threads = [threading.Thread(target=guarded(one, self.wrong, self.board), daemon=True) for one in work]
        for thread in threads:
            thread.start()
        injector = Injector(self.stage, self.schedule, self.history)
        guarded(partial(injector.run, self.board), self.wrong, self.board)()
        self.wrong += self.stage.crashes()
        injector.heal()
        self.history.add(Event(time.monotonic(), "healed"))
        self.board.give_up = time.monotonic() + LONGEST_RECOVERY
        self.board.is_over.set()
        for thread in threads:
            thread.join(LONGEST_RECOVERY + 10)
        if any(thread.is_alive() for thread in threads):
            self.wrong.append("liveness: a client did not end")

    def end(self) -> None:
        """Checks after the faults that a change succeeds, and reads the state of each replica at the last number."""
        self.stage.wait_for_servers(time.monotonic() + LONGEST_RECOVERY)
        self.board.give_up = time.monotonic() + LONGEST_END
        last = self.caller(WITNESS, "last")
        if last.change("BEGIN\nCOMMIT\n", 2.5).answer.status != "done":
            self.wrong.append("liveness: no change succeeds after the faults")
        self.send_again(last)
        for name in REPLICAS:
            self.ask_all(last, last.number, name)
        self.wrong += self.stage.crashes()
        self.statuses = [json.loads(one.body) for one in last.connection.collect(self.log + ".status", len(REPLICAS), 2.0) if one.body]
        read_log(last.connection, self.log, self.history, self.stage.network)
        last.connection.close()

    def send_again(self, caller: Caller) -> None:
        """Sends some answered changes again. They must have the same answers, unless their ids have been forgotten."""
        changes = [one for one in self.history.records if isinstance(one, Change)]
        answered = [one for one in changes if one.answer.status in APPLIED]
        for change in answered[:: max(1, len(answered) // AGAIN)]:
            caller.send_again(change)

    def ask_all(self, caller: Caller, number: int, replica: str) -> None:
        self.board.give_up = time.monotonic() + LONGEST_END
        for question in QUESTIONS_AT_END:
            if not caller.ask(question, number, 2.5, time.monotonic(), replica=replica).answer.status:
                self.wrong.append(f"liveness: {replica} does not answer at number {number} after the faults")
                return

    def check(self) -> list[str]:
        """Returns the findings, one line each."""
        programs = self.stage.programs
        self.checker = Checker(self.history.records, lambda: Replay(Library(programs.library), programs.kept_ids))
        return [*self.wrong, *(str(finding) for finding in self.checker.check())]

    def run(self) -> list[str]:
        try:
            self.begin()
            self.storm()
            self.end()
        except Unrecovered as failure:
            self.wrong.append(f"{LOG_RULE}: {failure}")
        except (Failed, OSError) as failure:
            self.wrong.append(f"run: {type(failure).__name__}: {failure}")
        self.said = {name: replica.said() for name, replica in self.stage.replicas.items()}
        self.wrong += [f"end: {wrong}" for wrong in self.stage.end_replicas()]
        self.stage.delete_log()
        found = self.check()
        is_log_broken = any(line.startswith(LOG_RULE + ":") for line in found)
        return found if is_log_broken else found + list(self.alarms())

    def alarms(self) -> Iterator[str]:
        """Yields the alarms of replicas, none of which is allowed unless the log changed."""
        if any("DIFFERENT SUMS" in said for said in self.said.values()):
            yield "sums: replicas reported DIFFERENT SUMS"
        for name, said in self.said.items():
            if report := re.search(r"(ERROR|WARNING): \w+Sanitizer.*|.*runtime error:.*|.*LeakSanitizer.*", said):
                yield f"sanitizer: {name}: {report[0]}"
        for status in self.statuses:
            if status["lives"] - 1 > self.jumps(status["replica"]):
                yield f"lives: {status['replica']} dropped its rows without a reason"
            if status["doubted"]:
                yield f"sums: {status['replica']} is in doubt"
        if not self.wrong and len(self.statuses) < len(REPLICAS):
            yield f"liveness: only {len(self.statuses)} replicas report their status"

    def jumps(self, replica: str) -> int:
        """Returns how often a replica continued from a newer snapshot because the log was cut off after its rows."""
        is_cut = "--keep" in self.schedule.describe()
        return self.said[replica].count("the log was cut off after its rows") if is_cut else 0

    def keep(self, folder: Path) -> None:
        self.history.write(folder / f"{self.schedule.seed}.history")
        said = [f"==== {name}\n{text}" for name, text in self.said.items()]
        (folder / f"{self.schedule.seed}.said").write_text("\n".join([self.schedule.describe(), *said]))


# Lanes.


def lane(options: argparse.Namespace) -> None:
    """Runs the seeds on standard input, one per line, and prints a line of JSON for each."""
    folder = Path(tempfile.mkdtemp(prefix="storm"))
    stage = Stage(folder, programs_of(options, "plain"), make_network(options.loopback))
    try:
        stage.start_servers()
        for line in sys.stdin:
            schedule = schedule_of(int(line))
            run = Run(stage, schedule, programs_of(options, schedule.build))
            print(json.dumps(run_one(run, options)), flush=True)
    finally:
        stage.close()
        shutil.rmtree(folder, ignore_errors=True)


def programs_of(options: argparse.Namespace, build: str) -> Programs:
    build = options.only or build
    refuse = None if build in SANITIZED else options.refuse.resolve()
    kept_ids = FEW_IDS if build == "forgetful" else KEPT_IDS
    return Programs((options.builds / build).resolve(), options.library.resolve(), refuse, kept_ids)


def run_one(run: Run, options: argparse.Namespace) -> dict:
    """Runs a seed. Returns its result."""
    began = time.monotonic()
    found = run.run()
    if found or options.keep_all:
        run.keep(options.folder)
    if any(line.startswith(("run:", "liveness:", LOG_RULE + ":")) for line in found):
        run.stage.restart_servers()
    assert run.checker
    told = {"seed": run.schedule.seed, "found": found, "seconds": time.monotonic() - began, "heavy": run.schedule.is_heavy}
    told.update(judged=run.checker.judged, unjudged=run.checker.unjudged, messages=run.checker.last, refused=run.board.refused)
    return told


class Storm:
    """Distributes the seeds over lanes, and prints their findings."""

    def __init__(self, options: argparse.Namespace):
        self.options = options
        self.seeds: Iterator[int] = iter(options.seeds)
        self.lock = threading.Lock()
        self.done: list[dict] = []
        self.stops_at = time.monotonic() + options.seconds

    def next_seed(self) -> Optional[int]:
        with self.lock:
            return next(self.seeds, None) if time.monotonic() < self.stops_at else None

    def start_lane(self) -> subprocess.Popen[bytes]:
        words = [sys.executable, __file__, *sys.argv[1:], "--lane"]
        words = words if self.options.loopback else words_in_sandbox(words)
        return subprocess.Popen(words, stdin=subprocess.PIPE, stdout=subprocess.PIPE)

    def run_lane(self) -> None:
        running = self.start_lane()
        assert running.stdin and running.stdout
        while (seed := self.next_seed()) is not None:
            running.stdin.write(f"{seed}\n".encode())
            running.stdin.flush()
            line = running.stdout.readline()
            if not line:
                self.tell({"seed": seed, "found": ["run: the lane ended"], "seconds": 0.0})
                running.wait()
                running = self.start_lane()
                assert running.stdin and running.stdout
                continue
            self.tell(json.loads(line))
        running.communicate()

    def tell(self, told: dict) -> None:
        with self.lock:
            self.done.append(told)
            if self.options.until_found and self.is_bad(told):
                self.stops_at = 0.0
        for line in told["found"][:8]:
            print(f"seed {told['seed']}: {line}", flush=True)
        if self.options.verbose:
            print(json.dumps({**told, "found": len(told["found"])}), flush=True)

    def run(self) -> int:
        lanes = [threading.Thread(target=self.run_lane) for _ in range(self.options.lanes)]
        for one in lanes:
            one.start()
        for one in lanes:
            one.join()
        return self.sum_up()

    @staticmethod
    def is_bad(told: dict) -> bool:
        return any(not line.startswith(LOG_RULE + ":") for line in told["found"])

    def sum_up(self) -> int:
        bad = [told["seed"] for told in self.done if self.is_bad(told)]
        lost = [told["seed"] for told in self.done if any(line.startswith(LOG_RULE + ":") for line in told["found"])]
        seeds, heavy = len(self.done), sum(told.get("heavy", False) for told in self.done)
        judged, unjudged = (sum(told.get(key, 0) for told in self.done) for key in ("judged", "unjudged"))
        messages, refused = (sum(told.get(key, 0) for told in self.done) for key in ("messages", "refused"))
        print(f"{seeds} seeds, {heavy} of them with faults of servers: {judged} answers were judged; the logs have {messages} messages")
        print(f"{refused} attempts had no final answer; {unjudged} answers were not judged, because the log itself changed")
        if lost:
            print(f"NATS lost or changed messages, or did not recover, with the seeds {' '.join(map(str, sorted(lost)))}")
        if bad:
            print(f"the replicas failed with the seeds {' '.join(map(str, sorted(bad)))}; see {self.options.folder}")
        return 1 if bad or not judged else 0


def seeds_in(word: str) -> range:
    first, _, last = word.partition("-")
    return range(int(first), int(last or first) + 1)


def read_options() -> argparse.Namespace:
    parser = argparse.ArgumentParser(description=__doc__, formatter_class=argparse.RawDescriptionHelpFormatter)
    for name in ("builds", "library", "refuse", "folder"):
        parser.add_argument(name, type=Path)
    parser.add_argument("seeds", type=seeds_in)
    parser.add_argument("--lanes", type=int, default=2)
    parser.add_argument("--for", dest="seconds", type=float, default=float("inf"))
    parser.add_argument("--only", default="")
    for name in ("--until-found", "--keep-all", "--loopback", "--show", "--lane", "--verbose"):
        parser.add_argument(name, action="store_true")
    return parser.parse_args()


def main() -> int:
    options = read_options()
    if options.show:
        print("\n".join(schedule_of(seed).describe() for seed in options.seeds))
        return 0
    if options.lane:
        lane(options)
        return 0
    if not options.loopback and not may_have_hosts():
        sys.argv.append("--loopback")
        options.loopback = True
    options.folder.mkdir(exist_ok=True)
    return Storm(options).run()


def may_have_hosts() -> bool:
    """Returns whether hosts can have network namespaces. Prints the reason if they cannot. Under CI, a missing program is a failure."""
    missing = missing_programs()
    if missing and os.environ.get("CI"):
        raise SystemExit(f"{', '.join(missing)} is not installed")
    refusal = f"{', '.join(missing)} is not installed" if missing else why_no_sandbox()
    if refusal:
        print(f"No network namespaces ({refusal}): the seeds run on loopback, with proxies that cut and delay.")
        print("No packet is lost or reordered, no device is full, and no server is cut off from the others.")
    return not refusal


if __name__ == "__main__":
    os.environ["PYTHONDONTWRITEBYTECODE"] = "1"
    sys.exit(main())
