"""Injects faults into a stage, and ends them."""

import random
import re
import signal
import time
from typing import Iterable

from callers import Board
from check import JUNK, SERVER_FAULT
from cluster import must
from history import Event, History, Logged, bytes_of
from network import Pair
from schedule import HOSTS, NO_SCRIPTS, OF_SERVERS, REPLICAS, SERVERS, WITNESS, Fault, Schedule
from stage import FILLER, Stage
from wire import Connection


IDS = re.compile(rb"^([a-z0-9]+)-([0-9]+(?: [0-9]+){3}\n)", re.MULTILINE)


def both_ways(one: str, others: Iterable[str]) -> list[Pair]:
    return [pair for other in others if other != one for pair in ((one, other), (other, one))]


class Injector:
    """The faults of one seed. For each kind of fault, a method begins the fault and another one ends it. Their names contain the kind."""

    def __init__(self, stage: Stage, schedule: Schedule, history: History):
        self.stage, self.schedule, self.history = stage, schedule, history
        self.random = random.Random(f"{schedule.seed} faults")
        self.hosts: dict[int, list[str]] = {}  # the hosts that each begun fault affects, by its index in the schedule
        self.stopped: set[str] = set()

    def tell(self, what: str) -> None:
        self.history.add(Event(time.monotonic(), what))

    # The schedule.

    def run(self, board: Board) -> None:
        """Begins and ends each fault at its time, and ends the remaining faults at the end of the run."""
        began = time.monotonic()
        faults = list(enumerate(self.schedule.faults))
        steps = [(fault.at, 0, place) for place, fault in faults]
        steps += [(min(fault.at + fault.lasts, self.schedule.length), 1, place) for place, fault in faults]
        for at, is_end, place in sorted(steps):
            if board.is_over.wait(max(0.0, began + at - time.monotonic())):
                return
            fault = self.schedule.faults[place]
            self.end(place, fault) if is_end else self.begin(place, fault)
        board.is_over.wait(max(0.0, began + self.schedule.length - time.monotonic()))

    def begin(self, place: int, fault: Fault) -> None:
        host = self.resolve(fault)
        self.hosts[place] = [host]
        struck = SERVER_FAULT if host in SERVERS and fault.kind in OF_SERVERS else "a fault: "
        self.tell(f"{struck}{fault.kind} {host}")
        getattr(self, "begin_" + fault.kind.replace("-", "_"))(place, fault)

    def end(self, place: int, fault: Fault) -> None:
        getattr(self, "end_" + fault.kind.replace("-", "_"), lambda place, fault: None)(place, fault)
        self.tell(f"ended: {fault.kind} {' '.join(self.hosts[place])}")

    def resolve(self, fault: Fault) -> str:
        if fault.host not in ("leader", "follower"):
            return fault.host
        leader = self.stage.leader()
        followers = [server for server in SERVERS if server != leader]
        return leader if fault.host == "leader" else followers[int(fault.value * 1000) % 2]

    # Links.

    def links(self, place: int, fault: Fault) -> list[Pair]:
        return both_ways(self.hosts[place][0], [fault.other] if fault.other else HOSTS)

    def begin_cut(self, place: int, fault: Fault) -> None:
        self.stage.network.set_links(self.links(place, fault), cut=True)

    def begin_cut_one_way(self, place: int, fault: Fault) -> None:
        first = 0 if fault.value < 0.5 else 1
        self.stage.network.set_links(self.links(place, fault)[first::2], cut=True)

    def begin_split(self, place: int, fault: Fault) -> None:
        """Cuts a server off from the other servers, while replicas and clients reach all of them."""
        server = self.hosts[place][0] if self.hosts[place][0] in SERVERS else self.stage.leader()
        self.hosts[place] = [server]
        self.stage.network.set_links(both_ways(server, SERVERS), cut=True)

    def begin_slow(self, place: int, fault: Fault) -> None:
        """Delays packets by random times, so that they overtake each other."""
        self.stage.network.set_links(self.links(place, fault), delay=fault.value / 2, jitter=fault.value)

    def begin_lossy(self, place: int, fault: Fault) -> None:
        self.stage.network.set_links(self.links(place, fault), loss=fault.value, twice=fault.value)

    def whole_links(self, place: int, fault: Fault) -> None:
        self.stage.network.set_links(both_ways(self.hosts[place][0], HOSTS))

    end_cut = end_cut_one_way = end_split = end_slow = end_lossy = whole_links

    # Processes.

    def processes(self, hosts: Iterable[str]) -> list:
        return [{**self.stage.servers, **self.stage.replicas}[host] for host in hosts]

    def begin_stop(self, place: int, fault: Fault) -> None:
        for process in self.processes(self.hosts[place]):
            if process.running and process.running.poll() is None:
                process.send(signal.SIGSTOP)

    def end_stop(self, place: int, fault: Fault) -> None:
        for process in self.processes(self.hosts[place]):
            if process.running:
                process.running.send_signal(signal.SIGCONT)

    end_stop_most = end_stop

    def begin_kill(self, place: int, fault: Fault) -> None:
        for process in self.processes(self.hosts[place]):
            self.no_crash(process)
            process.kill()

    def end_kill(self, place: int, fault: Fault) -> None:
        for process in self.processes(self.hosts[place]):
            if not process.running:
                process.start()

    def begin_kill_all_replicas(self, place: int, fault: Fault) -> None:
        self.hosts[place] = list(REPLICAS)
        self.begin_kill(place, fault)

    def strike_most(self, place: int) -> None:
        """Selects the leader of the log and one other server."""
        leader = self.stage.leader()
        self.hosts[place] = [leader, *(server for server in SERVERS if server != leader)][:2]
        self.tell(SERVER_FAULT + " ".join(self.hosts[place]))

    def begin_kill_most(self, place: int, fault: Fault) -> None:
        self.strike_most(place)
        self.begin_kill(place, fault)

    def begin_stop_most(self, place: int, fault: Fault) -> None:
        self.strike_most(place)
        self.begin_stop(place, fault)

    end_kill_all_replicas = end_kill_most = end_kill

    def begin_end(self, place: int, fault: Fault) -> None:
        """Ends a replica with SIGTERM, as an operator does."""
        for process in self.processes(self.hosts[place]):
            if process.running and not self.is_struck_elsewhere(place):
                status = process.stop()
                must(status == 0, f"{process.name} ended at SIGTERM with status {status}: {process.said()[-400:]}")

    end_end = end_kill

    def is_struck_elsewhere(self, place: int) -> bool:
        """Returns whether another fault affects the same host, so that it may not end in time."""
        host = self.hosts[place][0]
        return any(host in hosts for other, hosts in self.hosts.items() if other != place)

    @staticmethod
    def no_crash(process) -> None:
        if process.running:
            status = process.running.poll()
            must(status is None, f"{process.name} ended unexpectedly with status {status}: {process.said()[-600:]}")

    def begin_clock(self, place: int, fault: Fault) -> None:
        self.stage.set_clock(fault.host, fault.value)

    def end_clock(self, place: int, fault: Fault) -> None:
        self.stage.set_clock(fault.host, 0)

    def begin_memory(self, place: int, fault: Fault) -> None:
        """Fails all allocations of the library for 0.3 s."""
        process = self.stage.replicas[fault.host]
        if self.stage.programs.refuse and process.running and process.running.poll() is None:
            process.send(signal.SIGUSR1)

    # Files.

    def begin_lose_files(self, place: int, fault: Fault) -> None:
        self.begin_kill(place, fault)
        self.stage.empty(self.stage.store(self.hosts[place][0]))

    end_lose_files = end_kill

    def begin_full(self, place: int, fault: Fault) -> None:
        if self.stage.network.has_mounts:
            self.stage.fill(self.stage.store(self.hosts[place][0]))

    def end_full(self, place: int, fault: Fault) -> None:
        """Frees the device and restarts the server, since a server that could not write disables JetStream until its restart."""
        (self.stage.store(self.hosts[place][0]) / FILLER).unlink(missing_ok=True)
        self.begin_kill(place, fault)
        self.end_kill(place, fault)

    def begin_no_room_for_snapshots(self, place: int, fault: Fault) -> None:
        if self.stage.network.has_mounts:
            self.stage.fill(self.stage.snapshots)

    def end_no_room_for_snapshots(self, place: int, fault: Fault) -> None:
        (self.stage.snapshots / FILLER).unlink(missing_ok=True)

    def begin_bad_snapshot(self, place: int, fault: Fault) -> None:
        """Flips a bit of the newest snapshot, and kills a replica, which then starts with that snapshot."""
        snapshots = sorted(self.stage.snapshots.glob("*.snapshot"))
        if snapshots:
            data = bytearray(snapshots[-1].read_bytes())
            if data:
                data[int(fault.value * len(data))] ^= 1 << int(fault.value * 8)
                snapshots[-1].write_bytes(data)
        self.begin_kill(place, fault)

    end_bad_snapshot = end_kill

    # Messages.

    def begin_junk(self, place: int, fault: Fault) -> None:
        """Publishes messages that no replica would publish: invalid scripts, late copies of earlier messages, and corrupted copies."""
        connection = Connection(self.stage.network.addresses(WITNESS))
        try:
            connection.connect(time.monotonic() + 1)
            for body in self.random.sample(NO_SCRIPTS, 3):
                connection.publish(self.stage.log + ".log", body, {"Mmdb-Format": "2", "Mmdb-Replica": JUNK})
            for message in self.copies():
                connection.publish(self.stage.log + ".log", bytes_of(message.body), message.headers)
            for message in self.copies():
                connection.publish(self.stage.log + ".log", *self.spoil(message))
        except OSError:
            pass  # a server fails at the same time
        connection.close()

    def copies(self) -> list[Logged]:
        with self.history.lock:
            messages = [one for one in self.history.records if isinstance(one, Logged)]
        return self.random.sample(messages, min(len(messages), 8))

    def spoil(self, message: Logged) -> tuple[bytes, dict[str, str]]:
        """Returns a copy of a message with other ids, some changed bytes and sometimes a wrong header. Its format is never newer, which
        would stop replicas."""
        rng = self.random
        body = bytearray(IDS.sub(rb"\1~\2", bytes_of(message.body)))
        headers = {**message.headers, "Mmdb-Replica": JUNK}
        for _ in range(rng.choice([0, 1, 1, 3])):
            at = rng.randrange(len(body) + 1)
            body[at : at + rng.choice([0, 1])] = rng.choice([b"", b" ", b"0", b"7", b"\n", bytes([rng.randrange(256)])])
        if rng.random() < 0.4:
            headers["Mmdb-Checked"] = rng.choice(["", "0", "999999999 " + "0" * 32, "01 " + "0" * 32, "1 " + "a" * 31, "0 " + "A" * 32])
        if rng.random() < 0.2:
            headers["Mmdb-Format"] = rng.choice(["", "0", "1", "two", "-2"])
        # libnats 3.4 reads the line after an empty header as its value, so empty headers are left out.
        return bytes(body), {name: value for name, value in headers.items() if value}

    # The end.

    def heal(self) -> None:
        """Ends every fault, and restarts every process that has ended."""
        network = self.stage.network
        network.set_links([pair for host in HOSTS for pair in both_ways(host, HOSTS)])
        for name in SERVERS:
            (self.stage.store(name) / FILLER).unlink(missing_ok=True)
        (self.stage.snapshots / FILLER).unlink(missing_ok=True)
        for process in [*self.stage.servers.values(), *self.stage.replicas.values()]:
            if process.running and process.running.poll() is None:
                process.running.send_signal(signal.SIGCONT)
            if process.name in self.stage.servers and process.running and process.running.poll() is not None:
                process.kill()
            if not process.running:
                process.start()
        for name in REPLICAS:
            if self.stage.clock_file(name).exists():
                self.stage.set_clock(name, 0)
