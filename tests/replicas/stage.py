"""Three servers and three replicas on separate hosts, with their files in one folder."""

import os
import shutil
import subprocess
import time
from pathlib import Path
from typing import NamedTuple, Optional

from cluster import Failed, Process
from network import Loopback, Namespaces, Network
from schedule import HOSTS, REPLICAS, SERVERS, WITNESS, Schedule
from wire import Connection, patient

SERVER_BYTES, SNAPSHOT_BYTES = 96 * 1024 * 1024, 16 * 1024 * 1024
FAKETIME = "/usr/lib/{}-linux-gnu/faketime/libfaketimeMT.so.1"
FILLER = "filler"  # the file that fills a device

CONFIGURATION = """
listen: "{address}:{port}"
server_name: {name}
jetstream {{ store_dir: "{store}", max_file_store: {bytes}, max_memory_store: {bytes} }}
cluster {{ name: test, listen: "{address}:{route}", routes: [{routes}], no_advertise: {quiet} }}
ping_interval: "1s"
ping_max: 2
write_deadline: "2s"
"""


class Programs(NamedTuple):
    """The tested programs: the folder of mmdb-replica and mmdb-ask, libmmdb.so, the library of refuse.c, and the number of kept ids.

    Sanitizers must be the first library of a program. So programs with sanitizers run without the library of refuse.c and without jumps of
    the clock.
    """

    folder: Path
    library: Path
    refuse: Optional[Path]
    kept_ids: int


def library_of_clocks() -> Optional[Path]:
    path = Path(FAKETIME.format(os.uname().machine))
    return path if path.exists() else None


class Unrecovered(Failed):
    """The servers did not recover. That is not a fault of the replicas."""


class Stage:
    """The servers of a lane, which all its seeds share, and the replicas of one seed at a time."""

    def __init__(self, folder: Path, programs: Programs, network: Network):
        self.folder, self.programs, self.network = folder, programs, network
        self.log = ""
        self.servers = {name: self.server(name) for name in SERVERS}
        self.replicas: dict[str, Process] = {}
        self.snapshots = self.make_folder("snapshots", SNAPSHOT_BYTES)
        self.network.enter(WITNESS)
        self.admin = Connection(self.network.addresses(WITNESS))
        self.last_leader = SERVERS[0]

    # Files.

    def make_folder(self, name: str, most_bytes: int) -> Path:
        """Creates a folder. If mounts are allowed, the folder has its own device of `most_bytes`, which can become full."""
        path = self.folder / name
        path.mkdir()
        if self.network.has_mounts:
            subprocess.run(["mount", "-t", "tmpfs", "-o", f"size={most_bytes}", name, str(path)], check=True)
        return path

    @staticmethod
    def empty(folder: Path) -> None:
        for path in folder.iterdir():
            shutil.rmtree(path) if path.is_dir() else path.unlink()

    @staticmethod
    def fill(folder: Path) -> None:
        """Fills the device of a folder to its last byte."""
        with open(folder / FILLER, "wb", buffering=0) as file:
            block = bytes(1 << 20)
            while block:
                try:
                    file.write(block)
                except OSError:
                    block = block[: len(block) // 2]

    # Servers.

    def server(self, name: str) -> Process:
        address, port, route = self.network.own_address(name)
        routes = [self.network.own_address(other) for other in SERVERS]
        store = self.make_folder(name, SERVER_BYTES)
        said = CONFIGURATION.format(
            address=address,
            port=port,
            route=route,
            name=name,
            store=store,
            bytes=SERVER_BYTES * 3 // 4,
            routes=", ".join(f'"nats://{host}:{route_port}"' for host, _, route_port in routes),
            quiet="false" if self.network.has_packets else "true",
        )
        (self.folder / f"{name}.conf").write_text(said)
        words = ["nats-server", "-c", str(self.folder / f"{name}.conf")]
        return Process(name, self.network.words(name, words), self.folder)

    def store(self, server: str) -> Path:
        return self.folder / server

    def start_servers(self) -> None:
        for server in self.servers.values():
            server.start()

    def restart_servers(self) -> None:
        """Restarts all servers without their files."""
        for name, server in self.servers.items():
            server.kill()
            self.empty(self.store(name))
        self.start_servers()

    def info(self, wait: float) -> dict:
        return patient(self.admin, "STREAM.INFO." + self.log, None, time.monotonic() + wait)

    def leader(self) -> str:
        """Returns the leader of the log, or the last known leader."""
        try:
            self.last_leader = self.admin.api("STREAM.INFO." + self.log, wait=0.5)["cluster"].get("leader") or self.last_leader
        except (OSError, KeyError):
            self.admin.close()
        return self.last_leader

    def wait_for_servers(self, until: float) -> None:
        """Waits until each server has the whole log."""
        while True:
            try:
                group = self.admin.api("STREAM.INFO." + self.log, wait=1.0)["cluster"]
                if group.get("leader") and len(group["replicas"]) == 2 and all(one["current"] for one in group["replicas"]):
                    return
            except (OSError, KeyError):
                self.admin.close()
            if time.monotonic() > until:
                raise Unrecovered("the servers did not agree on the log in time")
            time.sleep(0.1)

    def ask_words(self, host: str, *options: str) -> list[str]:
        urls = ",".join(f"nats://{address}:{port}" for address, port in self.network.addresses(host))
        words = [str(self.programs.folder / "mmdb-ask"), "--servers", urls, "--name", self.log, *options]
        return self.network.words(host, words)

    def make_log(self, log: str, until: float) -> None:
        self.log = log
        while subprocess.run(self.ask_words(WITNESS, "--make-log", "3"), stderr=subprocess.DEVNULL, timeout=30).returncode:
            if time.monotonic() > until:
                raise Unrecovered("the servers did not create a log")
            time.sleep(0.1)

    def delete_log(self) -> None:
        try:
            self.admin.api("STREAM.DELETE." + self.log, wait=5.0)
        except OSError:
            self.admin.close()

    # Replicas.

    def clock_file(self, name: str) -> Path:
        return self.folder / f"{name}.clock"

    def set_clock(self, name: str, seconds: float) -> None:
        """Makes the clock of a replica jump. Its monotonic clock is not affected."""
        written = self.folder / f"{name}.clock.new"
        written.write_text(f"{seconds:+.0f}\n")
        written.rename(self.clock_file(name))

    def environment(self, name: str, has_clock: bool, has_refusals: bool) -> dict[str, str]:
        if not self.programs.refuse:
            return {}
        preloaded = [str(self.programs.refuse)] if has_refusals else []
        environment = {}
        if has_clock and library_of_clocks():
            self.set_clock(name, 0)
            preloaded.append(str(library_of_clocks()))
            environment = {"FAKETIME_TIMESTAMP_FILE": str(self.clock_file(name)), "FAKETIME_CACHE_DURATION": "1"}
            environment["DONT_FAKE_MONOTONIC"] = "1"
        return {**environment, **({"LD_PRELOAD": " ".join(preloaded)} if preloaded else {})}

    def start_replicas(self, schedule: Schedule) -> None:
        for place, name in enumerate(REPLICAS):
            addresses = self.network.addresses(name)
            urls = ",".join(f"nats://{address}:{port}" for address, port in addresses[place:] + addresses[:place])
            words = [str(self.programs.folder / "mmdb-replica"), "--servers", urls, "--name", self.log, "--replica", name]
            words += ["--snapshots", str(self.snapshots), *schedule.replicas[name]]
            kinds = {fault.kind for fault in schedule.faults if fault.host == name}
            environment = self.environment(name, "clock" in kinds, "memory" in kinds)
            self.replicas[name] = Process(f"{name}-{self.log}", self.network.words(name, words), self.folder, environment)
            self.replicas[name].start()

    def crashes(self) -> list[str]:
        """Returns a finding for each replica that ended unexpectedly. These replicas are restarted later."""
        ended = [one for one in self.replicas.values() if one.running and one.running.poll() is not None]
        wrong = [f"crash: {one.name} ended unexpectedly: {one.running.poll() if one.running else 0}: {one.said()[-600:]}" for one in ended]
        for one in ended:
            one.kill()
        return wrong

    def end_replicas(self) -> list[str]:
        """Ends all replicas. Returns a finding for each that did not end with status 0 within 10 s."""
        wrong = []
        for name, replica in self.replicas.items():
            try:
                status = replica.stop() if replica.running else 0
                if status:
                    wrong.append(f"{name} ended with status {status}: {replica.said()[-400:]}")
            except Failed as failed:
                wrong.append(str(failed))
            except subprocess.TimeoutExpired:
                wrong.append(f"{name} did not end within 10 s of SIGTERM: {replica.said()[-400:]}")
            replica.kill()
        self.replicas = {}
        self.empty(self.snapshots)
        return wrong

    def close(self) -> None:
        for process in [*self.replicas.values(), *self.servers.values()]:
            process.kill()
        self.network.close()
        if self.network.has_mounts:
            for name in [*SERVERS, "snapshots"]:
                subprocess.run(["umount", "--lazy", str(self.folder / name)], check=False)


def make_network(is_loopback: bool) -> Network:
    return Loopback(HOSTS, SERVERS) if is_loopback else Namespaces(HOSTS, SERVERS)
