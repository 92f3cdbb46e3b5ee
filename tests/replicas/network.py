"""Separate hosts for the processes of a test, and the network between them.

`Namespaces` creates a network namespace with its own address for each host, and connects the hosts through switch.py. The test must run
in a process that `words_in_sandbox` started. That process has its own namespaces for users, networks, mounts and processes, so a test has
no effect outside, and all its processes end with it.

`Loopback` is for kernels that refuse this. Its hosts are only names, and a proxy connects each host with each server. A proxy cuts and
delays, but cannot reorder, lose or repeat packets, or cut a server off from the others.
"""

import ctypes
import fcntl
import json
import os
import shutil
import socket
import struct
import subprocess
import sys
import threading
import time
from pathlib import Path
from typing import Iterable, Optional

CLIENT_PORT, ROUTE_PORT = 4222, 6222
SANDBOX = ["unshare", "--net", "--mount", "--propagation", "private", "--pid", "--fork", "--kill-child", "--mount-proc"]
USER = ["--user", "--map-root-user"]

Pair = tuple[str, str]


def words_in_sandbox(words: list[str]) -> list[str]:
    """Returns the command that runs a program in a sandbox. A user other than root becomes root of a new user namespace."""
    return [*SANDBOX, *([] if os.geteuid() == 0 else USER), *words]


def missing_programs() -> list[str]:
    """Returns the programs that a sandbox requires and that are not installed."""
    return [name for name in ("unshare", "nsenter", "ip", "mount", "umount") if not shutil.which(name)]


def why_no_sandbox() -> str:
    """Returns the error of a sandbox with TUN devices and mounts, or an empty text if the kernel allows one."""
    probe = "ip tuntap add probe mode tun && mount -t tmpfs none /mnt && ip netns list"
    try:
        done = subprocess.run(words_in_sandbox(["sh", "-c", probe]), capture_output=True, text=True, timeout=20)
    except (OSError, subprocess.TimeoutExpired) as wrong:
        return str(wrong)
    return done.stderr.strip() or f"status {done.returncode}" if done.returncode else ""


class Namespaces:
    """The hosts of a test, each in a network namespace."""

    TUNSETIFF, IFF_TUN, IFF_NO_PI = 0x400454CA, 0x0001, 0x1000
    CLONE_NEWNET = 0x40000000
    has_packets = True
    has_mounts = True

    def __init__(self, hosts: list[str], servers: list[str]):
        self.numbers = {host: number for number, host in enumerate(hosts, 1)}
        self.servers = servers
        self.libc = ctypes.CDLL(None, use_errno=True)
        self.run("mount", "-t", "tmpfs", "none", "/run")
        os.mkdir("/run/netns")
        devices = {host: self.make_host(host) for host in hosts}
        words = [sys.executable, str(Path(__file__).with_name("switch.py"))]
        words += [f"{self.numbers[host]}:{device}" for host, device in devices.items()]
        self.switch = subprocess.Popen(words, stdin=subprocess.PIPE, pass_fds=list(devices.values()))
        for device in devices.values():
            os.close(device)

    @staticmethod
    def run(*words: str) -> None:
        subprocess.run(words, check=True)

    def make_host(self, host: str) -> int:
        """Creates a network namespace with an address. Returns the descriptor of its device."""
        device = os.open("/dev/net/tun", os.O_RDWR)
        fcntl.ioctl(device, self.TUNSETIFF, struct.pack("16sH22x", host.encode(), self.IFF_TUN | self.IFF_NO_PI))
        self.run("ip", "netns", "add", host)
        self.run("ip", "link", "set", host, "netns", host)
        self.run("ip", "-n", host, "link", "set", "lo", "up")
        self.run("ip", "-n", host, "address", "add", f"{self.address(host)}/24", "dev", host)
        self.run("ip", "-n", host, "link", "set", host, "mtu", "9000", "txqueuelen", "10000", "up")
        return device

    def address(self, host: str) -> str:
        return f"10.99.0.{self.numbers[host]}"

    def addresses(self, host: str) -> list[tuple[str, int]]:
        """Returns the addresses of the servers as a host sees them."""
        return [(self.address(server), CLIENT_PORT) for server in self.servers]

    def own_address(self, server: str) -> tuple[str, int, int]:
        """Returns the address of a server, its port for clients and its port for routes."""
        return self.address(server), CLIENT_PORT, ROUTE_PORT

    @staticmethod
    def words(host: str, words: list[str]) -> list[str]:
        """Returns the command that runs a program on a host. The program keeps the process id of the command."""
        return ["nsenter", f"--net=/run/netns/{host}", *words]

    def enter(self, host: str) -> None:
        """Moves the calling thread to a host. New sockets of the thread belong to that host."""
        with open(f"/run/netns/{host}", "rb") as namespace:
            if self.libc.setns(namespace.fileno(), self.CLONE_NEWNET):
                raise OSError(ctypes.get_errno(), f"cannot enter {host}")

    def command(self, **said: object) -> None:
        assert self.switch.stdin
        self.switch.stdin.write(json.dumps(said).encode() + b"\n")
        self.switch.stdin.flush()

    def set_links(self, pairs: Iterable[Pair], **link: float) -> None:
        """Sets the link from the first host of each pair to the second one. switch.py documents the settings."""
        self.command(links=[[self.numbers[source], self.numbers[target]] for source, target in pairs], **link)

    def close(self) -> None:
        self.switch.kill()
        self.switch.wait()


class Proxy:
    """Forwards bytes between one host and one server. Bytes that arrive while their direction is cut are forwarded later."""

    def __init__(self, target: tuple[str, int]):
        self.target = target
        self.listener = socket.create_server(("127.0.0.1", 0))
        self.address = self.listener.getsockname()
        self.delays = [0.0, 0.0]  # to the server, and back
        self.cuts = [False, False]
        threading.Thread(target=self.accept, daemon=True).start()

    def accept(self) -> None:
        while True:
            try:
                client, _ = self.listener.accept()
                server = socket.create_connection(self.target, timeout=1)
                server.settimeout(None)
            except OSError:
                if self.listener.fileno() < 0:
                    return
                client.close()
                continue
            for way, source, target in ((0, client, server), (1, server, client)):
                threading.Thread(target=self.pass_on, args=(way, source, target), daemon=True).start()

    def pass_on(self, way: int, source: socket.socket, target: socket.socket) -> None:
        try:
            while got := source.recv(65536):
                time.sleep(self.delays[way])
                while self.cuts[way]:
                    time.sleep(0.02)
                target.sendall(got)
        except OSError:
            pass
        for one in (source, target):
            try:
                one.shutdown(socket.SHUT_RDWR)
            except OSError:
                pass
        source.close()


class Loopback:
    """Hosts that are only names. A proxy connects each host with each server."""

    has_packets = False
    has_mounts = False

    def __init__(self, hosts: list[str], servers: list[str]):
        self.servers = servers
        held = [socket.create_server(("127.0.0.1", 0)) for _ in range(2 * len(servers))]
        ports = [one.getsockname()[1] for one in held]
        for one in held:
            one.close()
        self.ports = {server: (ports[2 * place], ports[2 * place + 1]) for place, server in enumerate(servers)}
        self.proxies = {
            (host, server): Proxy(("127.0.0.1", self.ports[server][0])) for host in hosts if host not in servers for server in servers
        }

    def addresses(self, host: str) -> list[tuple[str, int]]:
        return [self.proxies[host, server].address for server in self.servers]

    def own_address(self, server: str) -> tuple[str, int, int]:
        return "127.0.0.1", *self.ports[server]

    @staticmethod
    def words(host: str, words: list[str]) -> list[str]:
        return words

    def enter(self, host: str) -> None:
        """Does nothing, since hosts are only names."""

    def command(self, **said: object) -> None:
        """Does nothing, since proxies have no randomness to seed."""

    def set_links(self, pairs: Iterable[Pair], cut: bool = False, delay: float = 0.0, jitter: float = 0.0, **_: float) -> None:
        for source, target in pairs:
            for pair, way in (((source, target), 0), ((target, source), 1)):
                proxy: Optional[Proxy] = self.proxies.get(pair)
                if proxy:
                    proxy.cuts[way], proxy.delays[way] = cut, delay + jitter / 2

    def close(self) -> None:
        for proxy in self.proxies.values():
            proxy.listener.close()


Network = Namespaces | Loopback
