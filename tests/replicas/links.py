#!/usr/bin/env python3
"""Tests the network of the other tests: links between hosts that are cut, cut in one direction, slow, lossy and out of order.

    links.py

Tests the proxies on loopback first. If the kernel refuses network namespaces, prints the reason and skips the other tests. The exit
status is 0 if no test fails. Takes 3 seconds.
"""

import socket
import subprocess
import sys
import threading
import time

from cluster import Failed, must
from network import CLIENT_PORT, Loopback, Namespaces, why_no_sandbox, words_in_sandbox

PACKETS = 200
INSIDE = "--inside"


class Echo:
    """A host that returns each packet to its sender, and a host that sends packets and receives the returned ones."""

    def __init__(self, network: Namespaces):
        self.network = network
        network.enter("s0")
        self.server = socket.socket(socket.AF_INET, socket.SOCK_DGRAM)
        self.server.bind((network.address("s0"), CLIENT_PORT))
        threading.Thread(target=self.serve, daemon=True).start()
        network.enter("c0")
        self.client = socket.socket(socket.AF_INET, socket.SOCK_DGRAM)
        self.client.connect((network.address("s0"), CLIENT_PORT))
        self.received = 0  # by the server

    def serve(self) -> None:
        while True:
            packet, sender = self.server.recvfrom(100)
            self.received += 1
            self.server.sendto(packet, sender)

    def send(self, wait: float, most: int = 2 * PACKETS) -> list[tuple[int, float]]:
        """Sends PACKETS packets. Returns the number and the round-trip time of each returned packet, up to `most`, until none arrives for
        `wait` seconds."""
        sent, came, self.received = [], [], 0
        for number in range(PACKETS):
            sent.append(time.monotonic())
            self.client.send(str(number).encode())
            time.sleep(0.0005)
        self.client.settimeout(wait)
        try:
            while len(came) < most:
                number = int(self.client.recv(100))
                came.append((number, time.monotonic() - sent[number]))
        except TimeoutError:
            pass
        return came

    def send_all(self) -> list[tuple[int, float]]:
        """Like `send`, but waits until all packets have returned, even on a slow machine."""
        return self.send(5, PACKETS)


def packets() -> None:
    network = Namespaces(["s0", "c0"], ["s0"])
    there, back = ("c0", "s0"), ("s0", "c0")
    echo = Echo(network)
    must([number for number, _ in echo.send_all()] == list(range(PACKETS)), "an intact link loses or reorders packets")
    network.set_links([there], cut=True)
    must(not echo.send(0.2) and echo.received == 0, "a cut link forwards packets")
    network.set_links([there])
    network.set_links([back], cut=True)
    must(not echo.send(1) and echo.received == PACKETS, "a link that is cut in one direction forwards packets in both directions or in none")
    network.set_links([back], delay=0.05)
    came = echo.send_all()
    must(len(came) == PACKETS and min(taken for _, taken in came) >= 0.05, "a slow link is not slow")
    network.set_links([back], jitter=0.05)
    numbers = [number for number, _ in echo.send_all()]
    must(sorted(numbers) == list(range(PACKETS)) and numbers != sorted(numbers), "packets do not overtake each other")
    network.set_links([back], loss=0.3, twice=0.3)
    numbers = [number for number, _ in echo.send(0.3)]
    must(len(set(numbers)) < PACKETS * 0.9 and len(set(numbers)) < len(numbers), "a lossy link does not lose and repeat packets")
    network.close()


def round_trip(connection: socket.socket, wait: float) -> bool:
    connection.settimeout(wait)
    connection.send(b"x")
    try:
        return bool(connection.recv(100))
    except TimeoutError:
        return False


def proxies() -> None:
    network = Loopback(["s0", "c0"], ["s0"])
    listener = socket.create_server(network.own_address("s0")[:2])

    def serve() -> None:
        connection, _ = listener.accept()
        while got := connection.recv(100):
            connection.send(got)

    threading.Thread(target=serve, daemon=True).start()
    connection = socket.create_connection(network.addresses("c0")[0])
    must(round_trip(connection, 1), "an intact link forwards nothing")
    network.set_links([("s0", "c0")], cut=True)
    must(not round_trip(connection, 0.3), "a cut link forwards bytes")
    network.set_links([("s0", "c0")])
    must(round_trip(connection, 1), "a restored link forwards nothing")
    network.close()


def main() -> int:
    try:
        if sys.argv[1:] == [INSIDE]:
            packets()
            return 0
        proxies()
        refusal = why_no_sandbox()
        if refusal:
            print(f"The kernel refuses network namespaces ({refusal}); the proxies on loopback cut and delay.")
            return 0
        status = subprocess.run(words_in_sandbox([sys.executable, __file__, INSIDE]), check=False).returncode
        print("links can be cut, slow, lossy and out of order" if status == 0 else "the network of the tests does not work")
        return status
    except Failed as wrong:
        print(wrong)
        return 1


if __name__ == "__main__":
    sys.exit(main())
